//! Runs two programs on made streams and compares every byte that they print. Stops at the first difference.
//!
//! Usage: `compare FIRST SECOND [sound N] [damaged N] [bounds N] [foreign N] [headers N] [seed S] [large]`,
//! or `compare FIRST SECOND spoilt N [seed S] [large]`, with `placed`, `counted` or `reasons` in the place of `spoilt`. FIRST and SECOND are
//! command lines whose words are separated by spaces; each gets the stream on standard input. Sound streams are a third each
//! of random syntax, pictures and coefficients; a page program must accept them, and for the latter two its samples must keep
//! the distance that it prints. `stream KIND SEED` makes a stream again.
//!
//! With `spoilt` the programs are asked for the damaged mode: the letter `d` stands before the stream. Half of the streams
//! have spoilt slices, and a quarter differs from a sound twin in one slice; the others are of all other sorts. What SECOND
//! prints for a sound stream must be the page as the independent decoder reads it, with nothing lost; and of a stream that
//! lost a slice, every sample not marked must be that of its twin, and keep the distance printed.
//!
//! With `placed` they are asked for the distance at each sample: the letter is `p`, or for half of the streams `q`, in the
//! damaged mode. Three eighths of the streams are coarse in a part of the page, and as many have spoilt slices. Of what SECOND
//! prints all before the distances must be what is printed without them; no distance may exceed its component's, but that of
//! a lost sample is the largest there is; and each sample must keep its own.
//!
//! With `counted` they are asked where the bytes went: the letter is `b`, or for half of the streams `c`, in the damaged mode. A
//! quarter of the streams has much filler, three eighths have spoilt slices. Of what SECOND prints all before the last line must be
//! what is printed without it, marks left out; that line must add up to the stream's length, or for a refused stream say 0 nine
//! times; for a sound stream, or one that lost the slice in which it differs from a sound twin, it must be the count of its maker.
//!
//! With `reasons` the programs print why a stream is refused, or where each component is coarsest. A third of the streams is damaged anywhere,
//! a third has one change in the header; the others are of all other sorts. What SECOND prints must be written as it must be, with the
//! number and place that the independent decoder finds, and true as far as the bytes at the place show it.

mod bytes;
mod checks;
mod options;
mod printed;
mod reasons;

use checks::Answer;
use options::{Case, Mode, Options};
use std::env;
use std::fs::{self, File};
use std::io;
use std::path::{Path, PathBuf};
use std::process::{self, Command, ExitCode, Stdio};
use std::sync::atomic::{AtomicBool, AtomicUsize, Ordering};
use std::sync::Mutex;
use std::thread;
use streams::{make, Kind, Made};

fn main() -> ExitCode {
    let words: Vec<String> = env::args().skip(1).collect();
    let options = match Options::new(&words) {
        Some(options) => options,
        None => {
            eprintln!(
                "usage: compare FIRST SECOND [sound N] [damaged N] [bounds N] [foreign N] [headers N] [seed S] [large]"
            );
            eprintln!("       compare FIRST SECOND (spoilt | placed | counted | reasons) N [seed S] [large]");
            return ExitCode::from(2);
        }
    };
    match compare(&options) {
        Ok(None) => ExitCode::SUCCESS,
        Ok(Some(difference)) => {
            println!("{}", difference);
            ExitCode::from(1)
        }
        Err(error) => {
            eprintln!("compare: {}", error);
            ExitCode::from(2)
        }
    }
}

/// How many streams were accepted, and of these how many lost a slice, had a sample that is nearer than its component's distance, or
/// had filler; and what reasons were given.
#[derive(Default)]
struct Tally {
    accepted: AtomicUsize,
    lossy: AtomicUsize,
    nearer: AtomicUsize,
    filled: AtomicUsize,
    reasons: Mutex<reasons::Tally>,
}

impl Tally {
    fn take(&self, answer: &Answer) {
        self.accepted.fetch_add(usize::from(answer.accepted), Ordering::SeqCst);
        self.lossy.fetch_add(usize::from(answer.has_lost() || bytes::has_spoilt(answer)), Ordering::SeqCst);
        self.nearer.fetch_add(usize::from(answer.has_nearer()), Ordering::SeqCst);
        self.filled.fetch_add(usize::from(bytes::has_filler(answer)), Ordering::SeqCst);
        self.reasons.lock().expect("no worker panics").take(answer);
    }

    fn print(self, options: &Options) {
        let (all, accepted) = (options.streams(), self.accepted.into_inner());
        let [lossy, nearer, filled] = [self.lossy, self.nearer, self.filled].map(AtomicUsize::into_inner);
        let mut notes = Vec::new();
        if options.loses_slices() {
            notes.push(format!("{lossy} with lost slices"));
        }
        if options.has_places() {
            notes.push(format!("{nearer} with samples nearer than their component"));
        }
        if options.has_bytes() {
            notes.push(format!("{filled} with filler"));
        }
        let reasons = self.reasons.into_inner().expect("no worker panics");
        if options.has_reasons() {
            notes.push(reasons.note());
        }
        let notes = if notes.is_empty() { String::new() } else { format!(" ({})", notes.join(", ")) };
        println!("{all} streams, {accepted} accepted{notes}: no difference");
        if options.has_reasons() {
            reasons.print();
        }
    }
}

/// Compares all streams on all processors, and gives the first difference in the order of the streams.
fn compare(options: &Options) -> io::Result<Option<String>> {
    let folder = env::temp_dir().join(format!("compare-{}", process::id()));
    fs::create_dir_all(&folder)?;
    let workers = thread::available_parallelism().map_or(1, usize::from);
    let (next, stop, tally) = (AtomicUsize::new(0), AtomicBool::new(false), Tally::default());
    let found: Mutex<Vec<(usize, io::Result<String>)>> = Mutex::new(Vec::new());
    let work = |worker: usize| {
        let input = folder.join(format!("input-{}", worker));
        while !stop.load(Ordering::SeqCst) {
            let n = next.fetch_add(1, Ordering::SeqCst);
            if n >= options.streams() {
                break;
            }
            progress(n, options.streams());
            let difference = match judge(options, options.case(n), &input, &folder) {
                Ok(Verdict::Agreed(answer)) => {
                    tally.take(&answer);
                    continue;
                }
                Ok(Verdict::Difference(text)) => Ok(text),
                Err(error) => Err(error),
            };
            found.lock().expect("no worker panics").push((n, difference));
            stop.store(true, Ordering::SeqCst);
        }
        drop(fs::remove_file(input));
    };
    let work = &work;
    thread::scope(|scope| (0..workers).for_each(|worker| drop(scope.spawn(move || work(worker)))));
    let first = found.into_inner().expect("no worker panics").into_iter().min_by_key(|(n, _)| *n);
    if let Some((_, difference)) = first {
        return difference.map(Some);
    }
    fs::remove_dir_all(folder)?;
    tally.print(options);
    Ok(None)
}

fn progress(n: usize, all: usize) {
    if n % (all / 10 + 1) == 0 {
        eprintln!("{n} of {all} streams");
    }
}

enum Verdict {
    Agreed(Answer),
    Difference(String),
}

/// Runs both programs on a stream. A stream on which they differ is kept.
fn judge(options: &Options, case: Case, input: &Path, folder: &Path) -> io::Result<Verdict> {
    let made = make(case.kind, case.seed, options.limits);
    let first = answer(&options.first, case.mode, &made.bytes, input)?;
    let second = Answer::new(answer(&options.second, case.mode, &made.bytes, input)?);
    let fault = match first == second.text {
        false => Some(difference(&first, &second.text)),
        true => fault(options, case, &made, &second, input)?,
    };
    let fault = match fault {
        None => return Ok(Verdict::Agreed(second)),
        Some(fault) => fault,
    };
    let kept: PathBuf = folder.join(format!("{}.jxs", made.name));
    fs::write(&kept, &made.bytes)?;
    let letter = String::from_utf8_lossy(case.mode.letter());
    let mode = if letter.is_empty() { String::new() } else { format!(" by letter {letter}") };
    Ok(Verdict::Difference(format!("{}{}: {}\nkept as {}", made.name, mode, fault, kept.display())))
}

/// What is wrong with what the second program prints, by itself and beside what it prints otherwise.
fn fault(options: &Options, case: Case, made: &Made, second: &Answer, input: &Path) -> io::Result<Option<String>> {
    let again = |mode: Mode, stream: &[u8]| answer(&options.second, mode, stream, input);
    if case.mode == Mode::Reasons {
        return Ok(reasons::fault(made, second));
    }
    if let Some(fault) = checks::fault(case.mode, made, second) {
        return Ok(Some(fault));
    }
    if case.mode == Mode::DamagedPlaces && second.page_part() != again(Mode::Damaged, &made.bytes)? {
        return Ok(Some(String::from("before the distances stands another page than without them")));
    }
    if case.mode.has_bytes() {
        let marked = || again(Mode::Damaged, &made.bytes).map(Answer::new);
        return bytes_fault(case, made, second, marked);
    }
    if case.kind != Kind::Apart || !case.mode.loses_slices() {
        return Ok(None);
    }
    if second.refused {
        return Ok(Some(String::from("a stream spoilt in one slice is refused")));
    }
    if !second.has_lost() {
        return Ok(None);
    }
    let twin = make(Kind::Twin, case.seed, options.limits);
    let whole = Answer::new(again(case.mode, &twin.bytes)?);
    Ok(checks::fault_beside_twin(case.mode, second, &whole, &twin.bytes))
}

/// What is wrong with the bytes that the second program prints; `marked` is what it prints of the same stream with marks.
fn bytes_fault(
    case: Case,
    made: &Made,
    second: &Answer,
    marked: impl Fn() -> io::Result<Answer>,
) -> io::Result<Option<String>> {
    let fault = bytes::fault(case.mode, made, second);
    if fault.is_some() || !case.mode.loses_slices() {
        return Ok(fault);
    }
    if case.kind == Kind::Apart && second.refused {
        return Ok(Some(String::from("a stream spoilt in one slice is refused")));
    }
    Ok(bytes::fault_beside_marks(second, &marked()?))
}

/// What a program prints for a stream in a mode.
fn answer(command: &str, mode: Mode, stream: &[u8], input: &Path) -> io::Result<Vec<u8>> {
    fs::write(input, [mode.letter(), stream].concat())?;
    run(command, input)
}

/// What a program prints for its input.
fn run(command: &str, input: &Path) -> io::Result<Vec<u8>> {
    let mut words = command.split_whitespace();
    let program = words.next().unwrap_or("");
    let output = Command::new(program).args(words).stdin(File::open(input)?).stderr(Stdio::inherit()).output()?;
    match output.status.code() {
        Some(_) => Ok(output.stdout),
        None => Err(io::Error::new(io::ErrorKind::Other, format!("{} was killed: {}", program, output.status))),
    }
}

/// The first lines that differ.
fn difference(first: &[u8], second: &[u8]) -> String {
    let (first, second) = (String::from_utf8_lossy(first), String::from_utf8_lossy(second));
    let (mut ours, mut theirs) = (first.split('\n'), second.split('\n'));
    for line in 1.. {
        match (ours.next(), theirs.next()) {
            (a, b) if a == b => {}
            (a, b) => return format!("line {} differs\nfirst:  {}\nsecond: {}", line, shown(a), shown(b)),
        }
    }
    unreachable!("the answers differ in some line")
}

fn shown(line: Option<&str>) -> String {
    line.map_or(String::from("(ends)"), |line| line.chars().take(400).collect())
}
