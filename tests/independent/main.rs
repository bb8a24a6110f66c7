//! Reads a codestream from standard input and prints what document 01's page program prints.
//!
//! Usage: `page [--any] [--damaged] [--distances] [--layout | --pictures NAME [--bytes] | --time N | --why]`, `page [--any] [--damaged] --bytes`
//! or `page [--any] --modes`. `--any` lifts the page program's limits. `--damaged` loses spoilt slices instead of the page (document 02,
//! C-15) and prints the marks too; `--distances` also prints the distance at each sample (C-22). `--bytes` prints behind the page, without
//! marks, where the bytes of the stream went (C-16), of a refused page too.
//! Instead of the page, `--layout` prints where the header puts bands, precincts, packets and lines, and `--time` the
//! shortest time of N readings. `--pictures` writes the samples to files and prints the answer; with `--damaged` it also
//! writes masks, and prints how much is lost; with `--distances` it also writes those, and prints the largest and how many are 0;
//! with `--bytes` it prints them last.
//! `--why` prints of a refused page which rule is broken, and of one that is read where each component is coarsest (C-19); with `--damaged` or
//! `--distances` it tells why that mode refuses a page, and of a page that is read no more than that.
//! `--modes` takes a letter before the stream: `d` is for `--damaged`, `p` for `--distances` and `q` for both, `b` is for `--bytes` and `c`
//! for `--damaged --bytes`.

mod layout;
mod pictures;

use independent::bytes::Bytes;
use independent::{read, read_damaged, read_damaged_places, read_places, text, why};
use independent::{Distances, Lent, Marks, Page, Refusal};
use std::env;
use std::io::{self, BufWriter, Read, Write};
use std::process::ExitCode;
use std::time::Instant;

/// What the page program holds.
const MAX_BYTES: usize = 16_384;
const MAX_SAMPLES: usize = 2_048;

enum Wanted {
    Page,
    Layout,
    Pictures(String),
    Time(usize),
    Why,
}

struct Options {
    any: bool,
    modes: bool,
    damaged: bool,
    distances: bool,
    bytes: bool,
    wanted: Wanted,
}

impl Options {
    /// Whether bytes are asked for where they are told. The line stands behind pages without marks and distances, and a letter
    /// says which mode it is for.
    fn has_place_for_bytes(&self) -> bool {
        match self.wanted {
            Wanted::Page => !self.modes && !self.distances,
            Wanted::Pictures(_) => !self.modes,
            Wanted::Layout | Wanted::Time(_) | Wanted::Why => false,
        }
    }
}

fn main() -> ExitCode {
    let options = match options() {
        Some(options) => options,
        None => {
            eprintln!(
                "usage: page [--any] [--modes | [--damaged] [--distances] [--layout | --pictures NAME [--bytes] | --time N \
                 | --why] | [--damaged] --bytes] < STREAM"
            );
            return ExitCode::from(2);
        }
    };
    match run(options) {
        Ok(()) => ExitCode::SUCCESS,
        Err(error) => {
            eprintln!("page: {error}");
            ExitCode::from(1)
        }
    }
}

fn options() -> Option<Options> {
    let (any, modes, damaged, distances, bytes) = (false, false, false, false, false);
    let mut options = Options { any, modes, damaged, distances, bytes, wanted: Wanted::Page };
    let mut words = env::args().skip(1);
    while let Some(word) = words.next() {
        match word.as_str() {
            "--any" => options.any = true,
            "--modes" => options.modes = true,
            "--damaged" => options.damaged = true,
            "--distances" => options.distances = true,
            "--bytes" => options.bytes = true,
            "--layout" => options.wanted = Wanted::Layout,
            "--pictures" => options.wanted = Wanted::Pictures(words.next()?),
            "--time" => options.wanted = Wanted::Time(words.next()?.parse().ok()?),
            "--why" => options.wanted = Wanted::Why,
            _ => return None,
        }
    }
    Some(options).filter(|options| !options.bytes || options.has_place_for_bytes())
}

fn run(options: Options) -> io::Result<()> {
    let mut input = Vec::new();
    io::stdin().lock().read_to_end(&mut input)?;
    let mut out = BufWriter::new(io::stdout().lock());
    match input.split_first() {
        _ if !options.modes => answer(&mut out, &options, &input)?,
        Some((b'd', stream)) => answer(&mut out, &Options { damaged: true, ..options }, stream)?,
        Some((b'p', stream)) => answer(&mut out, &Options { distances: true, ..options }, stream)?,
        Some((b'q', stream)) => answer(&mut out, &Options { damaged: true, distances: true, ..options }, stream)?,
        Some((b'b', stream)) => answer(&mut out, &Options { bytes: true, ..options }, stream)?,
        Some((b'c', stream)) => answer(&mut out, &Options { damaged: true, bytes: true, ..options }, stream)?,
        _ => writeln!(out, "unknown mode")?,
    }
    out.flush()
}

fn answer(out: &mut impl Write, options: &Options, stream: &[u8]) -> io::Result<()> {
    let room = if options.any { usize::MAX } else { MAX_SAMPLES };
    let reading = || reading(options, stream, room);
    match &options.wanted {
        _ if !options.any && stream.len() > MAX_BYTES => writeln!(out, "input too long"),
        Wanted::Page if options.bytes => print_page_and_bytes(out, &reading(), stream.len()),
        Wanted::Page => print_page(out, &reading(), stream.len()),
        Wanted::Layout => layout::print(out, stream),
        Wanted::Pictures(name) => {
            let reading = reading();
            write_pictures(out, name, &reading, stream.len())?;
            if options.bytes {
                print_bytes(out, &reading)?;
            }
            Ok(())
        }
        Wanted::Time(readings) => print_time(out, *readings, || reading().is_ok()),
        Wanted::Why => why::print(out, stream, lent(options, room)),
    }
}

/// What a caller of the mode lends who has room for so many samples.
fn lent(options: &Options, room: usize) -> Lent {
    let asked_for = |plane: bool| Some(room).filter(|_| plane);
    let (marks, distances) = (asked_for(options.damaged), asked_for(options.distances));
    Lent { marks, distances, ..Lent::for_samples(room) }
}

/// A page, with marks and distances where they are asked for.
struct Reading {
    page: Page,
    marks: Marks,
    distances: Distances,
}

fn reading(options: &Options, stream: &[u8], room: usize) -> Result<Reading, Refusal> {
    let (page, marks, distances) = match (options.damaged, options.distances) {
        (false, false) => (read(stream, room)?, Marks::new(), Distances::new()),
        (false, true) => {
            let (page, distances) = read_places(stream, room)?;
            (page, Marks::new(), distances)
        }
        (true, false) => {
            let (page, marks) = read_damaged(stream, room)?;
            (page, marks, Distances::new())
        }
        (true, true) => read_damaged_places(stream, room)?,
    };
    Ok(Reading { page, marks, distances })
}

fn print_page(out: &mut impl Write, reading: &Result<Reading, Refusal>, length: usize) -> io::Result<()> {
    match reading {
        Ok(Reading { page, marks, distances }) => {
            text::page(out, page, length)?;
            text::marks(out, page, marks)?;
            text::distances(out, page, distances)
        }
        Err(refusal) => text::refusal(out, *refusal),
    }
}

fn print_page_and_bytes(out: &mut impl Write, reading: &Result<Reading, Refusal>, length: usize) -> io::Result<()> {
    match reading {
        Ok(reading) => text::page(out, &reading.page, length)?,
        Err(refusal) => text::refusal(out, *refusal)?,
    }
    print_bytes(out, reading)
}

fn print_bytes(out: &mut impl Write, reading: &Result<Reading, Refusal>) -> io::Result<()> {
    text::bytes(out, &Bytes::of(reading.as_ref().ok().map(|reading| &reading.page)))
}

fn write_pictures(
    out: &mut impl Write,
    name: &str,
    reading: &Result<Reading, Refusal>,
    length: usize,
) -> io::Result<()> {
    match reading {
        Ok(reading) => {
            pictures::write(name, &reading.page)?;
            pictures::write_masks(name, &reading.page, &reading.marks)?;
            pictures::write_distances(name, &reading.page, &reading.distances)?;
            text::success(out, length)?;
            (0..reading.page.components.len()).try_for_each(|i| print_sums(out, i, reading))
        }
        Err(refusal) => text::refusal(out, *refusal),
    }
}

/// What marks and distances of component `i` come to. Distances of lost samples say nothing.
fn print_sums(out: &mut impl Write, i: usize, reading: &Reading) -> io::Result<()> {
    let is_lost = |at: usize| reading.marks.get(i).map_or(false, |marks| marks[at]);
    let all = reading.page.components[i].samples.len();
    if i < reading.marks.len() {
        let lost = (0..all).filter(|&at| is_lost(at)).count();
        writeln!(out, "component {i} lost {lost} of {all}")?;
    }
    if let Some(distances) = reading.distances.get(i) {
        let kept = || (0..all).filter(|&at| !is_lost(at)).map(|at| distances[at]);
        let (largest, exact) = (kept().max().unwrap_or(0), kept().filter(|&distance| distance == 0).count());
        writeln!(out, "component {i} largest {largest} exact {exact} of {all}")?;
    }
    Ok(())
}

/// Reads the stream again and again, buffers allocated anew each time.
fn print_time(out: &mut impl Write, readings: usize, read: impl Fn() -> bool) -> io::Result<()> {
    let time = |_| {
        let start = Instant::now();
        let accepted = read();
        (start.elapsed().as_nanos(), accepted)
    };
    match (0..readings).map(time).min() {
        Some((time, true)) => writeln!(out, "{time} ns"),
        _ => writeln!(out, "not read"),
    }
}
