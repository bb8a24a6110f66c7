//! What the line on bytes must say (document 02, C-16), whatever the other program prints.

use crate::checks::Answer;
use crate::options::Mode;
use streams::Made;

/// The totals in their order.
pub type Totals = [usize; 9];
const NAMES: [&str; 9] =
    ["markers", "precincts", "packets", "significance", "counts", "data", "signs", "filler", "spoilt"];
const FILLER: usize = 7;
const SPOILT: usize = 8;

fn line(totals: &Totals) -> String {
    let words = NAMES.iter().zip(totals).map(|(name, total)| format!(" {name} {total}"));
    format!("bytes{}", words.collect::<String>())
}

/// The totals of the last line; none where it is not such a line, letter for letter.
pub fn totals(text: &[u8]) -> Option<Totals> {
    let last = text.strip_suffix(b"\n")?.rsplit(|&byte| byte == b'\n').next()?;
    let last = std::str::from_utf8(last).ok()?;
    let mut totals = [0; 9];
    for (total, number) in totals.iter_mut().zip(last.split(' ').skip(2).step_by(2)) {
        *total = number.parse().ok()?;
    }
    Some(totals).filter(|totals| line(totals) == last)
}

pub fn has_filler(answer: &Answer) -> bool {
    answer.totals.map_or(false, |totals| totals[FILLER] > 0)
}

pub fn has_spoilt(answer: &Answer) -> bool {
    answer.totals.map_or(false, |totals| totals[SPOILT] > 0)
}

/// What is wrong with the totals of an answer by themselves, and beside the count of the stream's maker.
pub fn fault(mode: Mode, made: &Made, answer: &Answer) -> Option<String> {
    let totals = match answer.totals {
        Some(totals) => totals,
        None if answer.accepted || answer.refused => {
            return Some(String::from("the last line does not tell the bytes"))
        }
        None => return None,
    };
    let all = totals.iter().fold(0, |all: usize, &total| all.saturating_add(total));
    // The maker knows where the bytes of a sound stream went, and where those of a stream set apart go once its slice is lost.
    let known = made.counted.filter(|_| made.sound || has_spoilt(answer));
    if answer.refused && totals != [0; 9] {
        Some(String::from("a refused stream has bytes"))
    } else if answer.accepted && all != made.bytes.len() {
        Some(format!("the bytes add up to {}, the stream has {}", all, made.bytes.len()))
    } else if !mode.loses_slices() && has_spoilt(answer) {
        Some(String::from("bytes are spoilt in a mode that loses no slices"))
    } else {
        let counted = known.map(|counted| counted.totals()).filter(|counted| *counted != totals)?;
        Some(format!("the bytes are not those written\nwritten: {}\nprinted: {}", line(&counted), line(&totals)))
    }
}

/// What is wrong with an answer beside that with marks for the same stream.
pub fn fault_beside_marks(answer: &Answer, marked: &Answer) -> Option<String> {
    if answer.page_part() != marked.before_marks() {
        Some(String::from("before the bytes stands another page than without them"))
    } else if has_spoilt(answer) != marked.has_lost() {
        Some(String::from("bytes are spoilt and no sample is lost, or a sample is lost and no bytes are spoilt"))
    } else {
        None
    }
}
