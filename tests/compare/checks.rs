//! What the output of a program must be like, whatever the other one prints.

use crate::bytes::{self, Totals};
use crate::options::Mode;
use crate::printed::{self, Printed};
use independent::{a, text, Page, Refusal};
use streams::Made;

/// What a program prints for a stream.
pub struct Answer {
    pub text: Vec<u8>,
    pub accepted: bool,
    pub refused: bool,
    pub page: Vec<Printed>,
    /// Where the bytes went, if the last line tells it.
    pub totals: Option<Totals>,
}

impl Answer {
    pub fn new(text: Vec<u8>) -> Answer {
        let accepted = text.starts_with(b"answer 0 ");
        let refused = text.starts_with(b"answer ") && !accepted;
        let (page, totals) = (printed::page(&text), bytes::totals(&text));
        Answer { text, accepted, refused, page, totals }
    }

    pub fn is_none(&self) -> bool {
        !self.accepted && !self.refused && self.text != b"input too long\n"
    }

    /// Whether a sample is lost.
    pub fn has_lost(&self) -> bool {
        self.page.iter().any(|component| component.marks.contains(&true))
    }

    /// Whether a sample is nearer than its component's distance.
    pub fn has_nearer(&self) -> bool {
        let nearer = |component: &Printed| component.distances.iter().any(|&near| near < component.distance);
        self.page.iter().any(nearer)
    }

    /// All before the distances at the samples, or before the line on bytes.
    pub fn page_part(&self) -> &[u8] {
        let (places, bytes) = (self.before(b"\ndistances 0\n"), self.before(b"\nbytes "));
        if places.len() < bytes.len() {
            places
        } else {
            bytes
        }
    }

    /// All before the marks.
    pub fn before_marks(&self) -> &[u8] {
        self.before(b"\nmarks 0\n")
    }

    /// The lines before one that begins so, or all.
    fn before(&self, start: &[u8]) -> &[u8] {
        let end = self.text.windows(start.len()).position(|window| window == start);
        end.map_or(&self.text, |end| &self.text[..end + 1])
    }

    fn lines(&self) -> usize {
        self.text.iter().filter(|&&byte| byte == b'\n').count()
    }
}

/// What is wrong with an answer by itself.
pub fn fault(mode: Mode, made: &Made, answer: &Answer) -> Option<String> {
    let unlike_plain = || answer.page_part() != plain(mode, &made.bytes, answer);
    let refusal_lines = 1 + usize::from(mode.has_bytes() && answer.refused);
    // Damage that breaks no rule may move samples.
    let promised = answer.accepted && (made.sound || answer.has_lost());
    let far = || made.exact.as_ref().map_or(false, |exact| !keeps_distance(&answer.page, exact));
    if answer.is_none() {
        Some(String::from("neither program answers"))
    } else if made.sound && answer.refused {
        Some(format!("a sound stream is refused, {}", String::from_utf8_lossy(&answer.text).trim_end()))
    } else if made.sound && answer.accepted && mode.loses_slices() && unlike_plain() {
        Some(String::from("a sound stream is not read as a page without loss"))
    } else if mode == Mode::Places && answer.accepted && unlike_plain() {
        Some(String::from("before the distances stands another page than without them"))
    } else if mode == Mode::Bytes && (answer.accepted || answer.refused) && unlike_plain() {
        Some(String::from("before the bytes stands another page than without them"))
    } else if !answer.accepted && answer.lines() != refusal_lines {
        Some(String::from("a refusal has more lines or fewer than it must"))
    } else if mode.has_places() && answer.accepted && !has_right_places(&answer.page, &made.bytes) {
        Some(String::from("a distance exceeds its component's, or is not the largest where a sample is lost"))
    } else if promised && far() {
        Some(String::from("a sample is further away than the distance printed"))
    } else {
        None
    }
}

/// A stream as `independent/` reads it. Only the program that answers knows how many samples it has room for: it may find them too many,
/// where nothing else is wrong.
pub fn plain_reading(stream: &[u8], answer: &Answer) -> Result<Page, Refusal> {
    let room = if answer.text.starts_with(b"answer 5 ") { 0 } else { usize::MAX };
    independent::read(stream, room)
}

/// What is printed of a stream before the distances or the bytes: as `independent/` reads it, where marks are printed with nothing lost.
fn plain(mode: Mode, stream: &[u8], answer: &Answer) -> Vec<u8> {
    let mut out = Vec::new();
    match plain_reading(stream, answer) {
        Ok(page) => {
            text::page(&mut out, &page, stream.len()).expect("memory takes it");
            if mode.has_marks() {
                let marks = page.components.iter().map(|component| vec![false; component.samples.len()]).collect();
                text::marks(&mut out, &page, &marks).expect("memory takes it");
            }
        }
        Err(refusal) => text::refusal(&mut out, refusal).expect("memory takes it"),
    }
    out
}

/// What is wrong with the answer for a stream that lost a slice and otherwise is a sound twin.
pub fn fault_beside_twin(mode: Mode, answer: &Answer, twin: &Answer, twin_bytes: &[u8]) -> Option<String> {
    if twin.page_part() != plain(mode, twin_bytes, twin) {
        Some(String::from("the sound stream beside it is not read as a page without loss"))
    } else if !keeps_samples(&answer.page, &twin.page) {
        Some(String::from("a sample that is not marked, or its distance, is not that of the sound stream"))
    } else {
        None
    }
}

/// Whether all samples printed and not marked are those of another page, with the same distances.
fn keeps_samples(page: &[Printed], other: &[Printed]) -> bool {
    let alike = |(a, b): (&Printed, &Printed)| {
        a.unmarked().all(|at| b.samples.get(at) == Some(&a.samples[at]) && b.distances.get(at) == a.distances.get(at))
    };
    page.len() == other.len() && page.iter().zip(other).all(alike)
}

/// Whether all samples printed and not marked are within the distance printed from the exact ones: their own where there is one.
fn keeps_distance(page: &[Printed], exact: &[Vec<u16>]) -> bool {
    let within = |(printed, exact): (&Printed, &Vec<u16>)| {
        let near = |at: usize| (printed.samples[at] - i64::from(exact[at])).abs() <= printed.distance_at(at);
        printed.samples.len() == exact.len() && printed.unmarked().all(near)
    };
    page.len() == exact.len() && page.iter().zip(exact).all(within)
}

/// Whether there is a distance at each sample: the largest that the precision allows where it is marked, elsewhere none above the component's.
fn has_right_places(page: &[Printed], stream: &[u8]) -> bool {
    let right = |(printed, b): (&Printed, u32)| {
        let right_at = |(at, &near): (usize, &i64)| match printed.is_marked(at) {
            true => near == (1 << b) - 1,
            false => (0..=printed.distance).contains(&near),
        };
        printed.distances.len() == printed.samples.len() && printed.distances.iter().enumerate().all(right_at)
    };
    a::header(stream).map_or(false, |header| page.iter().zip(header.cdt.iter().map(|entry| entry.b)).all(right))
}
