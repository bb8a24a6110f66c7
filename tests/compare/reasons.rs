//! What a program must print of why a page is refused, or of where it is coarsest (document 02, C-19), whatever the other program prints.

use crate::checks::{self, Answer};
use independent::fields::{Field, ALL};
use independent::{a, Expected, Page, Refusal};
use std::collections::BTreeSet;
use std::ops::RangeInclusive;
use streams::setting::SMALL;
use streams::Made;

/// What is wrong with an answer.
pub fn fault(made: &Made, answer: &Answer) -> Option<String> {
    let text = String::from_utf8_lossy(&answer.text);
    let lines: Vec<&str> = text.lines().collect();
    if !answer.accepted && !answer.refused {
        let too_long = !answer.is_none() && made.bytes.len() > SMALL.bytes;
        return (!too_long).then(|| format!("neither program answers: {text}"));
    }
    let fault = match checks::plain_reading(&made.bytes, answer) {
        Ok(page) => fault_of_page(&made.bytes, &page, &lines),
        Err(refusal) if made.sound => Some(format!("a sound stream is refused, {:?}", refusal)),
        Err(refusal) => fault_of_refusal(&made.bytes, refusal, &lines),
    };
    fault.or_else(|| (!text.ends_with('\n')).then(|| String::from("the last line does not end")))
}

/// A page that is read has a line for each component, and something is cut off just where a distance is above 0.
fn fault_of_page(stream: &[u8], page: &Page, lines: &[&str]) -> Option<String> {
    let header = a::header(stream).ok()?;
    let coarsest: Option<Vec<Coarsest>> =
        lines[1..].iter().enumerate().map(|(i, line)| Coarsest::of(i, line)).collect();
    let coarsest = match coarsest {
        Some(coarsest) if coarsest.len() == header.nc => coarsest,
        _ => return Some(String::from("there is not a line for each component")),
    };
    let foreign = coarsest.iter().enumerate().any(|(i, coarsest)| coarsest.band % header.nc != i);
    let cut = coarsest.iter().map(|coarsest| coarsest.truncation > 0);
    let far = page.components.iter().map(|component| component.distance > 0);
    // Each colour takes the numbers of all three components.
    let alike = match header.cpih {
        0 => cut.eq(far),
        _ => cut.clone().take(3).any(|cut| cut) == far.clone().take(3).any(|far| far) && cut.skip(3).eq(far.skip(3)),
    };
    if lines[0] != format!("answer 0 at {}", stream.len()) {
        Some(String::from("the first line is not that of a page that is read"))
    } else if foreign {
        Some(String::from("a band is one of another component"))
    } else if !alike {
        Some(String::from("something is cut off and distances are 0, or distances are above 0 and nothing is cut off"))
    } else {
        None
    }
}

/// Where a component is coarsest, as it is printed.
struct Coarsest {
    band: usize,
    truncation: u32,
}

impl Coarsest {
    /// From the line of component `i`, if it is written as it must be.
    fn of(i: usize, line: &str) -> Option<Coarsest> {
        let mut numbers = line.split(' ').skip(1).step_by(2).map(|word| word.parse::<u32>());
        let mut next = || numbers.next()?.ok();
        let [_, band, precinct, truncation] = [next()?, next()?, next()?, next()?];
        let right = format!("component {i} band {band} precinct {precinct} truncation {truncation}");
        Some(Coarsest { band: band as usize, truncation }).filter(|_| line == right)
    }
}

/// A refused page has four lines. What they say must be so, as far as the bytes at the place show it.
fn fault_of_refusal(stream: &[u8], refusal: Refusal, lines: &[&str]) -> Option<String> {
    let (row, place) = (refusal.row as u8, refusal.place);
    if lines[0] != format!("answer {row} at {place}") {
        return Some(String::from("the first line is not that of the refusal"));
    }
    let reason = match Reason::of(row, lines) {
        Some(reason) => reason,
        None => return Some(String::from("the lines of a refusal are not four, or not written as they must be")),
    };
    let short_of = stream.len() - place < reason.expected.least;
    if reason.keeps_the_rule() {
        Some(String::from("the value found is one of those expected"))
    } else if row == 1 && !(short_of && reason.found == stream.len() - place) {
        Some(String::from("there are other bytes left than it says, or as many as needed"))
    } else if matches!(row, 1 | 5) {
        None
    } else {
        held_in_bits(reason.field).and_then(|bits| fault_in_bits(stream, refusal, &reason, bits))
    }
}

/// The reason of a refusal, as it is printed.
struct Reason {
    field: Field,
    found: usize,
    expected: Expected,
}

impl Reason {
    /// From the lines of a refusal by this row, if they are written as they must be.
    fn of(row: u8, lines: &[&str]) -> Option<Reason> {
        let (before_found, before_needed) = match row {
            1 => ("bytes left ", "bytes needed "),
            5 => ("cells lent ", "cells needed "),
            _ => ("found ", "expected "),
        };
        let (name, found, expected) = match lines[1..] {
            [name, found, expected] => (name.strip_prefix("field ")?, found, expected),
            _ => return None,
        };
        let field = *ALL.iter().find(|field| field.name() == name)?;
        let code = field.holds_a_code() && row != 1;
        let found = number(found.strip_prefix(before_found)?, code)?;
        let expected = expected.strip_prefix(before_needed)?;
        let expected = match row {
            1 | 5 => (number(expected, code)?..).into(),
            _ => range(expected, code)?,
        };
        Some(Reason { field, found, expected })
    }

    fn keeps_the_rule(&self) -> bool {
        let most = self.expected.most.unwrap_or(usize::MAX);
        (self.expected.least..=most).contains(&self.found)
    }
}

/// A number in decimal digits, or of a code four hexadecimal ones.
fn number(word: &str, code: bool) -> Option<usize> {
    let number = match code {
        true => usize::from_str_radix(word.strip_prefix("0x")?, 16).ok()?,
        false => word.parse().ok()?,
    };
    let right = if code { format!("0x{number:04x}") } else { number.to_string() };
    Some(number).filter(|_| word == right)
}

/// What a rule expects: a value, at least a value, or a range of at least two.
fn range(text: &str, code: bool) -> Option<Expected> {
    if let Some(least) = text.strip_prefix("at least ") {
        return Some((number(least, code)?..).into());
    }
    match text.split_once(" to ") {
        Some((least, most)) => {
            let range = number(least, code)?..=number(most, code)?;
            Some(range).filter(|range| range.start() < range.end()).map(Expected::from)
        }
        None => number(text, code).map(Expected::from),
    }
}

/// The bits at its place that hold a field, counted from the first of the byte there; none where it is counted or measured.
fn held_in_bits(field: Field) -> Option<RangeInclusive<usize>> {
    use Field::*;
    let bits = match field {
        Lcod => 0..=31,
        Lprc => 0..=23,
        Soc | Cap | Pih | Next | Slh | Eoc | Tcom | Wf | Hf | Hsl | Ysl => 0..=15,
        Lcap | Lpih | Lcdt | Lwgt | Lcom | Lcrg | Lcwd | Lslh => 0..=15,
        Nc | Ng | Ss | Bw | B | G | Sd | Q | R => 0..=7,
        Fq | Nlx | Sx => 0..=3,
        Br | Cpih | Nly | Sy => 4..=7,
        Fslc | Dr => 0..=0,
        Ppoc => 1..=3,
        Qpih => 2..=3,
        Fs => 4..=5,
        Rm => 6..=7,
        _ => return None,
    };
    Some(bits)
}

/// The bits at the place must hold the value found; and with another that is expected in its place, the same rule must not be broken there.
fn fault_in_bits(stream: &[u8], refusal: Refusal, reason: &Reason, bits: RangeInclusive<usize>) -> Option<String> {
    let bits: Vec<usize> = bits.map(|bit| 8 * refusal.place + bit).collect();
    let held = bits.iter().fold(0, |value, bit| value << 1 | usize::from(stream[bit / 8] >> (7 - bit % 8) & 1));
    if held != reason.found {
        return Some(format!("{held} stands there, and not {}", reason.found));
    }
    let bounds = [Some(reason.expected.least), reason.expected.most];
    let helpless = bounds.into_iter().flatten().find(|&bound| {
        let mut mended = stream.to_vec();
        bits.iter().rev().enumerate().for_each(|(n, bit)| set_bit(&mut mended, *bit, bound >> n & 1 == 1));
        let still = independent::read(&mended, usize::MAX).err();
        still.map_or(false, |still| Refusal { found: refusal.found, ..still } == refusal)
    });
    helpless.map(|bound| format!("with {bound} the same rule is broken"))
}

fn set_bit(bytes: &mut [u8], bit: usize, value: bool) {
    let mask = 0x80 >> (bit % 8);
    bytes[bit / 8] = if value { bytes[bit / 8] | mask } else { bytes[bit / 8] & !mask };
}

/// How many streams were refused by each number, which fields were named, and how many pages were read of which something is cut off.
#[derive(Default)]
pub struct Tally {
    refused: [usize; 9],
    named: BTreeSet<String>,
    cut: usize,
}

impl Tally {
    pub fn take(&mut self, answer: &Answer) {
        let text = String::from_utf8_lossy(&answer.text);
        let row = text.strip_prefix("answer ").and_then(|text| text.get(..1)?.parse::<usize>().ok());
        if let Some(refused) = row.and_then(|row| self.refused.get_mut(row)) {
            *refused += 1;
        }
        self.named.extend(text.lines().filter_map(|line| line.strip_prefix("field ")).map(String::from));
        let is_cut = |(i, line)| Coarsest::of(i, line).map_or(false, |coarsest| coarsest.truncation > 0);
        self.cut += usize::from(text.lines().skip(1).enumerate().any(is_cut));
    }

    /// What stands beside the number of streams accepted.
    pub fn note(&self) -> String {
        format!("{} with something cut off", self.cut)
    }

    pub fn print(&self) {
        let refused: Vec<String> = (1..9).map(|row| format!("{} by {row}", self.refused[row])).collect();
        println!("refused: {}", refused.join(", "));
        let unnamed = ALL.iter().map(|field| field.name()).filter(|name| !self.named.contains(*name));
        println!("fields named: {}, not named: {}", self.named.len(), unnamed.collect::<Vec<_>>().join(", "));
    }
}
