//! Document 02's C-19: why a page was refused, and where one that is read is coarsest.

use super::a::Header;
use super::b::Layout;
use super::damaged::{self, each_precinct};
use super::{c, opened, text, Lent, Refusal, Row};
use std::cmp::Reverse;
use std::io::{self, Write};

/// A precinct, by its number in the stream, that holds a coefficient of a band, by its index, and the T of both.
#[derive(Clone, Copy, Debug, PartialEq, Eq)]
struct Held {
    band: usize,
    precinct: usize,
    truncation: u32,
}

impl Held {
    /// Greatest for the largest T, then for the lowest band, and in it for the lowest precinct.
    fn coarseness(&self) -> (u32, Reverse<usize>, Reverse<usize>) {
        (self.truncation, Reverse(self.band), Reverse(self.precinct))
    }
}

/// Prints why a stream is refused with these buffers, where marks are lent in the damaged mode. Of a page that is read it prints for
/// each component where that is coarsest, unless more than samples is asked for.
pub fn print(out: &mut impl Write, s: &[u8], lent: Lent) -> io::Result<()> {
    match judge(s, lent) {
        Ok((header, layout)) => {
            text::success(out, s.len())?;
            let plain = lent.marks.is_none() && lent.distances.is_none();
            let coarsest = if plain { coarsest(s, &header, &layout) } else { Vec::new() };
            coarsest.iter().enumerate().try_for_each(|(i, held)| print_coarsest(out, i, held))
        }
        Err(refusal) => {
            text::refusal(out, refusal)?;
            print_reason(out, refusal)
        }
    }
}

/// Reads a whole stream for the sake of its rules alone.
fn judge(s: &[u8], lent: Lent) -> Result<(Header, Layout), Refusal> {
    let (header, layout) = opened(s, lent)?;
    match lent.marks {
        Some(_) => drop(damaged::codestream(s, &header, &layout)?),
        None => drop(c::codestream(s, &header, &layout)?),
    }
    Ok((header, layout))
}

/// Where each component of a page that is read is coarsest, before any colour transform.
fn coarsest(s: &[u8], header: &Header, layout: &Layout) -> Vec<Held> {
    let mut coarsest: Vec<Option<Held>> = vec![None; header.nc];
    let walked = each_precinct(s, header, layout, |row, column, t| {
        let precinct = row * layout.columns + column;
        for (component, band) in bands_held(layout, row, column) {
            let held = Held { band, precinct, truncation: t[band] };
            let before = coarsest[component].get_or_insert(held);
            if held.coarseness() > before.coarseness() {
                *before = held;
            }
        }
    });
    assert!(walked.is_ok(), "a page that is read has its precincts where they say");
    coarsest.into_iter().flatten().collect()
}

/// The bands of which a precinct holds a coefficient, by component and index; those of several lines several times.
fn bands_held(layout: &Layout, row: usize, column: usize) -> impl Iterator<Item = (usize, usize)> + '_ {
    layout.packets(row).into_iter().flatten().filter_map(move |line| {
        let band = layout.bands[line.band].as_ref()?;
        Some((band.component, line.band)).filter(|_| layout.width(band, column) > 0)
    })
}

fn print_coarsest(out: &mut impl Write, i: usize, held: &Held) -> io::Result<()> {
    let Held { band, precinct, truncation } = held;
    writeln!(out, "component {i} band {band} precinct {precinct} truncation {truncation}")
}

/// The field, what was found there and what was expected. Rows 1 and 5 tell of bytes and of cells instead.
fn print_reason(out: &mut impl Write, refusal: Refusal) -> io::Result<()> {
    writeln!(out, "field {}", refusal.field.name())?;
    let (found, needed) = (refusal.found, refusal.expected.least);
    match refusal.row {
        Row::Cut => writeln!(out, "bytes left {found}\nbytes needed {needed}"),
        Row::Buffer => writeln!(out, "cells lent {found}\ncells needed {needed}"),
        _ => writeln!(out, "found {}\nexpected {}", value(refusal, found), expected(refusal)),
    }
}

fn expected(refusal: Refusal) -> String {
    let least = value(refusal, refusal.expected.least);
    match refusal.expected.most.map(|most| value(refusal, most)) {
        None => format!("at least {least}"),
        Some(most) if most == least => least,
        Some(most) => format!("{least} to {most}"),
    }
}

/// A number as the papers write it that the field holds.
fn value(refusal: Refusal, number: usize) -> String {
    if refusal.field.holds_a_code() {
        format!("0x{number:04x}")
    } else {
        number.to_string()
    }
}

#[cfg(test)]
mod tests {
    use super::*;
    use crate::fields::Field;
    use crate::{a, Expected};

    /// A stream of C-19 by name.
    macro_rules! stored {
        ($name:literal) => {
            &include_bytes!(concat!("../../crates/vectors/data/C-19/", $name, ".jxs"))[..]
        };
    }

    fn text(s: &[u8], lent: Lent) -> String {
        let mut out = Vec::new();
        print(&mut out, s, lent).unwrap();
        String::from_utf8(out).unwrap()
    }

    /// The lines that stand below the answer with these numbers of samples, work cells, marks and distances.
    fn reason(s: &[u8], [samples, work, marks, distances]: [usize; 4]) -> String {
        let text = text(s, Lent { samples, work, marks: Some(marks), distances: Some(distances) });
        text.split_once('\n').unwrap().1.replace('\n', "; ")
    }

    #[test]
    fn the_first_short_buffer_is_told() {
        let s = stored!("000-sound");
        let n = Layout::new(&a::header(s).unwrap()).samples();
        let short = |name, lent, needed| format!("field {name}; cells lent {lent}; cells needed {needed}; ");
        assert_eq!(reason(s, [n, 2 * n, n, n]), "");
        assert_eq!(reason(s, [n, 2 * n, n, n - 1]), short("distance cells", n - 1, n));
        assert_eq!(reason(s, [n, 2 * n, 0, 0]), short("marks in bytes", 0, n));
        assert_eq!(reason(s, [n, 2 * n - 1, 0, 0]), short("work cells", 2 * n - 1, 2 * n));
        assert_eq!(reason(s, [n - 1, 0, 0, 0]), short("sample cells", n - 1, n));
    }

    /// Buffers that are not asked for cannot be short.
    #[test]
    fn no_marks_and_distances_are_needed_without_their_modes() {
        let s = stored!("000-sound");
        assert!(text(s, Lent::for_samples(2_048)).starts_with("answer 0 at "));
        assert!(text(s, Lent::for_samples(0)).contains("field sample cells\n"));
    }

    /// Packets that are too short lose a slice, and a length that leads nowhere refuses the page, whatever else is wrong with it.
    #[test]
    fn each_mode_has_its_own_reason() {
        const ROOM: usize = 2_048;
        let damaged = |s| text(s, Lent { marks: Some(ROOM), ..Lent::for_samples(ROOM) });
        let distances = |s| text(s, Lent { distances: Some(ROOM), ..Lent::for_samples(ROOM) });
        let plain = |s| text(s, Lent::for_samples(ROOM));
        let spoilt = stored!("146-C5_dat_need");
        assert_eq!(damaged(spoilt), format!("answer 0 at {}\n", spoilt.len()));
        assert_eq!(distances(spoilt), plain(spoilt));
        let astray = stored!("160-C8_lprc16777215");
        let past = "answer 6 at 54\nfield whole precinct in bytes\nfound 16777221\nexpected 0 to 26\n";
        assert_eq!(damaged(astray), past);
        let forbidden = "answer 3 at 54\nfield Lprc precinct length\nfound 16777215\nexpected 1 to 1048575\n";
        assert_eq!([plain(astray), distances(astray)], [forbidden, forbidden]);
        let sound = stored!("001-sound");
        assert_eq!([damaged(sound), distances(sound)], [1, 2].map(|_| format!("answer 0 at {}\n", sound.len())));
    }

    /// Only markers and types of extensions are codes; bytes that are left are none.
    #[test]
    fn codes_have_hexadecimal_digits() {
        let last_lines = |row, field, found, expected: Expected| {
            let mut out = Vec::new();
            print_reason(&mut out, Refusal { row, place: 0, field, found, expected }).unwrap();
            String::from_utf8(out).unwrap().lines().skip(1).collect::<Vec<_>>().join("; ")
        };
        assert_eq!(last_lines(Row::Value, Field::Tcom, 2, (0..=1).into()), "found 0x0002; expected 0x0000 to 0x0001");
        assert_eq!(last_lines(Row::NotBuilt, Field::Slh, 0xff21, 0xff20.into()), "found 0xff21; expected 0xff20");
        assert_eq!(last_lines(Row::Cut, Field::Slh, 1, (2..).into()), "bytes left 1; bytes needed 2");
        assert_eq!(last_lines(Row::Value, Field::Cw, 0, (32..).into()), "found 0; expected at least 32");
        assert_eq!(last_lines(Row::Value, Field::Hsl, 0, (1..=65_535).into()), "found 0; expected 1 to 65535");
    }

    #[test]
    fn the_largest_t_comes_before_the_lowest_band_and_that_before_the_lowest_precinct() {
        let held = |truncation, band, precinct| Held { band, precinct, truncation };
        let in_order = [held(4, 9, 9), held(3, 0, 1), held(3, 0, 2), held(3, 1, 0), held(0, 0, 0), held(0, 1, 0)];
        assert!(in_order.windows(2).all(|pair| pair[0].coarseness() > pair[1].coarseness()));
    }

    /// With one level down a precinct has two rows of samples; half the height of five rows is three.
    #[test]
    fn a_last_precinct_may_hold_no_line_of_a_band() {
        let layout = Layout::new(&Header::plain(8, 5, 1, 1, &[(1, 1), (2, 2)]));
        let held = |row| {
            let mut bands: Vec<(usize, usize)> = bands_held(&layout, row, 0).collect();
            bands.sort_unstable();
            bands
        };
        assert_eq!(held(0), [(0, 0), (0, 2), (0, 4), (0, 6), (1, 1), (1, 3)]);
        assert_eq!(held(2), [(0, 0), (0, 2), (1, 1), (1, 3)]);
    }
}
