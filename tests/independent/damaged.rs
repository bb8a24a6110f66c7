//! Document 02's C-15: the slices of a page of which some may be spoilt.
//!
//! A page ends only where the way through it ends: at its header, a slice header, a precinct's length or the end marker.
//! Whatever else breaks a rule stands in the precincts of one slice, and that slice is lost.

use super::a::Header;
use super::b::Layout;
use super::bytes::Bytes;
use super::c::{self, Decoded, Reader};
use super::e::{self, Plane};
use super::Refusal;
use std::ops::Range;

/// As `c::codestream`, with nothing in it that comes from a lost slice but its bytes; and which coefficients are lost.
pub fn codestream(s: &[u8], header: &Header, layout: &Layout) -> Result<(Decoded, Vec<Plane<bool>>), Refusal> {
    let mut reader = Reader::new(s, header, layout);
    let mut lost = e::planes(layout);
    let markers = c::each_slice(s, header, layout, |rows, at| {
        let mut stepped_over = 0;
        let end = step_over(s, layout, rows.clone(), at, |_, _, precinct| stepped_over += precinct.len())?;
        let (largest_t, bytes) = (reader.decoded.largest_t.clone(), reader.decoded.bytes);
        if reader.slice(rows.clone(), at).is_err() {
            reader.decoded.largest_t = largest_t;
            reader.decoded.bytes = Bytes { spoilt: bytes.spoilt + stepped_over, ..bytes };
            e::fill(&mut reader.decoded.planes, layout, rows.clone(), 0);
            e::fill(&mut lost, layout, rows, true);
        }
        Ok(end)
    })?;
    reader.decoded.bytes.markers = markers;
    Ok((reader.decoded, lost))
}

/// Goes over all precincts of a page by their declared lengths, whatever stands in them. `precinct` takes the row, the column and the
/// T[p,b] of each by band index.
pub fn each_precinct(
    s: &[u8],
    header: &Header,
    layout: &Layout,
    mut precinct: impl FnMut(usize, usize, &[u32]),
) -> Result<(), Refusal> {
    c::each_slice(s, header, layout, |rows, at| {
        step_over(s, layout, rows, at, |row, column, bytes| {
            precinct(row, column, &c::truncations(s, header, layout, bytes.start));
        })
    })?;
    Ok(())
}

/// Goes over the precincts of a slice by their declared lengths, whatever stands in them, and gives the offset behind them.
/// `precinct` takes the row, the column and the bytes of each.
fn step_over(
    s: &[u8],
    layout: &Layout,
    rows: Range<usize>,
    at: usize,
    mut precinct: impl FnMut(usize, usize, Range<usize>),
) -> Result<usize, Refusal> {
    let mut precincts = rows.flat_map(|row| (0..layout.columns).map(move |column| (row, column)));
    precincts.try_fold(at, |at, (row, column)| {
        let lprc = c::precinct_length(s, at)?;
        let end = c::precinct_body(s, layout, at, lprc)?.end;
        precinct(row, column, at..end);
        Ok(end)
    })
}

#[cfg(test)]
mod tests {
    use super::*;
    use crate::{marks, transform, Row};

    const FULL: &[(usize, usize)] = &[(1, 1)];
    const QUARTER: &[(usize, usize)] = &[(1, 1), (2, 2)];

    /// A page eight samples wide, in slices of `hsl` rows of precincts.
    fn page(hf: usize, nly: u32, hsl: usize, sampling: &[(usize, usize)]) -> (Header, Layout) {
        let header = Header { hsl, ..Header::plain(8, hf, 2, nly, sampling) };
        let layout = Layout::new(&header);
        (header, layout)
    }

    fn losing(layout: &Layout, slice: usize) -> Vec<Plane<bool>> {
        let mut lost = e::planes(layout);
        e::fill(&mut lost, layout, layout.slices().nth(slice).unwrap(), true);
        lost
    }

    /// For each component the first and the last row that are marked when one slice is lost. Rows are marked whole, and
    /// no other lies between them.
    fn reach(hf: usize, nly: u32, sampling: &[(usize, usize)], slice: usize) -> Vec<(usize, usize)> {
        let (header, layout) = page(hf, nly, 1, sampling);
        let marks = marks(&header, &layout, losing(&layout, slice));
        let ends = marks.iter().zip(&layout.shapes).map(|(marks, shape)| {
            let rows: Vec<&[bool]> = marks.chunks(shape.width).collect();
            let first = rows.iter().position(|row| row[0]).unwrap();
            let last = rows.iter().rposition(|row| row[0]).unwrap();
            let between = |(y, row): (usize, &&[bool])| row.iter().all(|&lost| lost == (first..=last).contains(&y));
            assert!(rows.iter().enumerate().all(between));
            (first, last)
        });
        ends.collect()
    }

    #[test]
    fn without_vertical_levels_a_slice_reaches_no_other() {
        assert_eq!(reach(6, 0, FULL, 0), [(0, 0)]);
        assert_eq!(reach(6, 0, FULL, 3), [(3, 3)]);
    }

    /// A slice holds the places 2t and 2t + 1: from the high one two even rows take it, and from each even row two odd ones.
    #[test]
    fn one_vertical_level() {
        assert_eq!(reach(8, 1, FULL, 0), [(0, 3)]);
        assert_eq!(reach(8, 1, FULL, 1), [(1, 5)]);
        assert_eq!(reach(8, 1, FULL, 3), [(5, 7)]);
        assert_eq!(reach(7, 1, FULL, 2), [(3, 6)]);
        assert_eq!(reach(7, 1, FULL, 3), [(5, 6)]);
    }

    /// A slice holds the places 4t to 4t + 3. The even rows, joined first, are marked as with one level; beside each of
    /// them lie two odd rows.
    #[test]
    fn two_vertical_levels() {
        assert_eq!(reach(16, 2, FULL, 0), [(0, 7)]);
        assert_eq!(reach(16, 2, FULL, 1), [(1, 11)]);
        assert_eq!(reach(16, 2, FULL, 3), [(9, 15)]);
        assert_eq!(reach(13, 2, FULL, 3), [(9, 12)]);
    }

    /// Components of half the height have half the rows in a slice, and one level less.
    #[test]
    fn half_the_height() {
        assert_eq!(reach(8, 1, QUARTER, 1), [(1, 5), (1, 1)]);
        assert_eq!(reach(16, 2, QUARTER, 1), [(1, 11), (1, 5)]);
        assert_eq!(reach(13, 2, QUARTER, 3), [(9, 12), (5, 6)]);
    }

    /// Steps over precincts of one component with four bands, whose headers have six bytes.
    fn stepped(lengths: &[usize], bytes: usize) -> Result<usize, (Row, usize)> {
        let layout = Layout::new(&Header::plain(8, 8, 1, 1, FULL));
        let precinct = |&lprc: &usize| [&(lprc as u32).to_be_bytes()[1..], &vec![0xff; 3 + lprc]].concat();
        let mut s: Vec<u8> = lengths.iter().flat_map(precinct).collect();
        s.truncate(bytes);
        step_over(&s, &layout, 0..lengths.len(), 0, |_, _, _| ()).map_err(|refusal| (refusal.row, refusal.place))
    }

    #[test]
    fn precincts_end_where_their_lengths_say() {
        assert_eq!(stepped(&[1, 3], 16), Ok(16));
        assert_eq!(stepped(&[1, 3], 15), Err((Row::Length, 7)));
        assert_eq!(stepped(&[1, 3], 10), Err((Row::Length, 7)));
        assert_eq!(stepped(&[1, 3], 9), Err((Row::Cut, 7)));
        assert_eq!(stepped(&[1, 3], 6), Err((Row::Length, 0)));
    }

    #[test]
    fn a_forbidden_length_is_a_length() {
        assert_eq!(stepped(&[0, 1 << 20], 12 + (1 << 20)), Ok(12 + (1 << 20)));
        assert_eq!(stepped(&[0, 1 << 20], 11 + (1 << 20)), Err((Row::Length, 6)));
        assert_eq!(stepped(&[0], 5), Err((Row::Length, 0)));
    }

    /// The marks that lost coefficients give one by one: whether so large a change of one changes a sample.
    fn changed(header: &Header, layout: &Layout, lost: &[Plane<bool>]) -> Vec<Vec<bool>> {
        let mut changed: Vec<Vec<bool>> = lost.iter().map(|plane| vec![false; plane.cells.len()]).collect();
        for (i, plane) in lost.iter().enumerate() {
            for at in (0..plane.cells.len()).filter(|&at| plane.cells[at]) {
                let mut planes: Vec<Plane<i64>> = e::planes(layout);
                planes[i].cells[at] = 1 << 40;
                transform(header, layout, &mut planes);
                let cells = planes.iter().map(|plane| &plane.cells);
                changed.iter_mut().flatten().zip(cells.flatten()).for_each(|(changed, &cell)| *changed |= cell != 0);
            }
        }
        changed
    }

    #[test]
    fn what_a_lost_coefficient_can_change_is_marked() {
        for (hf, nly, hsl) in [(5, 0, 2), (9, 1, 1), (12, 1, 2), (14, 2, 1), (19, 2, 2)] {
            for (sampling, cpih) in [(FULL, 0), (QUARTER, 0), (&[(1, 1); 4], 1)] {
                if nly == 0 && sampling == QUARTER {
                    continue;
                }
                let (mut header, layout) = page(hf, nly, hsl, sampling);
                header.cpih = cpih;
                for slice in 0..layout.slices().count() {
                    let by_value = changed(&header, &layout, &losing(&layout, slice));
                    assert_eq!(marks(&header, &layout, losing(&layout, slice)), by_value, "{hf} {nly} {slice}");
                }
            }
        }
    }
}
