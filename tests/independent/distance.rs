//! Document 01's distance rule: for components, and taken place by place (document 02, C-22).

use super::a::Header;
use super::b::Layout;
use super::e::{Plane, Step, Value};
use super::{f, transform, Distances};

/// How far a value may be off.
#[derive(Clone, Copy, Debug, Default, PartialEq, Eq)]
pub struct Number(pub u64);

/// A step of a transformation adds its share of the other numbers, whatever sign it has, rounded up whatever it rounds to.
impl Value for Number {
    fn changed<const N: usize>(self, others: [Number; N], step: Step) -> Number {
        Number(self.0 + scaled(others.iter().map(|other| other.0).sum(), step.shift))
    }
}

/// The distance of each component, from the largest truncation position of each band by index.
pub fn components(header: &Header, layout: &Layout, largest_t: &[u32]) -> Vec<u64> {
    let mut inputs: Vec<Vec<u64>> = layout.shapes.iter().map(|_| Vec::new()).collect();
    for (band, &t) in layout.bands.iter().zip(largest_t) {
        if let Some(band) = band {
            inputs[band.component].push(band_number(t, header.fq).0);
        }
    }
    let components = inputs.into_iter().zip(&layout.shapes);
    let mut numbers: Vec<Number> =
        components.map(|(bands, shape)| Number(joined(&bands, shape.nlx, shape.nly))).collect();
    if let (1, [e0, e1, e2, ..]) = (header.cpih, &mut numbers[..]) {
        (*e0, *e1, *e2) = f::colours(*e0, *e1, *e2);
    }
    header.cdt.iter().zip(numbers).map(|(entry, number)| distance(number, header.bw, entry.b)).collect()
}

/// The distance of each sample, from the number of each coefficient. Steps 2 and 3 are those of Annexes E and F.
pub fn places(header: &Header, layout: &Layout, mut numbers: Vec<Plane<Number>>) -> Distances {
    transform(header, layout, &mut numbers);
    let outputs = numbers.into_iter().zip(&header.cdt);
    let near = |number: &Number, b: u32| distance(*number, header.bw, b) as u16;
    outputs.map(|(plane, entry)| plane.cells.iter().map(|number| near(number, entry.b)).collect()).collect()
}

/// Step 1.
pub fn band_number(t: u32, fq: u32) -> Number {
    Number(((1 << t) - 1) << fq)
}

/// Step 2.
fn join(low: u64, high: u64) -> u64 {
    low + high + (high + 1) / 2
}

/// Step 2 over all of a component's bands, in the order of Table E.1, which is that of filter types.
fn joined(bands: &[u64], nlx: u32, nly: u32) -> u64 {
    let (across, both) = bands[1..].split_at((nlx - nly) as usize);
    let low = across.iter().fold(bands[0], |low, &hl| join(low, hl));
    both.chunks(3).take(nly as usize).fold(low, |low, level| join(join(low, level[0]), join(level[1], level[2])))
}

/// Steps 4 and 5, for a component of precision `b`.
fn distance(number: Number, bw: u32, b: u32) -> u64 {
    scaled(number.0, bw - b).min(farthest(b))
}

/// The largest distance between samples of precision `b`.
pub fn farthest(b: u32) -> u64 {
    (1 << b) - 1
}

/// A number over 2^k, rounded up.
fn scaled(number: u64, k: u32) -> u64 {
    (number + (1 << k) - 1) >> k
}

#[cfg(test)]
mod tests {
    use super::*;
    use crate::e;

    #[test]
    fn checked_figures() {
        assert_eq!(band_number(3, 0), Number(7));
        assert_eq!(band_number(3, 8), Number(1_792));
        assert_eq!(join(0, 7), 11);
        assert_eq!(scaled(11, 0), 11);
        assert_eq!(scaled(11, 12), 1);
    }

    #[test]
    fn each_colour_takes_what_the_transform_adds() {
        let colours = |e0, e1, e2| f::colours(Number(e0), Number(e1), Number(e2));
        assert_eq!(colours(10, 3, 6), (Number(19), Number(13), Number(16)));
    }

    /// Numbers by precinct, for all bands alike.
    fn by_precinct(layout: &Layout, number: impl Fn(usize, usize) -> u64) -> Vec<Plane<Number>> {
        let mut numbers = e::planes(layout);
        for row in 0..layout.rows {
            for column in 0..layout.columns {
                e::fill_precinct(&mut numbers, layout, row, column, |_| Number(number(row, column)));
            }
        }
        numbers
    }

    /// The distances of the first component by rows.
    fn rows(header: &Header, number: impl Fn(usize, usize) -> u64) -> Vec<Vec<u16>> {
        let layout = Layout::new(header);
        let distances = places(header, &layout, by_precinct(&layout, number));
        distances[0].chunks(header.wf).map(<[u16]>::to_vec).collect()
    }

    /// Across, the lines of a precinct of 1 become 2, 3, 2, 3. Down, each sample reaches into the rows beside its own.
    #[test]
    fn a_row_of_precincts_reaches_its_neighbours() {
        let header = Header::plain(4, 4, 1, 1, &[(1, 1)]);
        let coarse = |coarse: usize| rows(&header, move |row, _| u64::from(row == coarse));
        assert_eq!(coarse(1), [[0, 0, 0, 0], [2, 2, 2, 2], [3, 4, 3, 4], [5, 7, 5, 7]]);
        assert_eq!(coarse(0), [[3, 5, 3, 5], [4, 6, 4, 6], [1, 1, 1, 1], [1, 1, 1, 1]]);
        assert_eq!(coarse(2), [[0; 4]; 4]);
        assert_eq!(rows(&header, |_, _| 1), [[3, 5, 3, 5], [5, 8, 5, 8], [3, 5, 3, 5], [5, 8, 5, 8]]);
    }

    /// The first column has 16 samples, the second 2.
    #[test]
    fn a_column_of_precincts_reaches_its_neighbours() {
        let header = Header { cw: 1, ..Header::plain(18, 1, 1, 0, &[(1, 1)]) };
        let coarse = |coarse: usize| rows(&header, move |_, column| u64::from(column == coarse)).remove(0);
        assert_eq!(coarse(1), [0, 0, 0, 0, 0, 0, 0, 0, 0, 0, 0, 0, 0, 0, 0, 1, 2, 3]);
        assert_eq!(coarse(0), [2, 3, 2, 3, 2, 3, 2, 3, 2, 3, 2, 3, 2, 3, 2, 3, 1, 1]);
    }

    /// A fourth component takes no part.
    #[test]
    fn colours_by_place() {
        let mut header = Header::plain(2, 1, 1, 0, &[(1, 1); 4]);
        header.cpih = 1;
        let layout = Layout::new(&header);
        let mut numbers = by_precinct(&layout, |_, _| 0);
        for (plane, [low, high]) in numbers.iter_mut().zip([[8, 4], [3, 0], [2, 6], [1, 0]]) {
            plane.cells = vec![Number(low), Number(high)];
        }
        // Before the colours: 10 and 14, 3 and 3, 5 and 11, 1 and 1.
        assert_eq!(places(&header, &layout, numbers), [[17, 29], [12, 18], [15, 21], [1, 1]]);
    }

    /// Fq 8 goes with Bw 20: the numbers are scaled once, at the end, and then capped.
    #[test]
    fn distances_are_scaled_and_capped() {
        let one = |t, b| {
            let mut header = Header { bw: 20, fq: 8, ..Header::plain(2, 1, 1, 0, &[(1, 1)]) };
            header.cdt[0].b = b;
            rows(&header, |_, _| band_number(t, 8).0).remove(0)
        };
        // 15 × 256 + 1,920 = 5,760 and 3,840 + 5,760 = 9,600, over 4,096.
        assert_eq!(one(4, 8), [2, 3]);
        assert_eq!(one(4, 16), [360, 600]);
        assert_eq!(one(0, 8), [0, 0]);
        assert_eq!(one(12, 8), [255, 255]);
        assert_eq!(one(15, 13), [8_191, 8_191]);
        assert_eq!(one(15, 16), [65_535, 65_535]);
    }

    /// If all precincts are alike no sample is further off than its component, and some sample of each page is about as far.
    #[test]
    fn no_place_exceeds_its_component() {
        const FULL: [(usize, usize); 3] = [(1, 1); 3];
        const MIXED: [(usize, usize); 3] = [(1, 1), (2, 2), (2, 1)];
        for (nlx, nly, sampling, cpih, t) in
            [(1, 1, FULL, 1, 1), (3, 2, MIXED, 0, 2), (5, 0, FULL, 1, 5), (5, 2, FULL, 0, 0)]
        {
            let mut header = Header { cpih, bw: 16, ..Header::plain(40, 13, nlx, nly, &sampling) };
            header.cdt.iter_mut().for_each(|entry| entry.b = 16);
            let layout = Layout::new(&header);
            let most = components(&header, &layout, &vec![t; layout.bands.len()]);
            let distances = places(&header, &layout, by_precinct(&layout, |_, _| band_number(t, 0).0));
            for (distances, most) in distances.iter().zip(most) {
                let largest = u64::from(*distances.iter().max().unwrap());
                assert!(largest <= most && 10 * largest >= 8 * most, "{largest} of {most}");
            }
        }
    }
}
