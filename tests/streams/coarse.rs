//! Pages that are coarse in a part alone, for the distances at each sample (document 02, C-22).

use crate::rng::Rng;
use crate::write::Steps;
use independent::a::Header;
use independent::b::Layout;

/// The part of a page that is coarse; of the single ones any.
#[derive(Clone, Copy)]
enum Part {
    Precinct,
    AllButOnePrecinct,
    Slice,
    Column,
    SecondColumns,
    SecondRows,
}

/// Whether a page has parts, and the colour transform where it shall have one.
pub fn suits(header: &Header, layout: &Layout, coloured: bool) -> bool {
    layout.rows * layout.columns > 1 && (header.cpih == 1 || !coloured)
}

/// Q of each precinct of a page of several: a small one, mostly 0, and in a part of the page a larger one, above the gains of
/// all bands.
pub fn steps(rng: &mut Rng, header: &Header, layout: &Layout) -> Steps {
    let gain = header.wgt.iter().map(|weight| usize::from(weight.gain)).max().unwrap_or(0);
    let fine = rng.pick(&[0, 0, 0, 1, 3]);
    let coarse = (fine.max(gain) + rng.pick(&[1, 2, 3, 5, 9, 16])).min(31);
    Steps::Each(part(rng, layout).into_iter().map(|inside| if inside { coarse } else { fine }).collect())
}

/// Q of each precinct where a quarter of the rows and half of the columns, from the last ones on, have this one.
pub fn corner(layout: &Layout, coarse: usize) -> Steps {
    let inside = |row: usize, column: usize| row >= layout.rows / 4 * 3 && column >= layout.columns / 2;
    let q = |n: usize| if inside(n / layout.columns, n % layout.columns) { coarse } else { 0 };
    Steps::Each((0..layout.rows * layout.columns).map(q).collect())
}

/// Whether each precinct belongs to a part of the page that is not all of it.
fn part(rng: &mut Rng, layout: &Layout) -> Vec<bool> {
    use Part::*;
    loop {
        let part = rng.pick(&[Precinct, AllButOnePrecinct, Slice, Column, SecondColumns, SecondRows]);
        let (row, column) = (rng.below(layout.rows), rng.below(layout.columns));
        let slice = layout.slices().find(|rows| rows.contains(&row)).expect("each row is in a slice");
        let inside = |n: usize| {
            let (y, x) = (n / layout.columns, n % layout.columns);
            match part {
                Precinct => (y, x) == (row, column),
                AllButOnePrecinct => (y, x) != (row, column),
                Slice => slice.contains(&y),
                Column => x == column,
                SecondColumns => x % 2 == column % 2,
                SecondRows => y % 2 == row % 2,
            }
        };
        let precincts: Vec<bool> = (0..layout.rows * layout.columns).map(inside).collect();
        if precincts.contains(&true) && precincts.contains(&false) {
            return precincts;
        }
    }
}

#[cfg(test)]
mod tests {
    use crate::setting::SMALL;
    use crate::{make, Kind};
    use independent::a::Header;
    use independent::b::Layout;
    use independent::{read_damaged_places, read_places};

    const SEEDS: u64 = 600;

    /// Streams of which this holds.
    fn count(holds: impl Fn(&Header, &Layout) -> bool) -> usize {
        let streams = (0..SEEDS).map(|seed| make(Kind::Coarse, seed, SMALL));
        let headers = streams.map(|made| independent::a::header(&made.bytes).expect(&made.name));
        headers.filter(|header| holds(header, &Layout::new(header))).count()
    }

    #[test]
    fn all_sorts_of_pages_occur() {
        let sampled = |header: &Header, factors| header.cdt.iter().any(|entry| (entry.sx, entry.sy) == factors);
        assert!(count(|_, layout| layout.columns > 1) > 100);
        assert!(count(|_, layout| layout.slices().count() > 1) > 100);
        assert!(count(|header, _| header.cpih == 1) > 50);
        assert!(count(|header, _| sampled(header, (2, 1))) > 50);
        assert!(count(|header, _| sampled(header, (2, 2))) > 50);
        for b in 8..=16 {
            assert!(count(|header, _| header.fq == 8 && header.cdt.iter().any(|entry| entry.b == b)) > 20, "{b}");
        }
    }

    /// Each sample lies within its own distance, which is no larger than its component's and mostly smaller somewhere.
    #[test]
    fn samples_are_within_their_own_distance() {
        let mut smaller = 0;
        for seed in 0..SEEDS {
            let made = make(Kind::Coarse, seed, SMALL);
            let (page, distances) = read_places(&made.bytes, SMALL.samples).expect(&made.name);
            let exact = made.exact.expect("coarse pages come from coefficients");
            for ((component, distances), exact) in page.components.iter().zip(&distances).zip(exact) {
                let within = |at: usize| component.samples[at].abs_diff(exact[at]) <= distances[at];
                assert!((0..distances.len()).all(within), "{}", made.name);
                assert!(distances.iter().all(|&near| u64::from(near) <= component.distance), "{}", made.name);
            }
            let first = page.components[0].distance;
            smaller += usize::from(distances[0].iter().any(|&near| u64::from(near) < first));
        }
        assert!(smaller > SEEDS as usize * 3 / 4, "{smaller}");
    }

    /// Where nothing is lost both readings have the same distances; what is lost may be as far off as samples can be.
    #[test]
    fn lost_samples_have_the_largest_distance() {
        let mut lossy = 0;
        for made in (0..SEEDS).map(|seed| make(Kind::Spoilt, seed, SMALL)) {
            if let Ok((page, marks, distances)) = read_damaged_places(&made.bytes, SMALL.samples) {
                for (component, (marks, distances)) in page.components.iter().zip(marks.iter().zip(&distances)) {
                    let right = |(&near, &lost): (&u16, &bool)| match lost {
                        true => u32::from(near) == (1 << component.precision) - 1,
                        false => u64::from(near) <= component.distance,
                    };
                    assert!(distances.iter().zip(marks).all(right), "{}", made.name);
                }
                lossy += usize::from(marks[0].contains(&true));
                if let Ok(plain) = read_places(&made.bytes, SMALL.samples) {
                    assert_eq!(plain, (page, distances), "{}", made.name);
                }
            }
        }
        assert!(lossy > 100, "{lossy}");
    }
}
