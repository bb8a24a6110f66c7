//! Where the bytes of a stream went, as its maker counts them while it writes (document 02, C-16). The decoder has no part in it.

use std::iter::Sum;
use std::ops::Add;

/// The bytes of each kind: markers and segments, precinct headers, packet headers, what each kind of subpacket holds, filler, and precincts
/// of spoilt slices, of which a maker knows only when it spoils one.
#[derive(Clone, Copy, Debug, Default, PartialEq, Eq)]
pub struct Counted {
    pub markers: usize,
    pub precincts: usize,
    pub packets: usize,
    pub significance: usize,
    pub counts: usize,
    pub data: usize,
    pub signs: usize,
    pub filler: usize,
    pub spoilt: usize,
}

impl Counted {
    /// In the order in which totals are told.
    pub fn totals(self) -> [usize; 9] {
        let [markers, precincts, packets] = [self.markers, self.precincts, self.packets];
        let [significance, counts, data, signs] = [self.significance, self.counts, self.data, self.signs];
        [markers, precincts, packets, significance, counts, data, signs, self.filler, self.spoilt]
    }

    /// The bytes of a slice when it is lost: its header is a segment still, and all else is spoilt.
    pub fn lost(self) -> Counted {
        let headers = self.precincts + self.packets;
        let spoilt = headers + self.significance + self.counts + self.data + self.signs + self.filler;
        Counted { markers: self.markers, spoilt, ..Counted::default() }
    }
}

impl Add for Counted {
    type Output = Counted;

    fn add(self, other: Counted) -> Counted {
        Counted {
            markers: self.markers + other.markers,
            precincts: self.precincts + other.precincts,
            packets: self.packets + other.packets,
            significance: self.significance + other.significance,
            counts: self.counts + other.counts,
            data: self.data + other.data,
            signs: self.signs + other.signs,
            filler: self.filler + other.filler,
            spoilt: self.spoilt + other.spoilt,
        }
    }
}

impl Sum for Counted {
    fn sum<I: Iterator<Item = Counted>>(all: I) -> Counted {
        all.fold(Counted::default(), Add::add)
    }
}

#[cfg(test)]
mod tests {
    use super::*;
    use crate::rng::Rng;
    use crate::setting::{LARGE, SMALL};
    use crate::stream::Content;
    use crate::{in_slices, make, sound, Kind};
    use independent::{read, read_damaged, Page};

    fn totals(page: &Page) -> [usize; 9] {
        page.bytes.totals().map(|(_, total)| total)
    }

    #[test]
    fn maker_and_decoder_count_alike() {
        for kind in [Kind::Syntax, Kind::Picture, Kind::Coefficients, Kind::Coarse, Kind::Filled, Kind::Twin] {
            let seeds = (0..300).map(|seed| (seed, SMALL)).chain((0..3).map(|seed| (seed, LARGE)));
            for made in seeds.map(|(seed, limits)| make(kind, seed, limits)) {
                let counted = made.counted.expect("a sound stream is counted").totals();
                assert_eq!(counted.iter().sum::<usize>(), made.bytes.len(), "{}", made.name);
                assert_eq!(totals(&read(&made.bytes, LARGE.samples).unwrap()), counted, "{}", made.name);
                assert_eq!(totals(&read_damaged(&made.bytes, LARGE.samples).unwrap().0), counted, "{}", made.name);
            }
        }
    }

    /// Whatever was read of a lost slice before its damage.
    #[test]
    fn a_lost_slice_is_spoilt_but_for_its_header() {
        let mut lost = 0;
        for made in (0..600).map(|seed| make(Kind::Apart, seed, SMALL)) {
            let (page, marks) = read_damaged(&made.bytes, SMALL.samples).unwrap();
            if marks[0].contains(&true) {
                let counted = made.counted.expect("a stream set apart is counted");
                assert_eq!(totals(&page), counted.totals(), "{}", made.name);
                lost += 1;
            } else {
                assert_eq!(page.bytes.spoilt, 0, "{}", made.name);
            }
        }
        assert!(lost > 300, "{lost}");
    }

    /// Where each slice is spoilt in its last precinct.
    #[test]
    fn nothing_but_markers_is_left_where_all_slices_are_lost() {
        for seed in 0..300 {
            let (mut stream, _) = in_slices(&mut Rng::new(seed), SMALL);
            for slice in stream.slices() {
                let last = stream.within(&slice).subpackets.pop().expect("a slice has packets").precinct;
                stream.bytes[last.bit / 8 + 3] = 32;
            }
            let markers = stream.counted().markers;
            let spoilt = stream.bytes.len() - markers;
            let left = Counted { markers, spoilt, ..Counted::default() };
            assert_eq!(totals(&read_damaged(&stream.bytes, SMALL.samples).unwrap().0), left.totals());
        }
    }

    /// For each kind of subpacket, with both widths of packet headers: filler behind something and behind nothing, and neither.
    #[test]
    fn all_sorts_of_subpackets_are_filled() {
        let mut met = [[[0; 4]; 3]; 2];
        for stream in (0..300).map(|seed| sound(&mut Rng::new(seed), Kind::Filled, SMALL).0) {
            let long = usize::from(stream.subpackets_of(Content::Signs)[0].length.width == 15);
            for subpacket in &stream.subpackets {
                let sort = 2 * usize::from(subpacket.held > 0) + usize::from(subpacket.filler > 0);
                met[long][subpacket.content as usize][sort] += 1;
            }
        }
        assert!(met.iter().flatten().flatten().all(|&n| n > 20), "{met:?}");
    }

    /// Filler may be in all subpackets of one kind and in none of another.
    #[test]
    fn kinds_of_subpackets_are_filled_apart() {
        let mut met = [0; 8];
        for stream in (0..300).map(|seed| sound(&mut Rng::new(seed), Kind::Filled, SMALL).0) {
            let filled = |content| stream.subpackets_of(content).iter().any(|subpacket| subpacket.filler > 0);
            let [counts, data, signs] = [Content::Counts, Content::Data, Content::Signs].map(filled).map(usize::from);
            met[4 * counts + 2 * data + signs] += 1;
        }
        assert!(met.iter().all(|&n| n > 10), "{met:?}");
    }
}
