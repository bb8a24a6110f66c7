//! Document 02's C-16: where the bytes of a stream went.
//!
//! Each total grows where its own part of the stream is read: in Annex A those of markers, in Annex C those of precincts and packets,
//! in the damaged mode those of lost slices. None is what the others leave.

use super::Page;

/// How many bytes there are of each kind.
#[derive(Clone, Copy, Debug, Default, PartialEq, Eq)]
pub struct Bytes {
    /// Markers and their segments, slice headers and the end marker with them.
    pub markers: usize,
    /// Precinct headers.
    pub precincts: usize,
    /// Packet headers.
    pub packets: usize,
    /// What the subpackets hold, each up to the end of its last byte that is begun.
    pub significance: usize,
    pub counts: usize,
    pub data: usize,
    pub signs: usize,
    /// The bytes that count, data and sign subpackets declare behind what they hold.
    pub filler: usize,
    /// The precincts of lost slices, with their headers.
    pub spoilt: usize,
}

impl Bytes {
    /// Those of a page; a refused one has none.
    pub fn of(page: Option<&Page>) -> Bytes {
        page.map_or(Bytes::default(), |page| page.bytes)
    }

    /// The totals with their names, in the order in which they are told.
    pub fn totals(&self) -> [(&'static str, usize); 9] {
        [
            ("markers", self.markers),
            ("precincts", self.precincts),
            ("packets", self.packets),
            ("significance", self.significance),
            ("counts", self.counts),
            ("data", self.data),
            ("signs", self.signs),
            ("filler", self.filler),
            ("spoilt", self.spoilt),
        ]
    }
}

#[cfg(test)]
mod tests {
    use super::*;
    use crate::text;

    #[test]
    fn totals_are_told_in_their_order() {
        let first = Bytes { markers: 1, precincts: 2, packets: 3, significance: 4, ..Bytes::default() };
        let bytes = Bytes { counts: 5, data: 6, signs: 7, filler: 8, spoilt: 9, ..first };
        let mut out = Vec::new();
        text::bytes(&mut out, &bytes).unwrap();
        let line = "bytes markers 1 precincts 2 packets 3 significance 4 counts 5 data 6 signs 7 filler 8 spoilt 9\n";
        assert_eq!(String::from_utf8(out).unwrap(), line);
    }

    #[test]
    fn a_refused_page_has_none() {
        assert!(Bytes::of(None).totals().iter().all(|&(_, total)| total == 0));
    }
}
