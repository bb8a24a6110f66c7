//! An independent reader of JPEG XS pages (ISO/IEC 21122-1:2024), narrowed as document 01 says.
//!
//! One module for each annex of the standard. Names follow the standard's symbols: `wf` is W_f, `nly` is N_L,y and so on.

pub mod a;
pub mod b;
mod bits;
pub mod bytes;
pub mod c;
pub mod d;
pub mod damaged;
pub mod distance;
pub mod e;
pub mod f;
pub mod fields;
pub mod g;
mod places;
mod rules;
pub mod text;
pub mod why;

pub use rules::{Expected, Refusal, Row};

use fields::Field;
use rules::require;

/// One component of a page that was read; samples stand row by row.
#[derive(Debug, PartialEq, Eq)]
pub struct Component {
    pub width: usize,
    pub height: usize,
    pub precision: u32,
    pub distance: u64,
    pub samples: Vec<u16>,
}

/// A page that was read.
#[derive(Debug, PartialEq, Eq)]
pub struct Page {
    pub components: Vec<Component>,
    /// Whether a bench caption stands before the first slice header.
    pub caption: bool,
    /// Where the bytes of the stream went.
    pub bytes: bytes::Bytes,
}

/// For each component, row by row: whether a sample depends on a lost coefficient.
pub type Marks = Vec<Vec<bool>>;

/// For each component, row by row: how far a sample may be from that of the coefficients before they were quantized.
pub type Distances = Vec<Vec<u16>>;

/// How many cells a caller lends. Marks and distances have numbers where they are asked for.
#[derive(Clone, Copy, Debug)]
pub struct Lent {
    pub samples: usize,
    pub work: usize,
    pub marks: Option<usize>,
    pub distances: Option<usize>,
}

impl Lent {
    /// What pages of at most so many samples need, without marks and distances.
    pub fn for_samples(room: usize) -> Lent {
        Lent { samples: room, work: room.saturating_mul(2), marks: None, distances: None }
    }
}

/// Reads one whole codestream into at most `room` sample cells over all components.
pub fn read(s: &[u8], room: usize) -> Result<Page, Refusal> {
    let (header, layout) = opened(s, Lent::for_samples(room))?;
    let decoded = c::codestream(s, &header, &layout)?;
    Ok(page(&header, &layout, decoded))
}

/// As `read`, but what breaks a rule inside a slice loses that slice and not the page (document 02, C-15). There is room
/// for as many marks as samples.
pub fn read_damaged(s: &[u8], room: usize) -> Result<(Page, Marks), Refusal> {
    let (header, layout) = opened(s, Lent::for_samples(room))?;
    let (decoded, lost) = damaged::codestream(s, &header, &layout)?;
    Ok((page(&header, &layout, decoded), marks(&header, &layout, lost)))
}

/// As `read`, with the distance at each sample (document 02, C-22). There is room for as many of them as samples.
pub fn read_places(s: &[u8], room: usize) -> Result<(Page, Distances), Refusal> {
    let page = read(s, room)?;
    Ok((page, places::distances(s)?))
}

/// As `read_damaged`, with the distance at each sample, which is the largest where a sample is lost.
pub fn read_damaged_places(s: &[u8], room: usize) -> Result<(Page, Marks, Distances), Refusal> {
    let (page, marks) = read_damaged(s, room)?;
    let mut distances = places::distances(s)?;
    places::give_up(&mut distances, &page, &marks);
    Ok((page, marks, distances))
}

/// All up to the fields of the first slice header.
fn opened(s: &[u8], lent: Lent) -> Result<(a::Header, b::Layout), Refusal> {
    let header = a::header(s)?;
    let layout = b::Layout::new(&header);
    let n = layout.samples();
    let enough = |field, lent: usize, needed: usize| require(Row::Buffer, header.first_slice, field, lent, needed..);
    enough(Field::Samples, lent.samples, n)?;
    enough(Field::Work, lent.work, 2 * n)?;
    enough(Field::Marks, lent.marks.unwrap_or(n), n)?;
    enough(Field::Distances, lent.distances.unwrap_or(n), n)?;
    Ok((header, layout))
}

fn page(header: &a::Header, layout: &b::Layout, decoded: c::Decoded) -> Page {
    let distances = distance::components(header, layout, &decoded.largest_t);
    let samples = reconstruct(header, layout, decoded.planes);
    let components = header.cdt.iter().zip(&layout.shapes).zip(distances.into_iter().zip(samples));
    let components = components.map(|((entry, shape), (distance, samples))| Component {
        width: shape.width,
        height: shape.height,
        precision: entry.b,
        distance,
        samples,
    });
    Page { components: components.collect(), caption: header.caption, bytes: decoded.bytes }
}

/// The samples of each component from its coefficients, multiplied by 2^Fq (Annexes E to G).
pub fn reconstruct(header: &a::Header, layout: &b::Layout, mut planes: Vec<e::Plane<i64>>) -> Vec<Vec<u16>> {
    transform(header, layout, &mut planes);
    let outputs = planes.into_iter().zip(&header.cdt);
    outputs.map(|(plane, entry)| g::output(&plane.cells, header.bw, entry.b)).collect()
}

/// The marks of each component from what is lost of its coefficients. Annex G makes each sample from one value.
pub fn marks(header: &a::Header, layout: &b::Layout, mut lost: Vec<e::Plane<bool>>) -> Marks {
    transform(header, layout, &mut lost);
    lost.into_iter().map(|plane| plane.cells).collect()
}

/// Annexes E and F.
fn transform<V: e::Value>(header: &a::Header, layout: &b::Layout, planes: &mut [e::Plane<V>]) {
    for (plane, shape) in planes.iter_mut().zip(&layout.shapes) {
        plane.inverse(shape.nlx, shape.nly);
    }
    if header.cpih == 1 {
        f::inverse_rct(planes);
    }
}

#[cfg(test)]
mod tests {
    use super::*;
    use bytes::Bytes;

    /// Streams of C-13 by name, with what the record says of a caption.
    macro_rules! stored {
        ($($name:literal)*) => {
            [$((
                $name,
                include_bytes!(concat!("../../crates/vectors/data/C-13/k1301_", $name, ".jxs")),
                include_str!(concat!("../../crates/vectors/data/C-13/k1301_", $name, ".caption")),
            )),*]
        };
    }

    const STORED: [(&str, &[u8], &str); 40] = stored! {
        "000_one" "001_empty" "002_twice" "003_other" "004_behind_other"
        "005_none" "006_short" "007_long" "008_refused" "009_reserved"
        "010_one" "011_empty" "012_twice" "013_other" "014_behind_other"
        "015_none" "016_short" "017_long" "018_refused" "019_reserved"
        "020_one" "021_empty" "022_twice" "023_other" "024_behind_other"
        "025_none" "026_short" "027_long" "028_refused" "029_reserved"
        "030_one" "031_empty" "032_twice" "033_other" "034_behind_other"
        "035_none" "036_short" "037_long" "038_refused" "039_reserved"
    };

    /// A refusal's record says no.
    #[test]
    fn captions_are_told_as_stored() {
        for (name, s, line) in STORED {
            let told = read(s, usize::MAX).map_or(false, |page| page.caption);
            assert_eq!(if told { "caption yes\n" } else { "caption no\n" }, line, "{}", name);
        }
    }

    /// Those of a page that is read come to its length; those of a refused one to nothing.
    #[test]
    fn bytes_add_up() {
        for (name, s, _) in STORED {
            let readings = [read(s, usize::MAX).ok(), read_damaged(s, usize::MAX).ok().map(|(page, _)| page)];
            for (page, damaged) in readings.iter().zip([false, true]) {
                let bytes = Bytes::of(page.as_ref());
                let all: usize = bytes.totals().iter().map(|(_, total)| total).sum();
                assert_eq!(all, if page.is_some() { s.len() } else { 0 }, "{}", name);
                assert!(damaged || bytes.spoilt == 0, "{}", name);
            }
        }
    }

    /// What the record says of a caption when these extensions, each a type and data, are put into a page that has none:
    /// behind its picture header, its component table or its weights table. They change nothing else but the bytes of segments.
    fn told(extensions: &[(u16, &[u8])]) -> [bool; 3] {
        let (_, plain, _) = STORED[5];
        let page = read(plain, usize::MAX).unwrap();
        [34, 42, 62].map(|at| {
            let mut s = plain[..at].to_vec();
            for (kind, data) in extensions {
                let length = 4 + data.len() as u16;
                s.extend([0xff15, length, *kind].into_iter().flat_map(u16::to_be_bytes));
                s.extend(*data);
            }
            s.extend(&plain[at..]);
            let lcod = s.len() as u32;
            s[10..14].copy_from_slice(&lcod.to_be_bytes());
            let changed = read(&s, usize::MAX).unwrap();
            assert_eq!(changed.components, page.components);
            let markers = page.bytes.markers + s.len() - plain.len();
            assert_eq!(changed.bytes, Bytes { markers, ..page.bytes });
            changed.caption
        })
    }

    #[test]
    fn other_extensions_are_no_captions() {
        assert_eq!(told(&[]), [false; 3]);
        for kind in [0x0000, 0x0001, 0x8000, 0x8b00, 0x8b02, 0xffff] {
            assert_eq!(told(&[(kind, &[])]), [false; 3]);
            assert_eq!(told(&[(kind, &[0xff, 0x15, 0x00, 0x04, 0x8b, 0x01])]), [false; 3]);
        }
    }

    #[test]
    fn a_caption_is_told_whatever_it_holds() {
        for data in [&[][..], &[0], &[0xff, 0x20, 0x00, 0x04], &[0x8b; 300]] {
            assert_eq!(told(&[(0x8b01, data)]), [true; 3]);
        }
    }

    #[test]
    fn a_caption_is_told_among_others() {
        for kind in [0x0000, 0x0001, 0x8000, 0x8b01, 0x8b02, 0xffff] {
            assert_eq!(told(&[(0x8b01, &[1]), (kind, &[2, 3])]), [true; 3]);
            assert_eq!(told(&[(kind, &[2, 3]), (0x8b01, &[])]), [true; 3]);
        }
    }
}
