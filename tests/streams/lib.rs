//! Codestreams for tests: sound ones of every mode, spoilt ones, and files that are none.
//!
//! The same kind, seed and limits give the same stream.

pub mod setting;

mod aimed;
mod bounds;
mod coarse;
mod counted;
mod damage;
mod forward;
mod leftover;
mod picture;
mod rng;
mod spoilt;
mod stream;
mod write;

pub use counted::Counted;

use independent::a::Header;
use independent::b::Layout;
use rng::Rng;
use setting::Limits;
use stream::{Content, Stream};
use write::{Filler, Manner, Source, Steps, SOME_FILLER};

#[derive(Clone, Copy, Debug, PartialEq, Eq)]
pub enum Kind {
    /// Any indices and counts that the syntax can carry.
    Syntax,
    /// Encoded pictures.
    Picture,
    /// Encoded coefficients, up to the largest that the bitplane counts can express.
    Coefficients,
    /// Encoded pictures and coefficients, coarse in a part of the page alone.
    Coarse,
    /// Streams of the first three kinds with much filler, in all subpackets or in those of one or two kinds.
    Filled,
    /// Spoilt streams.
    Damaged,
    /// Pages of which slices are spoilt.
    Spoilt,
    /// Pages that differ from a sound one in one slice, outside slice headers and precinct lengths.
    Apart,
    /// The sound pages that those differ from, by the same seed.
    Twin,
    /// Streams in which one rule is broken, of those that other damage seldom meets.
    Aimed,
    /// Pages with one header field at a bound, or one segment in a wrong place.
    Bounds,
    /// Files of other formats.
    Foreign,
    /// Streams that end with their first slice header, for a few chosen layouts.
    Header,
}

pub const KINDS: [(&str, Kind); 13] = [
    ("syntax", Kind::Syntax),
    ("picture", Kind::Picture),
    ("coefficients", Kind::Coefficients),
    ("coarse", Kind::Coarse),
    ("filled", Kind::Filled),
    ("damaged", Kind::Damaged),
    ("spoilt", Kind::Spoilt),
    ("apart", Kind::Apart),
    ("twin", Kind::Twin),
    ("aimed", Kind::Aimed),
    ("bounds", Kind::Bounds),
    ("foreign", Kind::Foreign),
    ("header", Kind::Header),
];

/// A stream with a name that tells how to make it again.
pub struct Made {
    pub name: String,
    pub bytes: Vec<u8>,
    /// Whether the reader must accept it.
    pub sound: bool,
    /// For encoded coefficients: the samples that they give without quantization, by component.
    pub exact: Option<Vec<Vec<u16>>>,
    /// Of a sound stream where its bytes went, and of one set apart where they go once its slice is lost.
    pub counted: Option<Counted>,
}

/// Makes a stream.
pub fn make(kind: Kind, seed: u64, limits: Limits) -> Made {
    let mut rng = Rng::new(seed);
    let name = format!("{:?}-{}", kind, seed).to_lowercase();
    let (stream, exact) = match kind {
        Kind::Syntax | Kind::Picture | Kind::Coefficients | Kind::Coarse | Kind::Filled => {
            sound(&mut rng, kind, limits)
        }
        Kind::Apart | Kind::Twin => in_slices(&mut rng, limits),
        _ => {
            let (what, bytes) = unsound(&mut rng, kind, seed, limits);
            let name = if what.is_empty() { name } else { format!("{}-{}", name, what) };
            return Made { name, bytes, sound: false, exact: None, counted: None };
        }
    };
    if kind == Kind::Apart {
        return made_apart(&mut rng, name, stream, exact);
    }
    let counted = Some(stream.counted());
    Made { name, bytes: stream.bytes, sound: true, exact, counted }
}

/// A stream of a kind that has sound ones only by chance, and what was done to it.
fn unsound(rng: &mut Rng, kind: Kind, seed: u64, limits: Limits) -> (String, Vec<u8>) {
    let (what, bytes) = match kind {
        Kind::Spoilt => {
            let (stream, _) = in_slices(rng, limits);
            return spoilt::spoil(rng, stream);
        }
        Kind::Damaged => {
            let base = rng.pick(&[Kind::Syntax, Kind::Picture]);
            let (stream, _) = sound(rng, base, limits);
            damage::spoil(rng, stream)
        }
        Kind::Aimed => aimed::aim(rng, |rng| sound_of_any_source(rng, limits)),
        Kind::Bounds => bounds::change(seed as usize),
        Kind::Foreign => damage::foreign(rng),
        _ => ("", write::header(rng, &setting::chosen(seed as usize)).bytes),
    };
    (String::from(what), bytes)
}

/// A sound stream with one slice spoilt.
fn made_apart(rng: &mut Rng, name: String, mut stream: Stream, exact: Option<Vec<Vec<u16>>>) -> Made {
    let (what, slice) = spoilt::set_apart(rng, &mut stream);
    let counted = Some(stream.counted_without(slice));
    Made { name: format!("{}-{}", name, what), bytes: stream.bytes, sound: false, exact, counted }
}

/// A sound stream of random syntax, a picture or coefficients.
fn sound_of_any_source(rng: &mut Rng, limits: Limits) -> Stream {
    let kind = rng.pick(&[Kind::Syntax, Kind::Picture, Kind::Coefficients]);
    sound(rng, kind, limits).0
}

/// A sound stream, mostly one of several slices.
fn in_slices(rng: &mut Rng, limits: Limits) -> (Stream, Option<Vec<Vec<u16>>>) {
    let any_number = rng.once_in(8);
    loop {
        let kind = rng.pick(&[Kind::Syntax, Kind::Picture, Kind::Coefficients, Kind::Coarse]);
        let made = sound(rng, kind, limits);
        if any_number || made.0.slices().len() > 1 {
            return made;
        }
    }
}

/// Which Q the precincts of a page to measure with have.
pub enum Q {
    UpTo(usize),
    /// This one in the lower right corner, 0 elsewhere.
    InCorner(usize),
}

/// Makes a sheet of letters to measure with.
pub fn measured(header: &Header, q: Q, seed: u64) -> Vec<u8> {
    let mut rng = Rng::new(seed);
    let layout = Layout::new(header);
    let picture = picture::sheet(&mut rng, header, &layout);
    let source = Source::Coefficients(forward::coefficients(header, &layout, &picture));
    let steps = match q {
        Q::UpTo(most) => Steps::UpTo(most),
        Q::InCorner(coarse) => coarse::corner(&layout, coarse),
    };
    write::stream(&mut rng, header, &layout, Manner { steps, varied: false, filler: SOME_FILLER }, &source).bytes
}

/// A sound stream, and the samples of its coefficients where it encodes some.
fn sound(rng: &mut Rng, kind: Kind, limits: Limits) -> (Stream, Option<Vec<Vec<u16>>>) {
    let coloured = kind == Kind::Coarse && rng.once_in(4);
    loop {
        let header = setting::random(rng, limits);
        let layout = Layout::new(&header);
        if kind == Kind::Coarse && !coarse::suits(&header, &layout, coloured) {
            continue;
        }
        let (kind, filler) = match kind {
            Kind::Filled => (rng.pick(&[Kind::Syntax, Kind::Picture, Kind::Coefficients]), much_filler(rng)),
            _ => (kind, SOME_FILLER),
        };
        let bands = match kind {
            Kind::Syntax => None,
            Kind::Coefficients => Some(coefficients(rng, &header, &layout)),
            Kind::Coarse if rng.once_in(2) => Some(coefficients(rng, &header, &layout)),
            _ => {
                let picture = picture::random(rng, &header, &layout);
                Some(forward::coefficients(&header, &layout, &picture))
            }
        };
        let exact = bands.as_ref().map(|bands| samples(&header, &layout, bands));
        let source = bands.map_or(Source::Syntax, Source::Coefficients);
        let steps = match kind {
            Kind::Coarse => coarse::steps(rng, &header, &layout),
            _ => Steps::UpTo(rng.pick(&[0, 0, 3, 8, 31])),
        };
        let mut stream = write::stream(rng, &header, &layout, Manner { steps, varied: true, filler }, &source);
        if stream.bytes.len() <= limits.bytes {
            if !header.fs {
                leftover::leave(&mut rng.aside(), &mut stream);
            }
            return (stream, exact);
        }
    }
}

/// Filler in some kinds of subpackets or all, in some of these subpackets or all, and mostly more than a few bytes.
fn much_filler(rng: &mut Rng) -> Filler {
    use Content::{Counts, Data, Signs};
    const KINDS: [&[Content]; 7] =
        [&[Counts], &[Data], &[Signs], &[Counts, Data], &[Counts, Signs], &[Data, Signs], &[Counts, Data, Signs]];
    Filler { inside: rng.pick(&KINDS), once_in: rng.pick(&[1, 1, 2, 4]), most: rng.pick(&[1, 2, 9, 60, 300]) }
}

/// Coefficients of any size, some of them the largest.
fn coefficients(rng: &mut Rng, header: &Header, layout: &Layout) -> Vec<Vec<i64>> {
    let most = (1 << header.br) - 1;
    let mut planes = rng.between(1, most);
    let mut one = |_| {
        if rng.once_in(40) {
            planes = rng.between(1, most);
        }
        let largest = (1i64 << planes) - 1;
        let size = if rng.once_in(8) { largest } else { rng.next() as i64 & largest };
        if rng.once_in(2) {
            -size
        } else {
            size
        }
    };
    layout.bands.iter().flatten().map(|band| (0..band.width * band.height).map(&mut one).collect()).collect()
}

fn samples(header: &Header, layout: &Layout, bands: &[Vec<i64>]) -> Vec<Vec<u16>> {
    let mut planes = independent::e::planes(layout);
    for (band, cells) in layout.bands.iter().flatten().zip(bands) {
        let plane = &mut planes[band.component];
        for (y, line) in cells.chunks(band.width).enumerate() {
            let start = plane.cell(band, 0, y);
            plane.cells[start..start + band.width].iter_mut().zip(line).for_each(|(cell, c)| *cell = c << header.fq);
        }
    }
    independent::reconstruct(header, layout, planes)
}

#[cfg(test)]
mod tests {
    use super::*;
    use setting::SMALL;

    #[test]
    fn sound_streams_are_read_and_samples_are_within_their_distance() {
        for kind in [Kind::Syntax, Kind::Picture, Kind::Coefficients, Kind::Coarse, Kind::Filled] {
            for seed in 0..300 {
                let made = make(kind, seed, SMALL);
                let page = independent::read(&made.bytes, SMALL.samples).expect(&made.name);
                for (component, exact) in page.components.iter().zip(made.exact.iter().flatten()) {
                    let within = |(a, b): (&u16, &u16)| u64::from(a.abs_diff(*b)) <= component.distance;
                    assert!(component.samples.iter().zip(exact).all(within), "{}", made.name);
                }
            }
        }
    }

    #[test]
    fn without_quantization_a_picture_comes_back() {
        for seed in 0..100 {
            let mut rng = Rng::new(seed);
            let mut header = setting::random(&mut rng, SMALL);
            header.wgt.iter_mut().for_each(|weight| weight.gain = 0);
            let layout = Layout::new(&header);
            let picture = picture::random(&mut rng, &header, &layout);
            let source = Source::Coefficients(forward::coefficients(&header, &layout, &picture));
            let manner = Manner { steps: Steps::UpTo(0), varied: true, filler: SOME_FILLER };
            let stream = write::stream(&mut rng, &header, &layout, manner, &source);
            let page = independent::read(&stream.bytes, SMALL.samples).unwrap();
            assert!(page.components.iter().all(|component| component.distance == 0));
            if header.fq == 0 {
                assert!(page.components.iter().zip(&picture).all(|(component, samples)| component.samples == *samples));
            }
        }
    }

    #[test]
    fn chosen_headers_are_accepted() {
        for seed in 0..12 {
            independent::a::header(&make(Kind::Header, seed, SMALL).bytes).unwrap();
        }
    }

    #[test]
    fn most_damage_is_refused_and_all_rows_occur() {
        let mut rows = [0; 9];
        for seed in 0..3_000 {
            let made = make(Kind::Damaged, seed, SMALL);
            let row = independent::read(&made.bytes, SMALL.samples).map_or_else(|refusal| refusal.row as usize, |_| 0);
            rows[row] += 1;
        }
        assert!(rows[0] < 1_200 && rows[1..5].iter().chain(&rows[6..]).all(|&n| n > 20), "{:?}", rows);
    }
}
