//! What a run compares: the two programs, and on which streams in which modes.

use streams::setting::{Limits, LARGE, SMALL};
use streams::Kind;

/// The sorts of streams of which more is asked than the page.
const SPOILT: &str = "spoilt";
const PLACED: &str = "placed";
const COUNTED: &str = "counted";
const REASONS: &str = "reasons";

/// How the programs are asked to read a stream.
#[derive(Clone, Copy, Debug, PartialEq, Eq)]
pub enum Mode {
    Page,
    Damaged,
    Places,
    DamagedPlaces,
    Bytes,
    DamagedBytes,
    Reasons,
}

impl Mode {
    /// What stands before the stream.
    pub fn letter(self) -> &'static [u8] {
        match self {
            Mode::Page | Mode::Reasons => b"",
            Mode::Damaged => b"d",
            Mode::Places => b"p",
            Mode::DamagedPlaces => b"q",
            Mode::Bytes => b"b",
            Mode::DamagedBytes => b"c",
        }
    }

    /// Whether spoilt slices are lost instead of the page.
    pub fn loses_slices(self) -> bool {
        matches!(self, Mode::Damaged | Mode::DamagedPlaces | Mode::DamagedBytes)
    }

    /// Whether what is lost is marked, sample by sample.
    pub fn has_marks(self) -> bool {
        matches!(self, Mode::Damaged | Mode::DamagedPlaces)
    }

    /// Whether there is a distance at each sample.
    pub fn has_places(self) -> bool {
        matches!(self, Mode::Places | Mode::DamagedPlaces)
    }

    /// Whether the last line tells where the bytes went.
    pub fn has_bytes(self) -> bool {
        matches!(self, Mode::Bytes | Mode::DamagedBytes)
    }
}

/// A stream of the run, and how it is read.
#[derive(Clone, Copy)]
pub struct Case {
    pub kind: Kind,
    pub seed: u64,
    pub mode: Mode,
}

pub struct Options {
    pub first: String,
    pub second: String,
    /// How many streams of each sort.
    counts: Vec<(&'static str, usize)>,
    seed: u64,
    pub limits: Limits,
}

impl Options {
    pub fn new(words: &[String]) -> Option<Options> {
        let other = [SPOILT, PLACED, COUNTED, REASONS].into_iter().find(|sort| words.iter().any(|word| word == sort));
        let counts = match other {
            Some(sort) => vec![(sort, 0)],
            None => vec![("sound", 300), ("damaged", 300), ("bounds", 200), ("foreign", 20), ("headers", 0)],
        };
        let mut options =
            Options { first: words.first()?.clone(), second: words.get(1)?.clone(), counts, seed: 1, limits: SMALL };
        let mut rest = words[2..].iter();
        while let Some(word) = rest.next() {
            if word == "large" {
                options.limits = LARGE;
                continue;
            }
            let number = rest.next()?;
            if word == "seed" {
                options.seed = number.parse().ok()?;
            } else {
                options.counts.iter_mut().find(|(sort, _)| sort == word)?.1 = number.parse().ok()?;
            }
        }
        Some(options)
    }

    pub fn streams(&self) -> usize {
        self.counts.iter().map(|(_, count)| count).sum()
    }

    /// Stream `n` of the run.
    pub fn case(&self, mut n: usize) -> Case {
        let seed = self.seed.wrapping_add(n as u64);
        for &(sort, count) in &self.counts {
            if n >= count {
                n -= count;
                continue;
            }
            let (kind, mode) = match sort {
                SPOILT => (spoilt(n), Mode::Damaged),
                PLACED => placed(n),
                COUNTED => counted(n),
                REASONS => (reasons(n), Mode::Reasons),
                "sound" => (sound(n), Mode::Page),
                "damaged" => (Kind::Damaged, Mode::Page),
                "bounds" => (Kind::Bounds, Mode::Page),
                "foreign" => (Kind::Foreign, Mode::Page),
                _ => (Kind::Header, Mode::Page),
            };
            return Case { kind, seed, mode };
        }
        unreachable!("a stream beyond the last")
    }

    pub fn loses_slices(&self) -> bool {
        self.counts.iter().any(|(sort, _)| [SPOILT, PLACED, COUNTED].contains(sort))
    }

    pub fn has_places(&self) -> bool {
        self.counts.iter().any(|(sort, _)| *sort == PLACED)
    }

    pub fn has_bytes(&self) -> bool {
        self.counts.iter().any(|(sort, _)| *sort == COUNTED)
    }

    pub fn has_reasons(&self) -> bool {
        self.counts.iter().any(|(sort, _)| *sort == REASONS)
    }
}

fn sound(n: usize) -> Kind {
    [Kind::Syntax, Kind::Picture, Kind::Coefficients][n % 3]
}

/// Half of the streams with spoilt slices, a quarter with one, the rest of all other sorts.
fn spoilt(n: usize) -> Kind {
    match n % 16 {
        0..=7 => Kind::Spoilt,
        8..=11 => Kind::Apart,
        n_in_turn => others(n_in_turn, n / 16),
    }
}

/// Three eighths of the streams coarse in a part, as many with spoilt slices, the rest of all other sorts. Both modes meet each
/// kind, and get half of the streams each.
fn placed(n: usize) -> (Kind, Mode) {
    match n % 16 {
        0..=3 => (Kind::Coarse, Mode::Places),
        4 | 5 => (Kind::Coarse, Mode::DamagedPlaces),
        6 => (Kind::Spoilt, Mode::Places),
        7..=9 => (Kind::Spoilt, Mode::DamagedPlaces),
        10 => (Kind::Apart, Mode::Places),
        11 => (Kind::Apart, Mode::DamagedPlaces),
        n_in_turn => (others(n_in_turn, n / 32), [Mode::Places, Mode::DamagedPlaces][n / 16 % 2]),
    }
}

/// A quarter of the streams with much filler, three eighths with spoilt slices, an eighth coarse in a part, the rest of all other
/// sorts. Both modes meet each kind, and get half of the streams each.
fn counted(n: usize) -> (Kind, Mode) {
    match n % 16 {
        0..=2 => (Kind::Filled, Mode::Bytes),
        3 => (Kind::Filled, Mode::DamagedBytes),
        4 => (Kind::Coarse, Mode::Bytes),
        5 => (Kind::Coarse, Mode::DamagedBytes),
        6 => (Kind::Spoilt, Mode::Bytes),
        7 | 8 => (Kind::Spoilt, Mode::DamagedBytes),
        9 => (Kind::Apart, Mode::Bytes),
        10 | 11 => (Kind::Apart, Mode::DamagedBytes),
        n_in_turn => (others(n_in_turn, n / 32), [Mode::Bytes, Mode::DamagedBytes][n / 16 % 2]),
    }
}

/// A third of the streams damaged anywhere, a third with one change of the header; of the rest nearly half aimed at one rule each, the others of
/// all other sorts.
fn reasons(n: usize) -> Kind {
    use Kind::*;
    const OTHERS: [Kind; 9] = [Spoilt, Apart, Coarse, Syntax, Coarse, Picture, Coefficients, Filled, Foreign];
    match (n % 3, n / 3 % 16) {
        (0, _) => Damaged,
        (1, _) => Bounds,
        (_, 0..=6) => Aimed,
        (_, other) => OTHERS[other - 7],
    }
}

fn others(n_in_turn: usize, turn: usize) -> Kind {
    match n_in_turn {
        12 | 13 => sound(turn),
        14 => Kind::Damaged,
        _ => [Kind::Bounds, Kind::Bounds, Kind::Foreign][turn % 3],
    }
}
