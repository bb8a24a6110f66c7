//! Streams in the making: bits, fields, segments, and notes on where they stand and how many bytes they take.

use crate::counted::Counted;
use crate::rng::Rng;
use std::ops::Range;

/// A stream and where its parts stand.
pub struct Stream {
    pub bytes: Vec<u8>,
    pub fields: Vec<Field>,
    /// Marker segments with their markers.
    pub segments: Vec<Range<usize>>,
    pub subpackets: Vec<Subpacket>,
    /// Where the bytes went: those before the first slice, those of each slice with its header, those behind the last.
    parts: Vec<Counted>,
}

impl Stream {
    /// Where all bytes went.
    pub fn counted(&self) -> Counted {
        self.parts.iter().copied().sum()
    }

    /// Where all bytes go once a slice is lost.
    pub fn counted_without(&self, slice: usize) -> Counted {
        let parts = self.parts.iter().enumerate();
        parts.map(|(n, part)| if n == 1 + slice { part.lost() } else { *part }).sum()
    }

    pub fn subpackets_of(&self, content: Content) -> Vec<&Subpacket> {
        self.subpackets.iter().filter(|subpacket| subpacket.content == content).collect()
    }

    /// The bytes of each slice behind its header.
    pub fn slices(&self) -> Vec<Range<usize>> {
        let is_slice = |segment: &Range<usize>| self.bytes[segment.start + 1] == 0x20;
        let pairs = self.segments.windows(2).filter(|pair| is_slice(&pair[0]));
        pairs.map(|pair| pair[0].end..pair[1].start).collect()
    }

    /// The same stream with notes on one stretch alone.
    pub fn within(&self, stretch: &Range<usize>) -> Stream {
        let fields = self.fields.iter().filter(|field| stretch.contains(&(field.bit / 8)));
        let subpackets = self.subpackets.iter().filter(|subpacket| stretch.contains(&(subpacket.precinct.bit / 8)));
        Stream {
            bytes: self.bytes.clone(),
            fields: fields.copied().collect(),
            segments: Vec::new(),
            subpackets: subpackets.cloned().collect(),
            parts: Vec::new(),
        }
    }
}

/// What a subpacket holds.
#[derive(Clone, Copy, PartialEq, Eq)]
pub enum Content {
    Counts,
    Data,
    Signs,
}

/// Where the bytes of a count, data or sign subpacket stand.
#[derive(Clone)]
pub struct Subpacket {
    pub bytes: Range<usize>,
    pub content: Content,
    /// How many of its bytes hold something, and how many stand behind those.
    pub held: usize,
    pub filler: usize,
    /// Its length field, that of its precinct, and the raw flag of its packet.
    pub length: Field,
    pub precinct: Field,
    pub raw: Field,
}

/// A field of fixed length: its first bit counted from the start of the stream, and its width.
#[derive(Clone, Copy)]
pub struct Field {
    pub bit: usize,
    pub width: u32,
}

impl Field {
    fn bits(self) -> Range<usize> {
        self.bit..self.bit + self.width as usize
    }

    pub fn get(self, bytes: &[u8]) -> u64 {
        self.bits().fold(0, |value, bit| value << 1 | u64::from(bytes[bit / 8] >> (7 - bit % 8) & 1))
    }

    pub fn set(self, bytes: &mut [u8], value: u64) {
        for (i, bit) in self.bits().rev().enumerate() {
            let mask = 1 << (7 - bit % 8);
            bytes[bit / 8] = if value >> i & 1 == 1 { bytes[bit / 8] | mask } else { bytes[bit / 8] & !mask };
        }
    }
}

/// Bits written from the left of each byte.
#[derive(Default)]
pub struct Bits {
    pub bytes: Vec<u8>,
    /// How many bits of the last byte are still free.
    free: u32,
}

impl Bits {
    pub fn put(&mut self, value: u64, width: u32) -> Field {
        assert!(value >> width == 0, "{value} does not fit {width} bits");
        let field = Field { bit: 8 * self.bytes.len() - self.free as usize, width };
        let mut left = width;
        while left > 0 {
            if self.free == 0 {
                self.bytes.push(0);
                self.free = 8;
            }
            let some = left.min(self.free);
            left -= some;
            self.free -= some;
            let bits = (value >> left) as u8 & (0xff >> (8 - some));
            *self.bytes.last_mut().expect("a byte was pushed") |= bits << self.free;
        }
        field
    }

    /// Fills the last byte with any bits.
    pub fn pad(&mut self, rng: &mut Rng) {
        let bits = rng.next() & ((1 << self.free) - 1);
        self.put(bits, self.free);
    }
}

/// A stream that is being written.
#[derive(Default)]
pub struct Draft {
    pub bits: Bits,
    fields: Vec<Field>,
    segments: Vec<Range<usize>>,
    subpackets: Vec<Subpacket>,
    /// The bytes of the parts that are begun.
    parts: Vec<Counted>,
}

impl Draft {
    /// Begins the part before the first slice, a slice, or the part behind the last: its bytes are counted apart.
    pub fn begin_part(&mut self) {
        self.parts.push(Counted::default());
    }

    /// Counts bytes that are written to the part begun last.
    pub fn count(&mut self, bytes: Counted) {
        let part = self.parts.last_mut().expect("a part is begun");
        *part = *part + bytes;
    }

    pub fn length(&self) -> usize {
        self.bits.bytes.len()
    }

    /// Notes a subpacket that is written, and counts its bytes.
    pub fn note(&mut self, subpacket: Subpacket) {
        let held = |content| if subpacket.content == content { subpacket.held } else { 0 };
        let [counts, data, signs] = [Content::Counts, Content::Data, Content::Signs].map(held);
        self.count(Counted { counts, data, signs, filler: subpacket.filler, ..Counted::default() });
        self.subpackets.push(subpacket);
    }

    /// Writes a field.
    pub fn field(&mut self, value: u64, width: u32) -> Field {
        let field = self.bits.put(value, width);
        self.fields.push(field);
        field
    }

    /// Writes fields, each a value and a width.
    pub fn put(&mut self, fields: &[(u64, u32)]) -> Vec<Field> {
        fields.iter().map(|&(value, width)| self.field(value, width)).collect()
    }

    /// Writes a marker that stands alone.
    pub fn marker(&mut self, marker: u64) {
        self.segments.push(self.length()..self.length() + 2);
        self.field(marker, 16);
        self.count(Counted { markers: 2, ..Counted::default() });
    }

    /// Writes a marker segment; the length is found from its fields.
    pub fn segment(&mut self, marker: u64, fields: &[(u64, u32)]) -> Vec<Field> {
        let length = 2 + fields.iter().map(|field| field.1 as usize).sum::<usize>() / 8;
        self.segments.push(self.length()..self.length() + 2 + length);
        self.put(&[(marker, 16), (length as u64, 16)]);
        self.count(Counted { markers: 2 + length, ..Counted::default() });
        self.put(fields)
    }

    /// The stream, with its length in the field for it.
    pub fn finish(mut self, lcod: Field) -> Stream {
        let length = self.length() as u64;
        lcod.set(&mut self.bits.bytes, length);
        let Draft { bits, fields, segments, subpackets, parts } = self;
        Stream { bytes: bits.bytes, fields, segments, subpackets, parts }
    }
}
