//! Spoils sound streams.

use crate::rng::Rng;
use crate::stream::{Content, Field, Stream};
use std::ops::Range;

type Way = fn(&mut Rng, &mut Stream);

/// Spoils a stream in one place or two and, mostly, mends the declared length so that the damage is reached.
/// Says what was done.
pub fn spoil(rng: &mut Rng, mut stream: Stream) -> (&'static str, Vec<u8>) {
    let ways: [(&str, Way); 19] = [
        ("bits", flip_bits),
        ("head-bits", flip_head_bits),
        ("field", set_field),
        ("field", set_field),
        ("head-field", set_head_field),
        ("head-field", set_head_field),
        ("head-field", set_head_field),
        ("segments", move_segments),
        ("segments", move_segments),
        ("insert", insert_segment),
        ("precinct-field", set_precinct_field),
        ("trim", trim_precinct),
        ("raw", flip_raw_flag),
        ("shorten", shorten_subpacket),
        ("grow", grow_precinct),
        ("long-code", lengthen_code),
        ("ones", replace_counts),
        ("cut", cut),
        ("tail", add_tail),
    ];
    let (name, way) = rng.pick(&ways);
    way(rng, &mut stream);
    if rng.once_in(4) && !stream.bytes.is_empty() {
        flip_bits(rng, &mut stream);
    }
    if !rng.once_in(16) {
        mend_length(&mut stream.bytes);
    }
    (name, stream.bytes)
}

/// Finds the picture header by its marker and length, wherever the damage has put it.
pub fn mend_length(bytes: &mut [u8]) {
    let length = (bytes.len() as u32).to_be_bytes();
    let head = bytes.windows(8).take(200).position(|window| window[..4] == [0xff, 0x12, 0x00, 0x1a]);
    if let Some(at) = head {
        bytes[at + 4..at + 8].copy_from_slice(&length);
    }
}

fn flip_bits(rng: &mut Rng, stream: &mut Stream) {
    let end = stream.bytes.len();
    flip_bits_before(rng, stream, end);
}

fn flip_head_bits(rng: &mut Rng, stream: &mut Stream) {
    let end = first_slice(stream) + 6;
    flip_bits_before(rng, stream, end);
}

fn flip_bits_before(rng: &mut Rng, stream: &mut Stream, end: usize) {
    for _ in 0..rng.between(1, 3) {
        let at = rng.below(end);
        stream.bytes[at] ^= 1 << rng.below(8);
    }
}

fn first_slice(stream: &Stream) -> usize {
    let slice = stream.segments.iter().find(|segment| stream.bytes[segment.start + 1] == 0x20);
    slice.map_or(0, |segment| segment.start)
}

fn set_field(rng: &mut Rng, stream: &mut Stream) {
    let field = stream.fields[rng.below(stream.fields.len())];
    to_a_bound(rng, stream, field);
}

/// Takes each segment before the first slice as often as any other, however many fields it has.
fn set_head_field(rng: &mut Rng, stream: &mut Stream) {
    let segment = head_segment(rng, stream);
    let within = |field: &&Field| segment.contains(&(field.bit / 8));
    let fields: Vec<Field> = stream.fields.iter().filter(within).copied().collect();
    let field = rng.pick(&fields);
    to_a_bound(rng, stream, field);
}

/// Gives a field a value at the bounds of its own range or of one that the standard names.
pub fn to_a_bound(rng: &mut Rng, stream: &mut Stream, field: Field) {
    let all = u64::MAX >> (64 - field.width);
    let named = [0, 1, 2, 3, 4, 5, 6, 7, 8, 9, 12, 13, 15, 16, 17, 18, 19, 20, 26, 31, 32, 79, 80, 127, 128, 255];
    let large = [256, 0x7fff, 0x8000, 0x8b01, 16_384, 16_385, 0xff11, 0xff14, 0xff20, 0xff21, (1 << 20) - 1, 1 << 20];
    let old = field.get(&stream.bytes);
    let value = match rng.below(6) {
        0 => old.wrapping_add(1),
        1 => old.wrapping_sub(1),
        2 => rng.pick(&[0, all, all - 1]),
        3 => rng.pick(&large),
        4 => rng.next(),
        _ => rng.pick(&named),
    };
    field.set(&mut stream.bytes, value & all);
}

/// A segment up to and with the first slice header.
fn head_segment(rng: &mut Rng, stream: &Stream) -> Range<usize> {
    let end = first_slice(stream);
    let head = stream.segments.iter().filter(|segment| segment.start <= end).count();
    stream.segments[rng.below(head)].clone()
}

/// A segment, mostly one up to and with the first slice header.
fn any_segment(rng: &mut Rng, stream: &Stream) -> Range<usize> {
    match rng.below(4) {
        0 => stream.segments[rng.below(stream.segments.len())].clone(),
        _ => head_segment(rng, stream),
    }
}

/// Drops, repeats or exchanges whole segments.
fn move_segments(rng: &mut Rng, stream: &mut Stream) {
    let (one, other) = (any_segment(rng, stream), any_segment(rng, stream));
    let (first, second) = if one.start < other.start { (one, other) } else { (other, one) };
    let (early, late) = (stream.bytes[first.clone()].to_vec(), stream.bytes[second.clone()].to_vec());
    match rng.below(3) {
        0 => drop(stream.bytes.drain(first)),
        1 => drop(stream.bytes.splice(second.start..second.start, early)),
        _ if first == second => stream.bytes.truncate(second.start),
        _ => {
            stream.bytes.splice(second, early);
            stream.bytes.splice(first, late);
        }
    }
}

/// Puts a segment where it may not stand, or one that is not built.
fn insert_segment(rng: &mut Rng, stream: &mut Stream) {
    let markers =
        [0x10, 0x11, 0x12, 0x13, 0x14, 0x15, 0x15, 0x16, 0x17, 0x17, 0x18, 0x19, 0x1a, 0x1b, 0x1c, 0x20, 0x21];
    let mut segment = vec![0xff, rng.pick(&markers)];
    let length = rng.pick(&[0, 1, 2, 3, 4, 5, 6, 10, 14, 18]);
    segment.extend([0, length]);
    segment.extend((2..length).map(|_| rng.pick(&[0, 0, 1, 2, 3, 0x80, 0x8b])));
    let at = any_segment(rng, stream).start;
    stream.bytes.splice(at..at, segment);
}

/// Q or R of a precinct; they follow its length (Table C.1).
pub fn set_precinct_field(rng: &mut Rng, stream: &mut Stream) {
    let precinct = stream.subpackets[rng.below(stream.subpackets.len())].precinct;
    let field = Field { bit: precinct.bit + rng.pick(&[24, 32]), width: 8 };
    to_a_bound(rng, stream, field);
}

/// Takes any number of bytes from the end of a precinct, with its length mended.
pub fn trim_precinct(rng: &mut Rng, stream: &mut Stream) {
    let precinct = stream.subpackets[rng.below(stream.subpackets.len())].precinct;
    let end = precinct_end(stream, precinct);
    let length = precinct.get(&stream.bytes) as usize;
    let left = rng.below(length);
    precinct.set(&mut stream.bytes, left as u64);
    stream.bytes.drain(end - (length - left)..end);
}

pub fn precinct_end(stream: &Stream, precinct: Field) -> usize {
    let last = stream.subpackets.iter().rev().find(|subpacket| subpacket.precinct.bit == precinct.bit);
    last.map_or(0, |subpacket| subpacket.bytes.end)
}

pub fn flip_raw_flag(rng: &mut Rng, stream: &mut Stream) {
    let raw = stream.subpackets[rng.below(stream.subpackets.len())].raw;
    let flag = raw.get(&stream.bytes);
    raw.set(&mut stream.bytes, 1 - flag);
}

/// Takes the last byte of a subpacket away, with both lengths mended.
fn shorten_subpacket(rng: &mut Rng, stream: &mut Stream) {
    let subpacket = stream.subpackets[rng.below(stream.subpackets.len())].clone();
    if subpacket.bytes.is_empty() {
        return flip_bits(rng, stream);
    }
    for field in [subpacket.length, subpacket.precinct] {
        let length = field.get(&stream.bytes);
        field.set(&mut stream.bytes, length - 1);
    }
    stream.bytes.remove(subpacket.bytes.end - 1);
}

/// Gives a precinct bytes that no packet holds.
pub fn grow_precinct(rng: &mut Rng, stream: &mut Stream) {
    let choice = rng.below(stream.subpackets.len());
    let precinct = stream.subpackets[choice].precinct;
    let end = precinct_end(stream, precinct);
    let extra = rng.between(1, 8);
    let length = precinct.get(&stream.bytes);
    precinct.set(&mut stream.bytes, length + extra as u64);
    let filler = rng.bytes(extra);
    stream.bytes.splice(end..end, filler);
}

/// Writes ones over the end of a count subpacket, so that a code is too long or cut.
pub fn lengthen_code(rng: &mut Rng, stream: &mut Stream) {
    let mut counts = stream.subpackets_of(Content::Counts);
    counts.retain(|subpacket| !subpacket.bytes.is_empty());
    if counts.is_empty() {
        return flip_bits(rng, stream);
    }
    let place = counts[rng.below(counts.len())].bytes.clone();
    let start = rng.between(place.start, place.end - 1);
    let end = place.end.min(start + rng.between(1, 9));
    stream.bytes[start..end].fill(0xff);
}

/// Makes a count subpacket begin, and perhaps end, with about as many ones as a code may have; both lengths are mended.
pub fn replace_counts(rng: &mut Rng, stream: &mut Stream) {
    let counts = stream.subpackets_of(Content::Counts);
    let subpacket = counts[rng.below(counts.len())].clone();
    let mut bytes = vec![0xff; rng.pick(&[3, 4, 5, 7, 8, 9])];
    if rng.once_in(2) {
        bytes.push(rng.pick(&[0x00, 0x80, 0xc0, 0xfe]));
    }
    let length = subpacket.length.get(&stream.bytes);
    let precinct = subpacket.precinct.get(&stream.bytes);
    subpacket.length.set(&mut stream.bytes, bytes.len() as u64);
    subpacket.precinct.set(&mut stream.bytes, precinct - length + bytes.len() as u64);
    stream.bytes.splice(subpacket.bytes, bytes);
}

fn cut(rng: &mut Rng, stream: &mut Stream) {
    let length = rng.below(stream.bytes.len());
    stream.bytes.truncate(length);
}

pub fn add_tail(rng: &mut Rng, stream: &mut Stream) {
    let length = rng.between(1, 4);
    let tail = rng.bytes(length);
    stream.bytes.extend(tail);
}

/// The heads of files of other formats, with any bytes behind; and text, and nothing.
pub fn foreign(rng: &mut Rng) -> (&'static str, Vec<u8>) {
    let heads: [(&str, &[u8]); 10] = [
        ("png", b"\x89PNG\r\n\x1a\n\0\0\0\rIHDR"),
        ("jpeg", b"\xff\xd8\xff\xe0\0\x10JFIF\0\x01\x01"),
        ("jpeg2000", b"\0\0\0\x0cjP  \r\n\x87\n"),
        ("jpeg2000-codestream", b"\xff\x4f\xff\x51\0\x29"),
        ("jpegxs-file", b"\0\0\0\x0cJXS \r\n\x87\n"),
        ("tiff", b"II*\0\x08\0\0\0"),
        ("tiff-big-endian", b"MM\0*\0\0\0\x08"),
        ("text", b"Dear Sir, the enclosed page is not a scan.\n"),
        ("first-bytes", b"\xff\x10\xff\x50\0"),
        ("nothing", b""),
    ];
    let (name, head) = rng.pick(&heads);
    let mut bytes = head.to_vec();
    let length = rng.pick(&[0, 0, 1, 30, 300]);
    bytes.extend(rng.bytes(length));
    (name, bytes)
}
