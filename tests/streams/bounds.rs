//! Header fields at their bounds and segments in wrong places, one change after the other rather than at random.

use crate::damage::mend_length;
use crate::rng::Rng;
use crate::setting;
use crate::stream::{Field, Stream};
use crate::write::{self, Manner, Source, Steps, SOME_FILLER};
use independent::b::Layout;
use std::ops::Range;

/// One change of a stream.
enum Change {
    Set(Field, u64),
    Drop(Range<usize>),
    Insert(usize, Vec<u8>),
}

/// Change `n` of those that there are for a few small pages. Numbers in a row are spread over all of them.
pub fn change(n: usize) -> (&'static str, Vec<u8>) {
    let mut stream = page(n % setting::BOUNDED);
    let mut changes = changes(&stream);
    // A prime above their number, so that all are met.
    let choice = n / setting::BOUNDED * 7_919 % changes.len();
    apply(changes.swap_remove(choice), &mut stream)
}

/// A page that has every segment that is built.
fn page(n: usize) -> Stream {
    let header = setting::bounded(n);
    let layout = Layout::new(&header);
    let pages = (0..).map(|seed| {
        let manner = Manner { steps: Steps::UpTo(3), varied: true, filler: SOME_FILLER };
        write::stream(&mut Rng::new(seed), &header, &layout, manner, &Source::Syntax)
    });
    let has = |stream: &Stream, marker| head(stream).iter().any(|segment| stream.bytes[segment.start + 1] == marker);
    pages.into_iter().find(|stream| has(stream, 0x15) && has(stream, 0x19)).expect("some seed writes all segments")
}

/// The segments up to and with the first slice header.
fn head(stream: &Stream) -> &[Range<usize>] {
    let slice = stream.segments.iter().position(|segment| stream.bytes[segment.start + 1] == 0x20);
    &stream.segments[..=slice.expect("a page has a slice")]
}

fn changes(stream: &Stream) -> Vec<Change> {
    let mut changes = Vec::new();
    for segment in head(stream) {
        for field in fields(stream, segment) {
            let old = field.get(&stream.bytes);
            let values = bounds(field, old).into_iter().filter(|&value| value != old && value >> field.width == 0);
            changes.extend(values.map(|value| Change::Set(field, value)));
        }
        changes.push(Change::Drop(segment.clone()));
        let copies = head(stream).iter().map(|copied| stream.bytes[copied.clone()].to_vec());
        changes.extend(copies.chain(strangers()).map(|bytes| Change::Insert(segment.start, bytes)));
    }
    changes
}

/// The fields of a segment; of a long table, whose fields are all alike, the first and the last.
fn fields(stream: &Stream, segment: &Range<usize>) -> Vec<Field> {
    let mut fields = stream.fields.clone();
    fields.retain(|field| segment.contains(&(field.bit / 8)));
    if fields.len() > 30 {
        fields.drain(4..fields.len() - 2);
    }
    fields
}

/// Values at the bounds of what a field may hold.
fn bounds(field: Field, old: u64) -> Vec<u64> {
    let mut values = match field.width {
        1..=4 => (0..16).collect(),
        8 => vec![0, 1, 2, 3, 4, 5, 7, 8, 9, 12, 13, 15, 16, 17, 18, 19, 20, 21, 255],
        16 => vec![0, 1, 2, 3, 4, 5, 6, 8, 9, 16, 17, 32, 33, 64, 0x7fff, 0x8000, 16_384, 16_385, 0xff1c, 0xffff],
        _ => vec![0, 1, 1 << 31],
    };
    values.extend([old.wrapping_add(1), old.wrapping_sub(1)]);
    values.sort_unstable();
    values.dedup();
    values
}

/// Segments that may not stand in a page that is built, or not twice.
fn strangers() -> impl Iterator<Item = Vec<u8>> {
    let segments: [&[u8]; 13] = [
        &[0xff, 0x11],
        &[0xff, 0x16, 0, 5, 1, 0, 0],
        &[0xff, 0x17, 0, 3, 0],
        &[0xff, 0x17, 0, 3, 1],
        &[0xff, 0x17, 0, 3, 2],
        &[0xff, 0x17, 0, 3, 4],
        &[0xff, 0x17, 0, 4, 1, 0],
        &[0xff, 0x18, 0, 4, 0, 0],
        &[0xff, 0x1a, 0, 4, 8, 0],
        &[0xff, 0x1b, 0, 4, 0, 0],
        &[0xff, 0x15, 0, 3, 0],
        &[0xff, 0x15, 0, 4, 0x7f, 0xff],
        &[0xff, 0x21, 0, 4, 0, 0],
    ];
    segments.into_iter().map(<[u8]>::to_vec)
}

/// Makes a change and mends the declared length, unless that is what was changed.
fn apply(change: Change, stream: &mut Stream) -> (&'static str, Vec<u8>) {
    let lcod = head(stream)[2].start + 4;
    let mut bytes = std::mem::take(&mut stream.bytes);
    let name = match change {
        Change::Set(field, value) => {
            field.set(&mut bytes, value);
            if field.bit / 8 == lcod {
                return ("length", bytes);
            }
            "set"
        }
        Change::Drop(segment) => {
            bytes.drain(segment);
            "drop"
        }
        Change::Insert(at, segment) => {
            bytes.splice(at..at, segment);
            "insert"
        }
    };
    mend_length(&mut bytes);
    (name, bytes)
}

#[cfg(test)]
mod tests {
    use super::*;

    #[test]
    fn pages_are_sound_until_they_are_changed() {
        for n in 0..setting::BOUNDED {
            independent::read(&page(n).bytes, setting::SMALL.samples).unwrap();
        }
    }
}
