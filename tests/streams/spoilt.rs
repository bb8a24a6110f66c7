//! Pages of which slices are spoilt, for the damaged mode (document 02, C-15).

use crate::damage::{
    add_tail, flip_raw_flag, grow_precinct, lengthen_code, mend_length, precinct_end, replace_counts,
    set_precinct_field, to_a_bound, trim_precinct,
};
use crate::rng::Rng;
use crate::stream::{Content, Field, Stream};
use std::ops::Range;

/// A way to spoil a slice. It is given a stream with notes on that slice alone, and changes nothing outside the slice.
type Way = fn(&mut Rng, &mut Stream);

/// Ways that change no precinct's length.
const WITHIN: [(&str, Way); 8] = [
    ("bytes", set_bytes),
    ("bits", flip_bits),
    ("run", overwrite_run),
    ("precinct-field", set_precinct_field),
    ("mode", change_mode),
    ("raw", flip_raw_flag),
    ("packet-field", set_packet_field),
    ("long-code", overrun_code),
];

/// Ways that change the length of a precinct together with its bytes, so that the next is still found.
const RESIZING: [(&str, Way); 5] = [
    ("trim", trim_precinct),
    ("empty", empty_precinct),
    ("grow", grow_precinct),
    ("ones", replace_counts),
    ("moved", move_end),
];

/// Ways that change a length alone, so that the next precinct is looked for in a wrong place, or past the stream.
const ASTRAY: [(&str, Way); 2] = [("length", set_length), ("length-behind", set_length_behind)];

/// Spoils one slice of a stream or more; what stands outside them too, in one stream of three. Lcod stays right. Says what
/// was done.
pub fn spoil(rng: &mut Rng, mut stream: Stream) -> (String, Vec<u8>) {
    let ways = [&WITHIN[..], &WITHIN, &RESIZING, &ASTRAY].concat();
    let slices = stream.slices();
    let chosen = chosen(rng, slices.len());
    let first = slices[chosen[0]].clone();
    let outside = if rng.once_in(3) { rng.pick(&["header", "header", "cut", "tail"]) } else { "" };
    let mut names: Vec<&str> = Vec::new();
    if outside == "header" {
        set_header_behind(rng, &mut stream, first.end);
    }
    // From the last to the first: a way may move what stands behind its slice.
    for slice in chosen.into_iter().rev() {
        names.push(spoil_slice(rng, &mut stream, &slices[slice], &ways));
    }
    match outside {
        "cut" => cut_behind(rng, &mut stream, first.start),
        "tail" => add_tail(rng, &mut stream),
        _ => {}
    }
    names.truncate(2);
    names.extend(Some(outside).filter(|name| !name.is_empty()));
    mend_length(&mut stream.bytes);
    (names.join("-"), stream.bytes)
}

/// Spoils one slice of a stream outside its precincts' lengths. Says how, and which.
pub fn set_apart(rng: &mut Rng, stream: &mut Stream) -> (&'static str, usize) {
    let slices = stream.slices();
    let slice = rng.below(slices.len());
    (spoil_slice(rng, stream, &slices[slice], &WITHIN), slice)
}

fn spoil_slice(rng: &mut Rng, stream: &mut Stream, slice: &Range<usize>, ways: &[(&'static str, Way)]) -> &'static str {
    let mut part = stream.within(slice);
    let (name, way) = rng.pick(ways);
    way(rng, &mut part);
    stream.bytes = part.bytes;
    name
}

/// One slice, two, or all, in order.
fn chosen(rng: &mut Rng, slices: usize) -> Vec<usize> {
    let (one, other) = (rng.below(slices), rng.below(slices));
    match rng.below(8) {
        0 => (0..slices).collect(),
        1 | 2 if one != other => vec![one.min(other), one.max(other)],
        _ => vec![one],
    }
}

/// The length fields of the precincts.
fn precincts(slice: &Stream) -> Vec<Field> {
    let mut lengths: Vec<Field> = slice.subpackets.iter().map(|subpacket| subpacket.precinct).collect();
    lengths.dedup_by_key(|length| length.bit);
    lengths
}

/// The places of all bytes but those of the precincts' lengths.
fn places(slice: &Stream) -> Vec<usize> {
    let behind_length = |length: Field| length.bit / 8 + 3..precinct_end(slice, length);
    precincts(slice).into_iter().flat_map(behind_length).collect()
}

fn set_bytes(rng: &mut Rng, slice: &mut Stream) {
    let places = places(slice);
    for _ in 0..rng.between(1, 4) {
        slice.bytes[rng.pick(&places)] = rng.byte();
    }
}

fn flip_bits(rng: &mut Rng, slice: &mut Stream) {
    let places = places(slice);
    for _ in 0..rng.between(1, 3) {
        slice.bytes[rng.pick(&places)] ^= 1 << rng.below(8);
    }
}

/// Up to 40 bytes in a row, as a scratch leaves them.
fn overwrite_run(rng: &mut Rng, slice: &mut Stream) {
    let places = places(slice);
    let start = rng.below(places.len());
    let end = places.len().min(start + rng.between(1, 40));
    let byte = rng.pick(&[0x00, 0xff]);
    let random = rng.once_in(2);
    for &at in &places[start..end] {
        slice.bytes[at] = if random { rng.byte() } else { byte };
    }
}

/// Changes whether a band is predicted vertically: forbidden in the top row, anything may follow below it.
fn change_mode(rng: &mut Rng, slice: &mut Stream) {
    let modes: Vec<Field> = slice.fields.iter().filter(|field| field.width == 2).copied().collect();
    let mode = rng.pick(&modes);
    let d = mode.get(&slice.bytes);
    mode.set(&mut slice.bytes, d ^ 1);
}

/// A length in a packet header.
fn set_packet_field(rng: &mut Rng, slice: &mut Stream) {
    let length = slice.subpackets[rng.below(slice.subpackets.len())].length;
    to_a_bound(rng, slice, length);
}

fn overrun_code(rng: &mut Rng, slice: &mut Stream) {
    let some = slice.subpackets_of(Content::Counts).iter().any(|subpacket| !subpacket.bytes.is_empty());
    let way = if some { lengthen_code } else { flip_raw_flag };
    way(rng, slice);
}

/// Leaves a precinct nothing but its header.
fn empty_precinct(rng: &mut Rng, slice: &mut Stream) {
    let precinct = rng.pick(&precincts(slice));
    let end = precinct_end(slice, precinct);
    let length = precinct.get(&slice.bytes) as usize;
    precinct.set(&mut slice.bytes, 0);
    slice.bytes.drain(end - length..end);
}

/// Moves the end of a precinct behind the header of the next one: both lengths change, and their sum does not.
fn move_end(rng: &mut Rng, slice: &mut Stream) {
    let precincts = precincts(slice);
    let first = rng.below(precincts.len());
    let second = match precincts.get(first + 1) {
        Some(&second) => second,
        None => return grow_precinct(rng, slice),
    };
    let [left, right] = [precincts[first], second].map(|length| length.get(&slice.bytes) as usize);
    let moved = rng.between(1, left);
    let start = second.bit / 8;
    let body = precinct_end(slice, second) - right;
    precincts[first].set(&mut slice.bytes, (left - moved) as u64);
    second.set(&mut slice.bytes, (right + moved) as u64);
    slice.bytes[start - moved..body].rotate_left(moved);
}

/// Makes a precinct end about where the stream does, or anywhere.
fn set_length(rng: &mut Rng, slice: &mut Stream) {
    let length = rng.pick(&precincts(slice));
    if rng.once_in(2) {
        return to_a_bound(rng, slice, length);
    }
    let body = precinct_end(slice, length) - length.get(&slice.bytes) as usize;
    let rest = slice.bytes.len() - body;
    length.set(&mut slice.bytes, rng.between(rest.saturating_sub(8), rest + 8) as u64);
}

/// Makes the slice's first Q too large; that it is spoilt by then makes no length right.
fn set_length_behind(rng: &mut Rng, slice: &mut Stream) {
    set_length(rng, slice);
    let q = precincts(slice)[0].bit / 8 + 3;
    slice.bytes[q] = rng.between(32, 255) as u8;
}

/// Changes a field of a slice header behind a place, or the end marker. Slices of temporal coding, which is not built, have the
/// marker 0xff21.
fn set_header_behind(rng: &mut Rng, stream: &mut Stream, place: usize) {
    let behind: Vec<usize> = stream.segments.iter().map(|segment| segment.start).filter(|&at| at >= place).collect();
    let at = rng.pick(&behind);
    let is_slice = stream.bytes[at + 1] == 0x20;
    if is_slice && rng.once_in(4) {
        stream.bytes[at + 1] = 0x21;
        return;
    }
    let field = if is_slice { rng.pick(&[0, 2, 4]) } else { 0 };
    to_a_bound(rng, stream, Field { bit: 8 * (at + field), width: 16 });
}

/// Cuts a stream behind a place, in half of the streams in the first bytes of a precinct or near a marker.
fn cut_behind(rng: &mut Rng, stream: &mut Stream, place: usize) {
    let starts = precincts(stream).into_iter().map(|length| length.bit / 8);
    let starts = starts.chain(stream.segments.iter().map(|segment| segment.start));
    let starts: Vec<usize> = starts.filter(|&at| at >= place).collect();
    let length = match rng.below(2) {
        0 => rng.pick(&starts) + rng.below(8),
        _ => rng.between(place, stream.bytes.len() - 1),
    };
    stream.bytes.truncate(length);
}

#[cfg(test)]
mod tests {
    use super::*;
    use crate::setting::SMALL;
    use crate::{in_slices, make, Kind, Made};
    use independent::{read, read_damaged};

    fn streams(kind: Kind, number: u64) -> impl Iterator<Item = Made> {
        (0..number).map(move |seed| make(kind, seed, SMALL))
    }

    /// Whatever a reading accepts the damaged mode reads alike, losing nothing; and it refuses no more than a reading does.
    #[test]
    fn what_is_read_is_read_alike() {
        let (mut alike, mut mended) = (0, 0);
        for kind in [Kind::Twin, Kind::Spoilt, Kind::Damaged, Kind::Coefficients] {
            for made in streams(kind, 500) {
                match (read(&made.bytes, SMALL.samples), read_damaged(&made.bytes, SMALL.samples)) {
                    (Ok(page), Ok((same, marks))) => {
                        assert_eq!(page, same, "{}", made.name);
                        assert!(marks.iter().flatten().all(|&lost| !lost), "{}", made.name);
                        alike += 1;
                    }
                    (Err(_), Ok((_, marks))) => {
                        assert!(marks.iter().all(|marks| marks.contains(&true)), "{}", made.name);
                        mended += 1;
                    }
                    (plain, damaged) => assert!(plain.is_err() && damaged.is_err(), "{}", made.name),
                }
            }
        }
        assert!(alike > 1_000 && mended > 150, "{alike} alike, {mended} mended");
    }

    #[test]
    fn all_rows_of_pages_occur_and_none_of_packets() {
        let mut rows = [0; 9];
        for made in streams(Kind::Spoilt, 2_000) {
            let refused = read_damaged(&made.bytes, SMALL.samples).err();
            rows[refused.map_or(0, |refusal| refusal.row as usize)] += 1;
        }
        assert!([0, 1, 2, 3, 4, 6].iter().all(|&row| rows[row] > 20) && rows[5] + rows[7] + rows[8] == 0, "{rows:?}");
    }

    /// Where the last precinct of each slice is spoilt, what stands before it is lost too, and its T do not count.
    #[test]
    fn nothing_is_left_of_a_page_whose_slices_are_all_spoilt() {
        for seed in 0..300 {
            let (mut stream, _) = in_slices(&mut Rng::new(seed), SMALL);
            for slice in stream.slices() {
                let last = precincts(&stream.within(&slice)).pop().unwrap();
                stream.bytes[last.bit / 8 + 3] = 32;
            }
            let header = independent::a::header(&stream.bytes).unwrap();
            let (page, marks) = read_damaged(&stream.bytes, SMALL.samples).unwrap();
            assert!(marks.iter().flatten().all(|&lost| lost));
            for component in &page.components {
                let grey = independent::g::output(&[0], header.bw, component.precision)[0];
                assert_eq!(component.distance, 0);
                assert!(component.samples.iter().all(|&sample| sample == grey));
            }
        }
    }

    #[test]
    fn streams_set_apart_differ_in_one_slice_outside_lengths() {
        for (seed, made) in (0..500).zip(streams(Kind::Apart, 500)) {
            let (twin, _) = in_slices(&mut Rng::new(seed), SMALL);
            assert_eq!(made.bytes.len(), twin.bytes.len());
            let differs = |&at: &usize| made.bytes[at] != twin.bytes[at];
            let differing: Vec<usize> = (0..twin.bytes.len()).filter(differs).collect();
            let mut slices = twin.slices().into_iter().map(|slice| places(&twin.within(&slice)));
            assert!(slices.any(|places| differing.iter().all(|at| places.contains(at))), "{}", made.name);
        }
    }

    /// Samples that are not marked are those of the sound page, and keep the distance, which may have become smaller.
    #[test]
    fn one_spoilt_slice_changes_only_what_is_marked() {
        let mut spoilt = 0;
        for (made, twin) in streams(Kind::Apart, 500).zip(streams(Kind::Twin, 500)) {
            let sound = read(&twin.bytes, SMALL.samples).unwrap();
            let (page, marks) = read_damaged(&made.bytes, SMALL.samples).unwrap();
            spoilt += usize::from(marks[0].contains(&true));
            if !marks[0].contains(&true) {
                continue;
            }
            for (i, (component, whole)) in page.components.iter().zip(&sound.components).enumerate() {
                let exact = made.exact.as_ref().map_or(&component.samples, |exact| &exact[i]);
                for at in (0..marks[i].len()).filter(|&at| !marks[i][at]) {
                    assert_eq!(component.samples[at], whole.samples[at], "{}", made.name);
                    let off = component.samples[at].abs_diff(exact[at]);
                    assert!(u64::from(off) <= component.distance, "{}", made.name);
                }
            }
        }
        assert!(spoilt > 250, "{spoilt}");
    }
}
