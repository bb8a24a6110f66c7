//! Streams that aim at one rule each, of those that damage anywhere seldom meets, or at the order of two (document 02, C-19).

use crate::damage::{mend_length, precinct_end, set_precinct_field, to_a_bound};
use crate::rng::Rng;
use crate::stream::{Content, Field, Stream, Subpacket};
use independent::a;
use std::ops::Range;

/// A way to break a rule. Says whether the stream has what it takes; else nothing is changed.
type Way = fn(&mut Rng, &mut Stream) -> bool;

/// All ways; that which shows in which order fields are judged stands twice.
const WAYS: [(&str, Way); 20] = [
    ("counts", |rng, stream| shorten(rng, stream, Content::Counts)),
    ("data", |rng, stream| shorten(rng, stream, Content::Data)),
    ("signs", |rng, stream| shorten(rng, stream, Content::Signs)),
    ("past", declare_too_much),
    ("flags", cut_flags),
    ("packet", cut_packet_header),
    ("raw", change_last_raw_flag),
    ("ones", write_ones),
    ("top", predict_top_row),
    ("precinct", |rng, stream| always(set_precinct_field(rng, stream))),
    ("picture", |rng, stream| always(set_picture_field(rng, stream))),
    ("pictures", |rng, stream| always((0..2).for_each(|_| set_picture_field(rng, stream)))),
    ("byte", |rng, stream| always(set_shared_byte(rng, stream))),
    ("byte", |rng, stream| always(set_shared_byte(rng, stream))),
    ("sampling", set_sampling),
    ("slice", |rng, stream| always(set_slice_field(rng, stream))),
    ("size", |rng, stream| always(resize(rng, stream))),
    ("undecomposed", insert_undecomposed),
    ("unbuilt", |rng, stream| always(insert_unbuilt(rng, stream))),
    ("cut", |rng, stream| always(cut_segment(rng, stream))),
];

fn always(_: ()) -> bool {
    true
}

/// Breaks a rule of a sound stream. Says how.
pub fn aim(rng: &mut Rng, sound: impl FnMut(&mut Rng) -> Stream) -> (&'static str, Vec<u8>) {
    let (name, way) = rng.pick(&WAYS);
    (name, aim_by(rng, way, sound))
}

/// Makes streams until one has what the way takes.
fn aim_by(rng: &mut Rng, way: Way, mut sound: impl FnMut(&mut Rng) -> Stream) -> Vec<u8> {
    loop {
        let mut stream = sound(rng);
        if way(rng, &mut stream) {
            mend_length(&mut stream.bytes);
            return stream.bytes;
        }
    }
}

/// One of the subpackets of which this holds.
fn some(rng: &mut Rng, stream: &Stream, suits: impl Fn(&Subpacket) -> bool) -> Option<Subpacket> {
    let suiting: Vec<&Subpacket> = stream.subpackets.iter().filter(|subpacket| suits(subpacket)).collect();
    (!suiting.is_empty()).then(|| suiting[rng.below(suiting.len())].clone())
}

/// The bytes of the header of a subpacket's packet: the raw flag is its first bit.
fn packet_header(subpacket: &Subpacket) -> Range<usize> {
    let start = subpacket.raw.bit / 8;
    let width_in_long = if subpacket.content == Content::Signs { 15 } else { 20 };
    start..start + if subpacket.length.width == width_in_long { 7 } else { 5 }
}

/// Declares fewer bytes than a subpacket holds.
fn shorten(rng: &mut Rng, stream: &mut Stream, content: Content) -> bool {
    let subpacket = match some(rng, stream, |subpacket| subpacket.content == content && subpacket.held > 0) {
        Some(subpacket) => subpacket,
        None => return false,
    };
    let fewer = if rng.once_in(2) { subpacket.held - 1 } else { rng.below(subpacket.held) };
    subpacket.length.set(&mut stream.bytes, fewer as u64);
    true
}

/// Declares more bytes for a subpacket than its precinct has left.
fn declare_too_much(rng: &mut Rng, stream: &mut Stream) -> bool {
    let header = a::header(&stream.bytes).expect("the stream is sound so far");
    let counts = |subpacket: &Subpacket| header.fs || subpacket.content != Content::Signs;
    let subpacket = some(rng, stream, counts).expect("each packet has a count subpacket");
    let left = precinct_end(stream, subpacket.precinct) - subpacket.bytes.start;
    let most = (1 << subpacket.length.width) - 1;
    let more = [left + 1, left + rng.between(1, 40), most];
    let more = rng.pick(&more);
    subpacket.length.set(&mut stream.bytes, more.min(most) as u64);
    true
}

/// Makes a precinct end at a place, with its length mended.
fn end_precinct(stream: &mut Stream, precinct: Field, place: usize) {
    let end = precinct_end(stream, precinct);
    let length = precinct.get(&stream.bytes) - (end - place) as u64;
    precinct.set(&mut stream.bytes, length);
    stream.bytes.drain(place..end);
}

/// Ends a precinct in the significance flags of a packet.
fn cut_flags(rng: &mut Rng, stream: &mut Stream) -> bool {
    let flags = |counts: &Subpacket| packet_header(counts).end..counts.bytes.start;
    let has_flags = |subpacket: &Subpacket| subpacket.content == Content::Counts && !flags(subpacket).is_empty();
    let counts = match some(rng, stream, has_flags) {
        Some(counts) => counts,
        None => return false,
    };
    let flags = flags(&counts);
    end_precinct(stream, counts.precinct, rng.between(flags.start, flags.end - 1));
    true
}

/// Ends a precinct in a packet header.
fn cut_packet_header(rng: &mut Rng, stream: &mut Stream) -> bool {
    let subpacket = some(rng, stream, |_| true).expect("each packet has subpackets");
    let header = packet_header(&subpacket);
    end_precinct(stream, subpacket.precinct, rng.between(header.start, header.end - 1));
    true
}

/// Changes the raw flag of the last packet of a precinct, whose bands mostly have others there.
fn change_last_raw_flag(rng: &mut Rng, stream: &mut Stream) -> bool {
    let header = a::header(&stream.bytes).expect("the stream is sound so far");
    if header.rl || header.nly < 2 {
        return false;
    }
    let precinct = some(rng, stream, |_| true).expect("each packet has subpackets").precinct;
    let last = stream.subpackets.iter().rev().find(|subpacket| subpacket.precinct.bit == precinct.bit);
    let raw = last.expect("a precinct has packets").raw;
    let flag = raw.get(&stream.bytes);
    raw.set(&mut stream.bytes, 1 - flag);
    true
}

/// Makes the first code of a packet about as long as one may be, or as gives the largest count.
fn write_ones(rng: &mut Rng, stream: &mut Stream) -> bool {
    let header = a::header(&stream.bytes).expect("the stream is sound so far");
    let limit = 2 << header.br;
    let coded = |subpacket: &Subpacket| subpacket.content == Content::Counts && subpacket.raw.get(&stream.bytes) == 0;
    let counts = match some(rng, stream, coded) {
        Some(counts) => counts,
        None => return false,
    };
    let ones = rng.pick(&[30, 31, 32, 33, limit - 2, limit - 1, limit, limit + 1]);
    let mut bytes = vec![0xff; ones / 8];
    bytes.push(!(0xff >> (ones % 8)));
    // So that the codes behind it are not cut either.
    bytes.resize(bytes.len() + rng.pick(&[0, counts.bytes.len()]), 0);
    let grown = bytes.len() as u64;
    let (length, precinct) = (counts.length.get(&stream.bytes), counts.precinct.get(&stream.bytes));
    counts.length.set(&mut stream.bytes, grown);
    counts.precinct.set(&mut stream.bytes, precinct - length + grown);
    stream.bytes.splice(counts.bytes, bytes);
    true
}

/// Predicts a band from above in the top row of a slice.
fn predict_top_row(rng: &mut Rng, stream: &mut Stream) -> bool {
    let slices = stream.slices();
    let slice = stream.within(&slices[rng.below(slices.len())]);
    let first_precinct = slice.subpackets[0].raw.bit;
    let modes = slice.fields.iter().filter(|field| field.width == 2 && field.bit < first_precinct);
    let modes: Vec<Field> = modes.copied().collect();
    let mode = rng.pick(&modes);
    let d = mode.get(&stream.bytes);
    mode.set(&mut stream.bytes, d | 1);
    true
}

/// The picture header's marker segment: the start and the capabilities stand before it.
fn picture_header(stream: &Stream) -> Range<usize> {
    stream.segments[2].clone()
}

/// Each field of the picture header behind its length as often as any other, at the ends of what it can hold or anywhere.
fn set_picture_field(rng: &mut Rng, stream: &mut Stream) {
    let header = picture_header(stream);
    let within = stream.fields.iter().filter(|field| header.contains(&(field.bit / 8)));
    let fields: Vec<Field> = within.skip(2).copied().collect();
    let field = rng.pick(&fields);
    match rng.below(3) {
        0 => field.set(&mut stream.bytes, 0),
        1 => field.set(&mut stream.bytes, u64::MAX),
        _ => to_a_bound(rng, stream, field),
    }
}

/// Sets a byte of the header that several fields share, so that mostly more than one of them is wrong.
fn set_shared_byte(rng: &mut Rng, stream: &mut Stream) {
    let first_slice = 8 * stream.slices()[0].start;
    let shared = stream.fields.iter().filter(|field| field.width < 8 && field.bit < first_slice);
    let mut places: Vec<usize> = shared.map(|field| field.bit / 8).collect();
    places.dedup();
    stream.bytes[rng.pick(&places)] = rng.byte();
}

/// Samples a component otherwise, mostly in a page with the colour transform: a factor of the component table has half a byte.
fn set_sampling(rng: &mut Rng, stream: &mut Stream) -> bool {
    let header = a::header(&stream.bytes).expect("the stream is sound so far");
    if header.cpih == 0 && !rng.once_in(4) {
        return false;
    }
    let table = stream.segments.iter().find(|segment| stream.bytes[segment.start + 1] == 0x13);
    let table = table.expect("a page has a component table").clone();
    let factors = stream.fields.iter().filter(|field| field.width == 4 && table.contains(&(field.bit / 8)));
    let factors: Vec<Field> = factors.copied().collect();
    rng.pick(&factors).set(&mut stream.bytes, rng.pick(&[0, 1, 2, 2, 2, 3, 15]));
    true
}

/// Changes a field of any slice header or the end marker, often by a little.
fn set_slice_field(rng: &mut Rng, stream: &mut Stream) {
    let first = stream.segments.len() - stream.slices().len() - 1;
    let at = stream.segments[rng.between(first, stream.segments.len() - 1)].start;
    let is_slice = stream.bytes[at + 1] == 0x20;
    let field = Field { bit: 8 * (at + if is_slice { rng.pick(&[0, 2, 4, 4]) } else { 0 }), width: 16 };
    let old = field.get(&stream.bytes);
    match rng.below(3) {
        0 => field.set(&mut stream.bytes, old + 1),
        1 => field.set(&mut stream.bytes, old.wrapping_sub(1)),
        _ => to_a_bound(rng, stream, field),
    }
}

/// Makes a page so narrow or low that a filter has nothing to join, or so large that a buffer is too short for it.
fn resize(rng: &mut Rng, stream: &mut Stream) {
    let wf = 8 * (picture_header(stream).start + 12);
    let field = Field { bit: wf + rng.pick(&[0, 16, 16]), width: 16 };
    field.set(&mut stream.bytes, rng.pick(&[1, 1, 2, 3, 4, 2_049, 16_384]));
}

/// Puts a segment behind the picture header, before any other up to and with the first slice header.
fn insert(rng: &mut Rng, stream: &mut Stream, segment: &[u8]) {
    let first_slice = stream.slices()[0].start;
    let starts = stream.segments[3..].iter().map(|segment| segment.start).filter(|&at| at < first_slice);
    let starts: Vec<usize> = starts.collect();
    let at = rng.pick(&starts);
    stream.bytes.splice(at..at, segment.iter().copied());
}

/// Keeps components out of the wavelet, which may only be where there are four.
fn insert_undecomposed(rng: &mut Rng, stream: &mut Stream) -> bool {
    let header = a::header(&stream.bytes).expect("the stream is sound so far");
    let suits = header.nc == 4 || rng.once_in(8);
    if suits {
        let segment = rng.pick(&[[3, 0], [3, 1], [3, 2], [3, 3], [3, 4], [3, 255], [4, 1], [2, 1]]);
        insert(rng, stream, &[0xff, 0x17, 0, segment[0], segment[1]]);
    }
    suits
}

/// Segments of what is not built.
fn insert_unbuilt(rng: &mut Rng, stream: &mut Stream) {
    let marker = rng.pick(&[0x16, 0x18, 0x1a, 0x1b, 0x21]);
    insert(rng, stream, &[0xff, marker, 0, 4, 0, 0]);
}

/// Cuts a stream in a marker or the length behind it: those before the first slice, the slices' and the end's about as often.
fn cut_segment(rng: &mut Rng, stream: &mut Stream) {
    let head = stream.segments.len() - stream.slices().len() - 1;
    let end = stream.segments.len() - 1;
    let segments = [rng.below(head), rng.below(head), rng.between(head, end - 1), end];
    let at = stream.segments[rng.pick(&segments)].start;
    stream.bytes.truncate(at + rng.below(4));
}

#[cfg(test)]
mod tests {
    use super::*;
    use crate::setting::SMALL;
    use crate::sound_of_any_source;
    use independent::fields::Field::{self, *};

    /// What each way names, in its order; the rest of its streams break another rule first, or none.
    const NAMED: [&[Field]; 20] = [
        &[Counts],
        &[Data],
        &[Signs],
        &[Counts, Data, Signs],
        &[Significance],
        &[Packet, Lprc],
        &[Dr],
        &[M, Ones],
        &[D],
        &[Q, R],
        &[Wf, Hf, Hsl, Nc, Ng, Ss, Bw, Fq, Br, Fslc, Ppoc, Cpih, Nlx, Nly, Qpih, Fs, Rm],
        &[Wf, Hf, Hsl, Nc, Ng, Ss, Bw, Fq, Br, Fslc, Ppoc, Cpih, Nlx, Nly, Qpih, Fs, Rm],
        &[Fq, Fslc, Ppoc, Nlx, Nly, Qpih, Fs, Rm, Sx, Sy, Cpih],
        &[Fq, Fslc, Ppoc, Nlx, Nly, Qpih, Fs, Rm, Sx, Sy, Cpih],
        &[Sx, Sy],
        &[Slh, Lslh, Ysl, Eoc],
        &[Across, Down, Samples],
        &[Cwd, Lcwd, Sd],
        &[Nlt, Cts, Tpc, Wgr, Sli],
        &[Soc, Cap, Lcap, Pih, Lpih, Next, Lcdt, Lwgt, Lcom, Slh, Lslh, Eoc],
    ];

    /// How many of 200 streams of a way name each of these.
    fn named(way: Way, fields: &[Field]) -> Vec<usize> {
        let mut counts = vec![0; fields.len()];
        for seed in 0..200 {
            let stream = aim_by(&mut Rng::new(seed), way, |rng| sound_of_any_source(rng, SMALL));
            let refused = independent::read(&stream, SMALL.samples).err();
            let place = refused.and_then(|refusal| fields.iter().position(|&field| field == refusal.field));
            place.into_iter().for_each(|place| counts[place] += 1);
        }
        counts
    }

    #[test]
    fn ways_hit_what_they_aim_at() {
        for ((name, way), fields) in WAYS.into_iter().zip(NAMED) {
            let counts = named(way, fields);
            let least = if fields.len() > 10 { 1 } else { 10 };
            assert!(counts.iter().all(|&count| count >= least), "{name}: {counts:?}");
            assert!(counts.iter().sum::<usize>() >= 80, "{name}: {counts:?}");
        }
    }
}
