//! Annex C: precinct headers, packets and entropy decoding.

use super::a::{self, Header};
use super::b::{ceil_div, Band, Layout, Line, NG, SS};
use super::bits::{Bits, Subpacket};
use super::bytes::Bytes;
use super::d;
use super::e::{self, Plane};
use super::fields::Field;
use super::rules::{require, Refusal, Row};
use std::ops::Range;

/// What is kept of a band while a slice is read; nothing for one that does not exist.
struct BandState {
    /// The bitplane counts of the latest line in each column of precincts, side by side.
    counts: Vec<u8>,
    /// The truncation position of the latest line in each column of precincts.
    line_t: Vec<u32>,
}

/// What slices hold.
pub struct Decoded {
    /// The components' coefficients, multiplied by 2^Fq (Table E.2).
    pub planes: Vec<Plane<i64>>,
    /// By band index: the largest truncation position over all precincts that hold a coefficient of the band.
    pub largest_t: Vec<u32>,
    /// Where the bytes of the precincts went.
    pub bytes: Bytes,
}

/// Reads all slices and the end marker.
pub fn codestream(s: &[u8], header: &Header, layout: &Layout) -> Result<Decoded, Refusal> {
    let mut reader = Reader::new(s, header, layout);
    reader.decoded.bytes.markers = each_slice(s, header, layout, |rows, at| reader.slice(rows, at))?;
    Ok(reader.decoded)
}

/// Goes through all slices and the end marker. `slice` takes a slice's rows of precincts and the offset behind its header,
/// and gives the offset behind the slice. Gives the bytes of all markers and segments, from the first of the stream on.
pub fn each_slice(
    s: &[u8],
    header: &Header,
    layout: &Layout,
    mut slice: impl FnMut(Range<usize>, usize) -> Result<usize, Refusal>,
) -> Result<usize, Refusal> {
    let mut at = header.first_slice;
    let mut markers = header.markers;
    for (t, rows) in layout.slices().enumerate() {
        let size = a::slice_header(s, at, t)?;
        markers += size;
        at = slice(rows, at + size)?;
    }
    Ok(markers + a::end_of_codestream(s, at)?)
}

/// L_prc of the precinct at an offset (Table C.1), as it is declared.
pub fn precinct_length(s: &[u8], at: usize) -> Result<usize, Refusal> {
    a::require_bytes(s, at, Field::Lprc, 3)?;
    Ok(big_endian(&s[at..at + 3]) as usize)
}

/// The bytes of a precinct header (Table C.1), padding behind the last D included.
fn precinct_header_length(layout: &Layout) -> usize {
    5 + ceil_div(layout.existing(), 4)
}

/// The bytes of a precinct behind its header, `lprc` of them.
pub fn precinct_body(s: &[u8], layout: &Layout, at: usize, lprc: usize) -> Result<Range<usize>, Refusal> {
    let header = precinct_header_length(layout);
    require(Row::Length, at, Field::Precinct, header + lprc, 0..=s.len() - at)?;
    Ok(at + header..at + header + lprc)
}

/// T[p,b] of the precinct at an offset by band index, 0 for a band that does not exist; also where Q or R is a forbidden one.
pub fn truncations(s: &[u8], header: &Header, layout: &Layout, at: usize) -> Vec<u32> {
    let mut weights = header.wgt.iter();
    let mut truncation =
        |_: &Band| weights.next().map_or(0, |weight| truncation(s[at + 3], s[at + 4], *weight, header.br));
    layout.bands.iter().map(|band| band.as_ref().map_or(0, &mut truncation)).collect()
}

/// The precinct that is being read: where it starts and ends, and its column.
struct Precinct {
    at: usize,
    end: usize,
    column: usize,
}

/// How a precinct codes one band.
#[derive(Clone, Copy, Default)]
struct Coding {
    /// D[p,b]: bit 0 is vertical prediction, bit 1 significance coding (Table C.2).
    d: u8,
    /// T[p,b].
    t: u32,
    /// D_r of the packets met so far that hold the band.
    raw: Option<bool>,
}

/// A packet header (Table C.4).
struct PacketHeader {
    size: usize,
    raw: bool,
    ldat: usize,
    lcnt: usize,
    lsgn: usize,
}

impl PacketHeader {
    /// The bytes of the sign subpacket. With Fs = 0 there is none: L_sgn is "present, but is ignored" (Table C.4), and
    /// any number may be left in it (document 02, C-11).
    fn sign_length(&self, fs: bool) -> usize {
        if fs {
            self.lsgn
        } else {
            0
        }
    }
}

/// A line of a packet within one column of precincts.
struct Span {
    band: usize,
    column: usize,
    coding: Coding,
    component: usize,
    /// The line's cells in the component, and its code groups in the band's line of bitplane counts.
    cells: Range<usize>,
    groups: Range<usize>,
}

pub struct Reader<'a> {
    s: &'a [u8],
    header: &'a Header,
    layout: &'a Layout,
    pub decoded: Decoded,
    /// By band index, as are the codings, which are fresh for each precinct.
    bands: Vec<BandState>,
    codings: Vec<Coding>,
    /// The signed quantization indices of a packet, by code group.
    indices: Vec<[i32; NG]>,
}

impl<'a> Reader<'a> {
    pub fn new(s: &'a [u8], header: &'a Header, layout: &'a Layout) -> Reader<'a> {
        let state = |band: &Option<Band>| BandState {
            counts: vec![0; band.map_or(0, |band| ceil_div(band.width, NG))],
            line_t: vec![0; layout.columns],
        };
        Reader {
            s,
            header,
            layout,
            decoded: Decoded {
                planes: e::planes(layout),
                largest_t: vec![0; layout.bands.len()],
                bytes: Bytes::default(),
            },
            bands: layout.bands.iter().map(state).collect(),
            codings: vec![Coding::default(); layout.bands.len()],
            indices: Vec::new(),
        }
    }

    /// Reads a slice behind its header and gives the offset behind it. What stands in another slice does not matter: no band
    /// is predicted from it (row 8).
    pub fn slice(&mut self, rows: Range<usize>, mut at: usize) -> Result<usize, Refusal> {
        for row in rows.clone() {
            let packets = self.layout.packets(row);
            for column in 0..self.layout.columns {
                at = self.precinct(at, row == rows.start, column, &packets)?;
            }
        }
        Ok(at)
    }

    /// Reads a precinct and gives the offset behind it.
    fn precinct(&mut self, at: usize, top: bool, column: usize, packets: &[Vec<Line>]) -> Result<usize, Refusal> {
        let body = self.precinct_header(at, top)?;
        let precinct = Precinct { at, end: body.end, column };
        let mut next = body.start;
        for lines in packets {
            next = self.packet(&precinct, next, lines)?;
        }
        require(Row::Length, at, Field::Rest, precinct.end - next, 0)?;
        Ok(next)
    }

    /// Reads a precinct header (C.2, Table C.1) and gives the bytes behind it.
    fn precinct_header(&mut self, at: usize, top: bool) -> Result<Range<usize>, Refusal> {
        let s = self.s;
        let lprc = precinct_length(s, at)?;
        require(Row::Value, at, Field::Lprc, lprc, 1..=(1 << 20) - 1)?;
        let body = precinct_body(s, self.layout, at, lprc)?;
        let (q, r) = (s[at + 3], s[at + 4]);
        require(Row::Value, at + 3, Field::Q, q.into(), 0..=31)?;
        require(Row::Value, at + 4, Field::R, r.into(), 0..=2 * self.layout.bands.len() - 1)?;
        let existing = self.codings.iter_mut().zip(&self.layout.bands).filter(|(_, band)| band.is_some());
        for (n, ((coding, _), weight)) in existing.zip(&self.header.wgt).enumerate() {
            let place = at + 5 + n / 4;
            let d = s[place] >> (6 - n % 4 * 2) & 3;
            if top {
                require(Row::Mode, place, Field::D, usize::from(d & 1), 0)?;
            }
            let t = truncation(q, r, *weight, self.header.br);
            *coding = Coding { d, t, raw: None };
        }
        self.decoded.bytes.precincts += precinct_header_length(self.layout);
        Ok(body)
    }

    /// Reads a packet (C.4, Table C.5) and gives the offset behind it.
    fn packet(&mut self, precinct: &Precinct, at: usize, lines: &[Line]) -> Result<usize, Refusal> {
        let head = self.packet_header(precinct, at, lines)?;
        let end = precinct.end;
        let spans: Vec<Span> = lines.iter().map(|line| self.span(line, precinct.column)).collect();
        let subpacket = |field, at, length| subpacket(self.s, field, at, length, end);
        let flags = subpacket(Field::Significance, at + head.size, significance_length(&spans, head.raw))?;
        let counts = subpacket(Field::Counts, flags.end(), head.lcnt)?;
        self.unpack_counts(&spans, head.raw, flags.bytes, counts)?;
        let data = subpacket(Field::Data, counts.end(), head.ldat)?;
        self.unpack_data(&spans, data)?;
        let signs = subpacket(Field::Signs, data.end(), head.sign_length(self.header.fs))?;
        if self.header.fs {
            self.unpack_signs(signs)?;
        }
        self.dequantise(&spans);
        Ok(signs.end())
    }

    /// Reads and judges a packet header (C.3).
    fn packet_header(&mut self, precinct: &Precinct, at: usize, lines: &[Line]) -> Result<PacketHeader, Refusal> {
        let long = is_long(self.header);
        let size = if long { 7 } else { 5 };
        require(Row::Length, precinct.at, Field::Packet, size, 0..=precinct.end - at)?;
        let head = packet_header(&self.s[at..at + size], long);
        if !self.header.rl {
            for line in lines {
                let raw = *self.codings[line.band].raw.get_or_insert(head.raw);
                require(Row::Mode, at, Field::Dr, head.raw.into(), usize::from(raw))?;
            }
        }
        self.decoded.bytes.packets += head.size;
        Ok(head)
    }

    fn span(&self, line: &Line, column: usize) -> Span {
        let band = self.layout.bands[line.band].as_ref().expect("packets hold existing bands");
        let x = self.layout.first_x(band, column);
        let width = self.layout.width(band, column);
        let start = self.decoded.planes[band.component].cell(band, x, line.y);
        // The first coefficient of a column stands at a multiple of 8 (B.5), so code groups do not straddle columns.
        let groups = x / NG..x / NG + ceil_div(width, NG);
        let cells = start..start + width;
        Span { band: line.band, column, coding: self.codings[line.band], component: band.component, cells, groups }
    }

    /// The bitplane count subpacket (C.5.3.5, Table C.8), with the significance flags (C.5.2, Table C.6).
    /// A line of counts replaces the line above it in the same band.
    fn unpack_counts(&mut self, spans: &[Span], raw: bool, flags: &[u8], counts: Subpacket) -> Result<(), Refusal> {
        let mut bits = Bits::new(counts);
        let mut first_flag = 0;
        let limit = 2 << self.header.br;
        for span in spans {
            let band = &mut self.bands[span.band];
            let t_top = std::mem::replace(&mut band.line_t[span.column], span.coding.t);
            let largest_t = &mut self.decoded.largest_t[span.band];
            *largest_t = span.coding.t.max(*largest_t);
            let line = &mut band.counts[span.groups.clone()];
            if raw {
                unpack_raw(&mut bits, self.header.br, line)?;
                continue;
            }
            let flags = Flags { bytes: flags, first: first_flag, on: span.coding.d & 2 != 0 };
            if span.coding.d & 1 == 0 {
                unpack_nopred(&mut bits, &flags, limit, span.coding.t, line)?;
            } else {
                unpack_vertical(&mut bits, &flags, limit, span.coding.t, t_top, self.header.rm, line)?;
            }
            first_flag += significance_groups(span);
        }
        self.decoded.bytes.significance += ceil_div(first_flag, 8);
        self.decoded.bytes.counts += bits.begun();
        self.decoded.bytes.filler += bits.untouched();
        Ok(())
    }

    /// The data subpacket (C.5.4, Table C.9). Signs, if they are here, stand before a group's bitplanes like one more.
    fn unpack_data(&mut self, spans: &[Span], data: Subpacket) -> Result<(), Refusal> {
        self.indices.clear();
        let mut bits = Bits::new(data);
        let signs = u32::from(!self.header.fs);
        bits.claim(NG * spans.iter().map(|span| self.nibbles(span, signs)).sum::<usize>())?;
        for span in spans {
            for &m in &self.bands[span.band].counts[span.groups.clone()] {
                let planes = planes(m, span);
                if planes == 0 {
                    self.indices.push([0; NG]);
                    continue;
                }
                let group = bits.group(planes + signs);
                self.indices.push(group.map(|member| signed(member, planes)));
            }
        }
        self.decoded.bytes.data += bits.begun();
        self.decoded.bytes.filler += bits.untouched();
        Ok(())
    }

    /// How many nibbles of data the code groups of a line have, `signs` of them in each that has any bitplanes.
    fn nibbles(&self, span: &Span, signs: u32) -> usize {
        let groups = self.bands[span.band].counts[span.groups.clone()].iter().map(|&m| planes(m, span));
        groups.filter(|&planes| planes > 0).map(|planes| (planes + signs) as usize).sum()
    }

    /// The sign subpacket (C.5.5, Table C.10): a bit for each index that is not 0.
    fn unpack_signs(&mut self, signs: Subpacket) -> Result<(), Refusal> {
        let mut bits = Bits::new(signs);
        let present = |group: &[i32; NG]| group.iter().filter(|&&index| index != 0).count();
        bits.claim(self.indices.iter().map(present).sum())?;
        for group in &mut self.indices {
            let mut signs = bits.take(present(group) as u32);
            for index in group.iter_mut().rev().filter(|index| **index != 0) {
                if signs & 1 == 1 {
                    *index = -*index;
                }
                signs >>= 1;
            }
        }
        self.decoded.bytes.signs += bits.begun();
        self.decoded.bytes.filler += bits.untouched();
        Ok(())
    }

    /// Turns a packet's indices into coefficients (Annex D), which take their places in the components.
    fn dequantise(&mut self, spans: &[Span]) {
        let mut rest: &[[i32; NG]] = &self.indices;
        for span in spans {
            let (indices, others) = rest.split_at(span.groups.len());
            rest = others;
            let counts = &self.bands[span.band].counts[span.groups.clone()];
            let cells = &mut self.decoded.planes[span.component].cells[span.cells.clone()];
            d::dequantise(self.header.qpih, span.coding.t, self.header.fq, counts, indices, cells);
        }
    }
}

fn big_endian(bytes: &[u8]) -> u64 {
    bytes.iter().fold(0, |n, &byte| n << 8 | u64::from(byte))
}

/// T[p,b] (C.6.2, Table C.12).
fn truncation(q: u8, r: u8, weight: a::Weight, br: u32) -> u32 {
    let refinement = u8::from(weight.priority < r);
    u32::from(q.saturating_sub(weight.gain + refinement)).min((1 << br) - 1)
}

/// Whether packet headers have 56 bits rather than 40 (Table C.4).
fn is_long(header: &Header) -> bool {
    header.lh || header.wf * header.nc >= 32_752
}

fn packet_header(bytes: &[u8], long: bool) -> PacketHeader {
    let bits = big_endian(bytes);
    let field = |low: u32, width: u32| (bits >> low & ((1 << width) - 1)) as usize;
    let (ldat_width, lcnt_width, lsgn_width) = if long { (20, 20, 15) } else { (15, 13, 11) };
    PacketHeader {
        size: bytes.len(),
        raw: field(lsgn_width + lcnt_width + ldat_width, 1) == 1,
        ldat: field(lsgn_width + lcnt_width, ldat_width),
        lcnt: field(lsgn_width, lcnt_width),
        lsgn: field(0, lsgn_width),
    }
}

/// A subpacket, if it lies in its precinct.
fn subpacket(s: &[u8], field: Field, at: usize, length: usize, end: usize) -> Result<Subpacket<'_>, Refusal> {
    require(Row::Length, at, field, length, 0..=end - at)?;
    Ok(Subpacket { bytes: &s[at..at + length], at, field })
}

/// How many significance flags a line has in a packet that is not raw (B.9, Table C.6).
fn significance_groups(span: &Span) -> usize {
    match span.coding.d & 2 {
        0 => 0,
        _ => ceil_div(span.groups.len(), SS),
    }
}

/// L_sig: the bytes of the significance subpacket (C.5.3.2).
fn significance_length(spans: &[Span], raw: bool) -> usize {
    if raw {
        return 0;
    }
    ceil_div(spans.iter().map(significance_groups).sum(), 8)
}

/// The significance flags of a line. A flag of 1 marks an insignificant group.
struct Flags<'a> {
    bytes: &'a [u8],
    first: usize,
    on: bool,
}

impl Flags<'_> {
    fn insignificant(&self, group: usize) -> bool {
        let bit = self.first + group;
        self.on && self.bytes[bit / 8] >> (7 - bit % 8) & 1 == 1
    }
}

/// Table C.14.
fn unpack_raw(bits: &mut Bits, br: u32, counts: &mut [u8]) -> Result<(), Refusal> {
    for m in counts {
        bits.claim(br as usize)?;
        *m = bits.take(br);
    }
    Ok(())
}

/// Table C.16. The predictor is T itself, so that θ is 0.
fn unpack_nopred(bits: &mut Bits, flags: &Flags, limit: u32, t: u32, counts: &mut [u8]) -> Result<(), Refusal> {
    for (j, groups) in counts.chunks_mut(SS).enumerate() {
        if flags.insignificant(j) {
            groups.fill(t as u8);
            continue;
        }
        for m in groups {
            *m = bits.count(t, t, limit)?;
        }
    }
    Ok(())
}

/// Table C.15. `counts` holds the line above and gets the new one.
fn unpack_vertical(
    bits: &mut Bits,
    flags: &Flags,
    limit: u32,
    t: u32,
    t_top: u32,
    rm: bool,
    counts: &mut [u8],
) -> Result<(), Refusal> {
    let least = t.max(t_top) as u8;
    for (j, groups) in counts.chunks_mut(SS).enumerate() {
        let insignificant = flags.insignificant(j);
        for m in groups {
            let m_top = (*m).max(least);
            *m = if !insignificant {
                bits.count(m_top.into(), t, limit)?
            } else if rm {
                t as u8
            } else {
                m_top
            };
        }
    }
    Ok(())
}

/// The bitplanes that the data carries of a code group with bitplane count `m`.
fn planes(m: u8, span: &Span) -> u32 {
    u32::from(m).saturating_sub(span.coding.t)
}

/// An index from its magnitude of `planes` bits with the sign bit above.
fn signed(member: u32, planes: u32) -> i32 {
    let (size, sign) = ((member & ((1 << planes) - 1)) as i32, (member >> planes) as i32);
    (size ^ -sign) + sign
}

#[cfg(test)]
mod tests {
    use super::*;
    use crate::a::Header;

    #[test]
    fn header_widths() {
        assert!(!is_long(&Header::plain(10_917, 8, 1, 1, &[(1, 1); 3])));
        assert!(is_long(&Header::plain(8_188, 8, 1, 1, &[(1, 1); 4])));
    }

    #[test]
    fn packet_header_fields() {
        let short = packet_header(&[0x80, 0x03, 0x00, 0x28, 0x07], false);
        assert!(short.raw);
        assert_eq!((short.ldat, short.lcnt, short.lsgn), (3, 5, 7));
        let long = packet_header(&[0x00, 0x00, 0x18, 0x00, 0x02, 0x80, 0x07], true);
        assert!(!long.raw);
        assert_eq!((long.ldat, long.lcnt, long.lsgn), (3, 5, 7));
    }

    /// Reads a precinct of four packets, each a header with this sign length and a raw count of 0, and of filler.
    fn read_precinct(lh: bool, fs: bool, lsgn: u64, filler: usize) -> Result<usize, Refusal> {
        let header = Header { lh, fs, ..Header::plain(2, 2, 1, 1, &[(1, 1)]) };
        let layout = Layout::new(&header);
        let (size, lsgn_width) = if lh { (7, 15) } else { (5, 11) };
        let fields: u64 = 1 << (8 * size - 1) | 1 << lsgn_width | lsgn;
        let packet = [&fields.to_be_bytes()[8 - size..], &[0]].concat();
        let body = [packet.repeat(4), vec![0; filler]].concat();
        let s = [&[0, 0, body.len() as u8, 0, 0, 0], &body[..]].concat();
        Reader::new(&s, &header, &layout).precinct(0, true, 0, &layout.packets(0))
    }

    #[test]
    fn without_sign_subpackets_their_length_is_ignored() {
        for (lh, packet, largest) in [(false, 6, 0x7ff), (true, 8, 0x7fff)] {
            for lsgn in [0, 1, packet as u64, largest] {
                assert_eq!(read_precinct(lh, false, lsgn, 0), Ok(6 + 4 * packet));
            }
            assert_eq!(read_precinct(lh, true, 0, 0), Ok(6 + 4 * packet));
            let (row, place, field, found) = (Row::Length, 6 + packet, Field::Signs, largest as usize);
            let past = Refusal { row, place, field, found, expected: (0..=3 * packet).into() };
            assert_eq!(read_precinct(lh, true, largest, 0), Err(past));
        }
    }

    #[test]
    fn an_ignored_sign_length_fills_no_precinct() {
        let unfilled = |found| {
            let (row, place, field) = (Row::Length, 0, Field::Rest);
            Err(Refusal { row, place, field, found, expected: 0.into() })
        };
        for lh in [false, true] {
            assert_eq!(read_precinct(lh, false, 3, 3), unfilled(3));
            assert_eq!(read_precinct(lh, false, 3, 12), unfilled(12));
        }
    }

    /// Where the bytes go of a precinct of four like packets, each of one code group: for each packet those of its subpackets, and filler.
    /// A packet is made of flags and counts, data, and signs; all bands have the mode `d`.
    fn packet_bytes(fs: bool, raw: bool, d: u8, flags: &[u8], [counts, data, signs]: [&[u8]; 3]) -> [usize; 5] {
        let wgt = vec![a::Weight { gain: 0, priority: 0 }; 4];
        let header = Header { fs, wgt, ..Header::plain(2, 2, 1, 1, &[(1, 1)]) };
        let layout = Layout::new(&header);
        let [lcnt, ldat, lsgn] = [counts, data, signs].map(|bytes| bytes.len() as u64);
        let fields = u64::from(raw) << 39 | ldat << 24 | lcnt << 11 | lsgn;
        let signs = if fs { signs } else { &[] };
        let packet = [&fields.to_be_bytes()[3..], flags, counts, data, signs].concat();
        let s = [&[0, 0, 4 * packet.len() as u8, 0, 0, d * 0x55], &packet.repeat(4)[..]].concat();
        let mut reader = Reader::new(&s, &header, &layout);
        assert_eq!(reader.precinct(0, true, 0, &layout.packets(0)), Ok(s.len()));
        let bytes = reader.decoded.bytes;
        assert_eq!((bytes.markers, bytes.precincts, bytes.packets, bytes.spoilt), (0, 6, 4 * 5, 0));
        [bytes.significance, bytes.counts, bytes.data, bytes.signs, bytes.filler].map(|total| total / 4)
    }

    #[test]
    fn contents_of_no_bytes() {
        assert_eq!(packet_bytes(true, true, 0, &[], [&[0], &[], &[]]), [0, 1, 0, 0, 0]);
        assert_eq!(packet_bytes(true, true, 0, &[], [&[0], &[9, 9], &[9; 3]]), [0, 1, 0, 0, 5]);
        assert_eq!(packet_bytes(true, false, 2, &[0x80], [&[], &[], &[]]), [1, 0, 0, 0, 0]);
        assert_eq!(packet_bytes(true, false, 2, &[0xff], [&[9; 3], &[9; 2], &[9]]), [1, 0, 0, 0, 6]);
    }

    /// Codes of one to nine bits, with so many bitplanes that data and signs end in a byte's middle or with it.
    #[test]
    fn contents_of_whole_bytes_and_others() {
        assert_eq!(packet_bytes(true, false, 0, &[], [&[0x80], &[0xf0], &[0]]), [0, 1, 1, 1, 0]);
        assert_eq!(packet_bytes(true, false, 0, &[], [&[0xfe], &[0; 4], &[]]), [0, 1, 4, 0, 0]);
        assert_eq!(packet_bytes(true, false, 0, &[], [&[0xfe, 9], &[0; 5], &[9]]), [0, 1, 4, 0, 3]);
        assert_eq!(packet_bytes(true, false, 0, &[], [&[0xff, 0], &[0; 4], &[]]), [0, 2, 4, 0, 0]);
        assert_eq!(packet_bytes(true, false, 2, &[0], [&[0xff, 0, 9], &[1; 6], &[1; 2]]), [1, 2, 4, 1, 4]);
    }

    /// Without sign subpackets a nibble of signs stands in the data, and a length left in their field declares nothing.
    #[test]
    fn signs_in_the_data_are_data() {
        for lsgn in [0, 1, 7] {
            let signs = &[9; 7][..lsgn];
            assert_eq!(packet_bytes(false, true, 0, &[], [&[0], &[], signs]), [0, 1, 0, 0, 0]);
            assert_eq!(packet_bytes(false, true, 0, &[], [&[0x10], &[0xff], signs]), [0, 1, 1, 0, 0]);
            assert_eq!(packet_bytes(false, true, 0, &[], [&[0x20], &[0xff; 3], signs]), [0, 1, 2, 0, 1]);
        }
    }

    #[test]
    fn truncation_is_clamped() {
        let weight = a::Weight { gain: 3, priority: 5 };
        assert_eq!(truncation(10, 5, weight, 4), 7);
        assert_eq!(truncation(10, 6, weight, 4), 6);
        assert_eq!(truncation(2, 0, weight, 4), 0);
        assert_eq!(truncation(31, 0, weight, 4), 15);
        assert_eq!(truncation(31, 0, weight, 5), 28);
    }

    /// The weights belong to the bands that exist; a spoilt header may have any Q and R.
    #[test]
    fn truncations_of_any_precinct_header() {
        let mut header = Header::plain(8, 8, 1, 1, &[(1, 1), (2, 2)]);
        let layout = Layout::new(&header);
        let exists: Vec<bool> = layout.bands.iter().map(Option::is_some).collect();
        assert_eq!(exists, [true, true, true, true, true, false, true, false]);
        let weight = |gain| a::Weight { gain, priority: 3 + gain };
        header.wgt = (0..6).map(weight).collect();
        let read = |q, r| truncations(&[0xff, 0xff, 0, 0, 1, q, r], &header, &layout, 2);
        assert_eq!(read(9, 0), [9, 8, 7, 6, 5, 0, 4, 0]);
        assert_eq!(read(9, 5), [8, 7, 7, 6, 5, 0, 4, 0]);
        assert_eq!(read(2, 255), [1, 0, 0, 0, 0, 0, 0, 0]);
        assert_eq!(read(17, 0), [15, 15, 15, 14, 13, 0, 12, 0]);
        assert_eq!(read(255, 255), [15, 15, 15, 15, 15, 0, 15, 0]);
    }
}
