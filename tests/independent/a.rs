//! Annex A: markers and marker segments.
//!
//! Fields are judged in the order in which they stand. Two fields that share a byte share a place.

use super::b;
use super::fields::Field;
use super::rules::{require, Expected, Refusal, Row};

// Table A.2.
const SOC: usize = 0xff10;
const EOC: usize = 0xff11;
const PIH: usize = 0xff12;
const CDT: usize = 0xff13;
const WGT: usize = 0xff14;
const COM: usize = 0xff15;
const NLT: usize = 0xff16;
const CWD: usize = 0xff17;
const CTS: usize = 0xff18;
const CRG: usize = 0xff19;
const TPC: usize = 0xff1a;
const WGR: usize = 0xff1b;
const SLH: usize = 0xff20;
const SLI: usize = 0xff21;
const CAP: usize = 0xff50;

/// The vendor extension that holds a bench caption.
const CAPTION: usize = 0x8b01;

/// The bytes of a marker, of a picture header (Table A.7), and of a slice header with its marker (Table A.27).
const MARKER: usize = 2;
const PICTURE_HEADER: usize = 26;
const SLICE_HEADER: usize = 6;

/// The largest width and height built, in grid points.
const MAX_SIDE: usize = 16_384;

/// An entry of the component table (Table A.15).
#[derive(Clone, Copy, Debug)]
pub struct CdtEntry {
    pub b: u32,
    pub sx: usize,
    pub sy: usize,
}

/// An entry of the weights table (Table A.25).
#[derive(Clone, Copy, Debug)]
pub struct Weight {
    pub gain: u8,
    pub priority: u8,
}

/// All that the segments before the first slice header say.
#[derive(Debug)]
pub struct Header {
    pub wf: usize,
    pub hf: usize,
    pub cw: usize,
    pub hsl: usize,
    pub nc: usize,
    pub bw: u32,
    pub fq: u32,
    pub br: u32,
    pub cpih: u8,
    pub nlx: u32,
    pub nly: u32,
    pub lh: bool,
    pub rl: bool,
    pub qpih: u8,
    pub fs: bool,
    pub rm: bool,
    /// One entry for each component; empty until the component table is read.
    pub cdt: Vec<CdtEntry>,
    /// One entry for each existing band, in the order of band indices; empty until the weights table is read.
    pub wgt: Vec<Weight>,
    /// Whether a bench caption is there, empty or not.
    pub caption: bool,
    /// The offset of the first slice marker.
    pub first_slice: usize,
    /// The bytes of the markers and segments met so far.
    pub markers: usize,
}

impl Header {
    /// A lossless header of 8-bit components as if it had been read, without columns and weights.
    pub fn plain(wf: usize, hf: usize, nlx: u32, nly: u32, sampling: &[(usize, usize)]) -> Header {
        Header {
            wf,
            hf,
            cw: 0,
            hsl: 1,
            nc: sampling.len(),
            bw: 8,
            fq: 0,
            br: 4,
            cpih: 0,
            nlx,
            nly,
            lh: false,
            rl: false,
            qpih: 0,
            fs: false,
            rm: false,
            cdt: sampling.iter().map(|&(sx, sy)| CdtEntry { b: 8, sx, sy }).collect(),
            wgt: Vec::new(),
            caption: false,
            first_slice: 0,
            markers: 0,
        }
    }
}

fn u16_at(s: &[u8], at: usize) -> usize {
    usize::from(u16::from_be_bytes([s[at], s[at + 1]]))
}

fn u32_at(s: &[u8], at: usize) -> u32 {
    u32::from_be_bytes([s[at], s[at + 1], s[at + 2], s[at + 3]])
}

/// Row 1: the stream has at least the bytes needed from `at` on.
pub fn require_bytes(s: &[u8], at: usize, field: Field, needed: usize) -> Result<(), Refusal> {
    require(Row::Cut, at, field, s.len() - at, needed..)
}

fn marker_at(s: &[u8], at: usize, field: Field) -> Result<usize, Refusal> {
    require_bytes(s, at, field, MARKER)?;
    Ok(u16_at(s, at))
}

fn expect_marker(s: &[u8], at: usize, field: Field, marker: usize) -> Result<(), Refusal> {
    require(Row::Marker, at, field, marker_at(s, at, field)?, marker)
}

/// The length of the segment whose length field stands at `at`: it lies wholly in the stream.
fn segment_length(s: &[u8], at: usize, field: Field) -> Result<usize, Refusal> {
    require_bytes(s, at, field, 2)?;
    let length = u16_at(s, at);
    require_bytes(s, at, field, length)?;
    Ok(length)
}

/// As `segment_length`, for a segment that has only some right lengths.
fn expect_length(s: &[u8], at: usize, field: Field, right: impl Into<Expected>) -> Result<usize, Refusal> {
    let length = segment_length(s, at, field)?;
    require(Row::Value, at, field, length, right)?;
    Ok(length)
}

/// Reads and judges a stream up to and with the first slice marker.
pub fn header(s: &[u8]) -> Result<Header, Refusal> {
    let (mut header, mut at) = opening(s)?;
    let mut met = Vec::new();
    loop {
        let marker = marker_at(s, at, Field::Next)?;
        let known = if marker > WGR { SLH..=SLI } else { CDT..=WGR };
        require(Row::Marker, at, Field::Next, marker, known)?;
        met.push(marker);
        judge_markers(&met, at, header.nc)?;
        if marker == SLH {
            header.first_slice = at;
            return Ok(header);
        }
        let length = segment(s, at + MARKER, marker, &mut header)?;
        header.markers += MARKER + length;
        at += MARKER + length;
    }
}

/// Judges the last of the markers met behind the picture header, which stands at `at`: segments are counted, and some may
/// not stand here at all.
fn judge_markers(met: &[usize], at: usize, nc: usize) -> Result<(), Refusal> {
    let counted = |row, field, kind, right: usize| {
        let count = met.iter().filter(|&&marker| marker == kind).count();
        require(row, at, field, count, right)
    };
    match met[met.len() - 1] {
        CDT => counted(Row::Marker, Field::Cdt, CDT, 1),
        WGT => {
            counted(Row::NotBuilt, Field::Cdt, CDT, 1)?;
            counted(Row::Marker, Field::Wgt, WGT, 1)
        }
        NLT => counted(Row::NotBuilt, Field::Nlt, NLT, 0),
        CWD => counted(Row::Marker, Field::Cwd, CWD, usize::from(nc > 3)),
        CTS => counted(Row::NotBuilt, Field::Cts, CTS, 0),
        CRG => counted(Row::Marker, Field::Crg, CRG, 1),
        TPC => counted(Row::NotBuilt, Field::Tpc, TPC, 0),
        WGR => counted(Row::NotBuilt, Field::Wgr, WGR, 0),
        SLH | SLI => {
            counted(Row::Marker, Field::Cdt, CDT, 1)?;
            counted(Row::Marker, Field::Wgt, WGT, 1)?;
            counted(Row::NotBuilt, Field::Sli, SLI, 0)
        }
        _ => Ok(()),
    }
}

/// Reads a segment that may stand where it does, from its length field on, and gives its length.
fn segment(s: &[u8], at: usize, marker: usize, header: &mut Header) -> Result<usize, Refusal> {
    match marker {
        CDT => component_table(s, at, header),
        WGT => weights_table(s, at, header),
        COM => extension(s, at, header),
        CRG => expect_length(s, at, Field::Lcrg, 2 + 4 * header.nc),
        CWD => undecomposed_components(s, at, header),
        _ => unreachable!("a segment that is not built may not stand anywhere"),
    }
}

/// The start, the capabilities and the picture header, which stand first in this order; and the offset behind them.
fn opening(s: &[u8]) -> Result<(Header, usize), Refusal> {
    expect_marker(s, 0, Field::Soc, SOC)?;
    expect_marker(s, 2, Field::Cap, CAP)?;
    let capabilities = expect_length(s, 4, Field::Lcap, 2..=0xffff)?;
    let at = 4 + capabilities;
    expect_marker(s, at, Field::Pih, PIH)?;
    let mut header = picture_header(s, at + 2)?;
    header.markers = MARKER + (MARKER + capabilities) + (MARKER + PICTURE_HEADER);
    Ok((header, at + 2 + PICTURE_HEADER))
}

/// The picture header (A.4.4, Table A.7), from its length field on.
fn picture_header(s: &[u8], at: usize) -> Result<Header, Refusal> {
    expect_length(s, at, Field::Lpih, PICTURE_HEADER)?;
    declared_length(s, at + 2)?;
    let wf = side(s, at + 10, Field::Wf)?;
    let hf = side(s, at + 12, Field::Hf)?;
    let cw = u16_at(s, at + 14);
    let hsl = u16_at(s, at + 16);
    require(Row::Value, at + 16, Field::Hsl, hsl, 1..=0xffff)?;
    let nc = usize::from(s[at + 18]);
    require(Row::Value, at + 18, Field::Nc, nc, 1..=8)?;
    require(Row::NotBuilt, at + 18, Field::Nc, nc, 1..=4)?;
    require(Row::Value, at + 19, Field::Ng, s[at + 19].into(), b::NG)?;
    require(Row::Value, at + 20, Field::Ss, s[at + 20].into(), b::SS)?;
    let (bw, fq, br) = precisions(s, at + 21)?;
    let cpih = colour(s[at + 23], nc, at + 23)?;
    let (nlx, nly) = levels(s[at + 24], at + 24)?;
    let Flags { lh, rl, qpih, fs, rm } = flags(s[at + 25], at + 25)?;
    let tables_missing = Header::plain(wf, hf, nlx, nly, &[]);
    Ok(Header { cw, hsl, nc, bw, fq, br, cpih, lh, rl, qpih, fs, rm, ..tables_missing })
}

/// Lcod.
fn declared_length(s: &[u8], at: usize) -> Result<(), Refusal> {
    let lcod = u32_at(s, at) as usize;
    require(Row::NotBuilt, at, Field::Lcod, lcod, 1..)?;
    require(Row::Length, at, Field::Lcod, lcod, s.len())
}

/// Wf or Hf.
fn side(s: &[u8], at: usize, field: Field) -> Result<usize, Refusal> {
    let side = u16_at(s, at);
    require(Row::Value, at, field, side, 1..=0xffff)?;
    require(Row::NotBuilt, at, field, side, 1..=MAX_SIDE)?;
    Ok(side)
}

/// Bw, Fq and Br (Table A.8). Bw 18 needs the non-linear output that is not built.
fn precisions(s: &[u8], at: usize) -> Result<(u32, u32, u32), Refusal> {
    let bw = usize::from(s[at]);
    let row = if bw == 18 { Row::NotBuilt } else { Row::Value };
    require(row, at, Field::Bw, bw, if bw < 18 { 8..=16 } else { 20..=20 })?;
    let (right_fq, right_br) = match bw {
        20 => (8, 4),
        13..=16 => (0, 5),
        _ => (0, 4),
    };
    let (fq, br) = (usize::from(s[at + 1] >> 4), usize::from(s[at + 1] & 15));
    require(Row::Value, at + 1, Field::Fq, fq, right_fq)?;
    require(Row::Value, at + 1, Field::Br, br, right_br)?;
    Ok((bw as u32, fq as u32, br as u32))
}

/// Fslc, Ppoc and Cpih (Tables A.14, A.13 and A.9, and F.2). Cpih 3 is for four components or more, and not built.
fn colour(byte: u8, nc: usize, at: usize) -> Result<u8, Refusal> {
    require(Row::Value, at, Field::Fslc, usize::from(byte >> 7), 0)?;
    require(Row::Value, at, Field::Ppoc, usize::from(byte >> 4 & 7), 0)?;
    let cpih = byte & 15;
    let row = if cpih == 3 && nc > 3 { Row::NotBuilt } else { Row::Value };
    require(row, at, Field::Cpih, cpih.into(), 0..=usize::from(nc >= 3))?;
    Ok(cpih)
}

/// N_L,x and N_L,y. Table A.7 has no more than 6 levels down, which is more than are built across.
fn levels(byte: u8, at: usize) -> Result<(u32, u32), Refusal> {
    let (nlx, nly) = (usize::from(byte >> 4), usize::from(byte & 15));
    require(Row::Value, at, Field::Nlx, nlx, 1..=8)?;
    require(Row::NotBuilt, at, Field::Nlx, nlx, 1..=5)?;
    require(Row::Value, at, Field::Nly, nly, 0..=nlx)?;
    require(Row::NotBuilt, at, Field::Nly, nly, 0..=2)?;
    Ok((nlx as u32, nly as u32))
}

/// The last byte of the picture header.
struct Flags {
    lh: bool,
    rl: bool,
    qpih: u8,
    fs: bool,
    rm: bool,
}

/// Lh, Rl, Qpih, Fs and Rm.
fn flags(byte: u8, at: usize) -> Result<Flags, Refusal> {
    let (qpih, fs, rm) = (byte >> 4 & 3, byte >> 2 & 3, byte & 3);
    require(Row::Value, at, Field::Qpih, qpih.into(), 0..=1)?;
    require(Row::Value, at, Field::Fs, fs.into(), 0..=1)?;
    require(Row::Value, at, Field::Rm, rm.into(), 0..=1)?;
    Ok(Flags { lh: byte & 0x80 != 0, rl: byte & 0x40 != 0, qpih, fs: fs == 1, rm: rm == 1 })
}

/// The component table (A.4.5, Table A.15), from its length field on.
fn component_table(s: &[u8], at: usize, header: &mut Header) -> Result<usize, Refusal> {
    let length = expect_length(s, at, Field::Lcdt, 2 * header.nc + 2)?;
    for c in 0..header.nc {
        let place = at + 2 + 2 * c;
        let b = usize::from(s[place]);
        require(Row::Value, place, Field::B, b, 8..=16)?;
        if header.fq == 0 {
            require(Row::Value, place, Field::B, b, header.bw as usize)?;
        }
        let (sx, sy) = (usize::from(s[place + 1] >> 4), usize::from(s[place + 1] & 15));
        sampling_across(header, sx, place + 1)?;
        sampling_down(header, sx, sy, place + 1)?;
        header.cdt.push(CdtEntry { b: b as u32, sx, sy });
    }
    Ok(length)
}

/// Judges sx of the next component. The last one settles the rule for Cw in Table A.7.
fn sampling_across(header: &Header, sx: usize, place: usize) -> Result<(), Refusal> {
    let c = header.cdt.len();
    require(Row::Value, place, Field::Sx, sx, 1..=if c == 1 || c == 2 { 2 } else { 1 })?;
    if header.cpih == 1 {
        require(Row::Value, place, Field::Sx, sx, 1)?;
    }
    if c + 1 == header.nc && header.cw != 0 {
        let max_sx = header.cdt.iter().map(|entry| entry.sx).fold(sx, usize::max);
        let least = max_sx << header.nlx;
        require(Row::Value, place, Field::Cw, header.wf % (8 * header.cw * least), least..)?;
    }
    two_samples(place, Field::Across, b::ceil_div(header.wf, sx), header.nlx)
}

/// Judges sy of the next component. It is 1 where sx is, so that a colour transform asks no more of it.
fn sampling_down(header: &Header, sx: usize, sy: usize, place: usize) -> Result<(), Refusal> {
    require(Row::Value, place, Field::Sy, sy, 1..=sx)?;
    if header.nly == 0 {
        require(Row::Value, place, Field::Sy, sy, 1)?;
    }
    two_samples(place, Field::Down, b::ceil_div(header.hf, sy), header.nly - b::log2(sy))
}

/// Each of `levels` filters on `n` samples joins at least two.
fn two_samples(place: usize, field: Field, n: usize, levels: u32) -> Result<(), Refusal> {
    (0..levels).try_for_each(|d| require(Row::NotBuilt, place, field, b::ceil_div(n, 1 << d), 2..))
}

/// The weights table (A.4.12, Table A.25), from its length field on.
fn weights_table(s: &[u8], at: usize, header: &mut Header) -> Result<usize, Refusal> {
    let bands = b::Layout::new(header).existing();
    let length = expect_length(s, at, Field::Lwgt, 2 + 2 * bands)?;
    for place in (at + 2..at + length).step_by(2) {
        let (gain, priority) = (s[place], s[place + 1]);
        require(Row::Value, place, Field::G, gain.into(), 0..=15)?;
        header.wgt.push(Weight { gain, priority });
    }
    Ok(length)
}

/// An extension (A.4.11, Tables A.23 and A.24), from its length field on. A bench caption is skipped as any vendor
/// extension; the header only tells that one is there, so that nobody thinks a scan never had one (C-13).
fn extension(s: &[u8], at: usize, header: &mut Header) -> Result<usize, Refusal> {
    let length = expect_length(s, at, Field::Lcom, 4..=0xffff)?;
    let kind = u16_at(s, at + 2);
    require(Row::Value, at + 2, Field::Tcom, kind, if kind < 0x8000 { 0..=1 } else { 0x8000..=0xffff })?;
    header.caption |= kind == CAPTION;
    Ok(length)
}

/// Components kept out of the wavelet (A.4.7, Table A.18), from the length field on. Those that are not sampled at 1 may
/// not be; none are built.
fn undecomposed_components(s: &[u8], at: usize, header: &Header) -> Result<usize, Refusal> {
    let length = expect_length(s, at, Field::Lcwd, 3)?;
    let (sd, place) = (usize::from(s[at + 2]), at + 2);
    require(Row::Value, place, Field::Sd, sd, 1..=header.nc - 1)?;
    if !header.cdt.is_empty() {
        let full = header.cdt.iter().rev().take_while(|entry| entry.sx == 1 && entry.sy == 1).count();
        require(Row::Value, place, Field::Sd, sd, 1..=full)?;
    }
    require(Row::NotBuilt, place, Field::Sd, sd, 0)?;
    Ok(length)
}

/// Reads the header of slice `t` (A.4.14, Table A.27) and gives its bytes.
pub fn slice_header(s: &[u8], at: usize, t: usize) -> Result<usize, Refusal> {
    let marker = marker_at(s, at, Field::Slh)?;
    require(Row::Marker, at, Field::Slh, marker, SLH..=SLI)?;
    require(Row::NotBuilt, at, Field::Slh, marker, SLH)?;
    expect_length(s, at + 2, Field::Lslh, 4)?;
    require(Row::Value, at + 4, Field::Ysl, u16_at(s, at + 4), t)?;
    Ok(SLICE_HEADER)
}

/// Reads the end marker (A.4.2), behind which nothing may stand, and gives its bytes.
pub fn end_of_codestream(s: &[u8], at: usize) -> Result<usize, Refusal> {
    expect_marker(s, at, Field::Eoc, EOC)?;
    let behind = at + MARKER;
    require(Row::Marker, behind, Field::Tail, s.len() - behind, 0)?;
    Ok(MARKER)
}

#[cfg(test)]
mod tests {
    use super::*;

    #[test]
    fn filters_join_at_least_two_samples() {
        let joined = |n, levels| two_samples(7, Field::Down, n, levels).map_err(|refusal| refusal.found);
        assert_eq!([(1, 0), (2, 1), (3, 2), (17, 5)].map(|(n, levels)| joined(n, levels)), [Ok(()); 4]);
        assert_eq!([(1, 1), (2, 2), (16, 5)].map(|(n, levels)| joined(n, levels)), [Err(1); 3]);
    }

    /// A sound page of three components with the colour transform: its picture header stands at 8, its component table at 36, its weights table at 62,
    /// and its first slice at 78.
    const STORED: &[u8] = include_bytes!("../../crates/vectors/data/C-19/001-sound.jxs");

    /// Why the page is refused when at an offset so many bytes give way to these, with Lcod mended.
    fn refused(at: usize, gone: usize, bytes: &[u8]) -> (Row, usize, Field, usize, Expected) {
        let mut s = STORED.to_vec();
        s.splice(at..at + gone, bytes.iter().copied());
        let lcod = s.len() as u32;
        s[12..16].copy_from_slice(&lcod.to_be_bytes());
        let Refusal { row, place, field, found, expected } = header(&s).unwrap_err();
        (row, place, field, found, expected)
    }

    #[test]
    fn unknown_markers() {
        for at in [36, 62, 78] {
            let told = |marker: u16| refused(at, 0, &marker.to_be_bytes());
            for marker in [0x0000, 0xfe20, 0xff10, 0xff11, 0xff12] {
                let below = (Row::Marker, at, Field::Next, marker.into(), (0xff13..=0xff1b).into());
                assert_eq!(told(marker), below);
            }
            for marker in [0xff1c, 0xff1f, 0xff22, 0xff50, 0xffff] {
                let above = (Row::Marker, at, Field::Next, marker.into(), (0xff20..=0xff21).into());
                assert_eq!(told(marker), above);
            }
        }
    }

    #[test]
    fn tables_are_counted() {
        let counted = |row, at, field, found: usize, right: usize| (row, at, field, found, right.into());
        let (components, weights) = (&STORED[36..46], &STORED[62..78]);
        assert_eq!(refused(78, 0, components), counted(Row::Marker, 78, Field::Cdt, 2, 1));
        assert_eq!(refused(78, 0, weights), counted(Row::Marker, 78, Field::Wgt, 2, 1));
        assert_eq!(refused(36, 0, weights), counted(Row::NotBuilt, 36, Field::Cdt, 0, 1));
        assert_eq!(refused(36, 42, &[]), counted(Row::Marker, 36, Field::Cdt, 0, 1));
        assert_eq!(refused(62, 16, &[]), counted(Row::Marker, 62, Field::Wgt, 0, 1));
    }

    /// Two rules for one factor: what a component may be sampled at, and what the colour transform wants.
    #[test]
    fn sampling_with_a_colour_transform() {
        let sampled = |place: usize, byte: u8| {
            let (row, at, field, found, expected) = refused(place, 1, &[byte]);
            assert_eq!((row, at), (Row::Value, place));
            (field, found, expected)
        };
        assert_eq!(sampled(43, 0x31), (Field::Sx, 3, (1..=2).into()));
        assert_eq!(sampled(43, 0x21), (Field::Sx, 2, 1.into()));
        assert_eq!(sampled(41, 0x21), (Field::Sx, 2, 1.into()));
        assert_eq!(sampled(41, 0x12), (Field::Sy, 2, 1.into()));
    }
}
