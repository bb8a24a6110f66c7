//! Writes codestreams (Annexes A to C).

use crate::counted::Counted;
use crate::forward;
use crate::rng::Rng;
use crate::stream::{Bits, Content, Draft, Field, Stream, Subpacket};
use independent::a::Header;
use independent::b::{Layout, Line, NG, SS};

/// Where the coefficients of a stream come from.
pub enum Source {
    /// Any indices and bitplane counts that the syntax can carry.
    Syntax,
    /// The coefficients of each existing band, on the quantizer's scale.
    Coefficients(Vec<Vec<i64>>),
}

/// Which Q the precincts have: the larger, the coarser.
pub enum Steps {
    /// Any up to this one.
    UpTo(usize),
    /// One for each precinct, in order.
    Each(Vec<usize>),
}

/// How much filler stands behind what count, data and sign subpackets hold.
#[derive(Clone, Copy)]
pub struct Filler {
    /// The kinds of subpackets that have any.
    pub inside: &'static [Content],
    /// One subpacket in so many has some.
    pub once_in: usize,
    /// The most bytes of it.
    pub most: usize,
}

/// What a stream mostly has of it.
pub const SOME_FILLER: Filler =
    Filler { inside: &[Content::Counts, Content::Data, Content::Signs], once_in: 8, most: 3 };

/// How freely a stream is written.
pub struct Manner {
    pub steps: Steps,
    /// Whether modes, filler, padding and optional segments vary; else all is as plain as can be.
    pub varied: bool,
    /// The filler of a stream that varies.
    pub filler: Filler,
}

/// Writes a whole stream.
pub fn stream(rng: &mut Rng, header: &Header, layout: &Layout, manner: Manner, source: &Source) -> Stream {
    let mut draft = Draft::default();
    draft.begin_part();
    let lcod = write_header(&mut draft, rng, header, manner.varied);
    let mut writer = Writer {
        rng,
        header,
        layout,
        manner,
        source,
        draft,
        counts: layout.bands.iter().map(|band| vec![0; band.map_or(0, |band| band.width / NG + 1)]).collect(),
        line_t: vec![vec![0; layout.columns]; layout.bands.len()],
    };
    for (t, rows) in layout.slices().enumerate() {
        writer.draft.begin_part();
        writer.draft.segment(0xff20, &[(t as u64, 16)]);
        for row in rows.clone() {
            let packets = layout.packets(row);
            for column in 0..layout.columns {
                writer.precinct(row, row == rows.start, column, &packets);
            }
        }
    }
    let mut draft = writer.draft;
    draft.begin_part();
    draft.marker(0xff11);
    draft.finish(lcod)
}

/// Writes a stream that ends with its first slice header.
pub fn header(rng: &mut Rng, header: &Header) -> Stream {
    let mut draft = Draft::default();
    draft.begin_part();
    let lcod = write_header(&mut draft, rng, header, false);
    draft.segment(0xff20, &[(0, 16)]);
    draft.finish(lcod)
}

/// All segments before the first slice header, in an order that Annex A allows. Gives the field of Lcod.
fn write_header(draft: &mut Draft, rng: &mut Rng, header: &Header, varied: bool) -> Field {
    draft.marker(0xff10);
    let capabilities = if varied { rng.below(4) } else { 0 };
    let bits: Vec<_> = rng.bytes(capabilities).into_iter().map(|byte| (u64::from(byte), 8)).collect();
    draft.segment(0xff50, &bits);
    let lcod = draft.segment(0xff12, &picture_header(rng, header))[0];
    let components: Vec<_> = header
        .cdt
        .iter()
        .flat_map(|entry| [(u64::from(entry.b), 8), (entry.sx as u64, 4), (entry.sy as u64, 4)])
        .collect();
    let weights: Vec<_> =
        header.wgt.iter().flat_map(|weight| [(u64::from(weight.gain), 8), (u64::from(weight.priority), 8)]).collect();
    let mut registration = varied && rng.once_in(3);
    for (marker, fields) in [(0xff13, components), (0xff14, weights), (0, Vec::new())] {
        while varied && rng.once_in(4) {
            extension(draft, rng);
        }
        if registration && rng.once_in(2) {
            registration = false;
            let places: Vec<_> = (0..2 * header.nc).map(|_| (rng.next() & 0xffff, 16)).collect();
            draft.segment(0xff19, &places);
        }
        if marker != 0 {
            draft.segment(marker, &fields);
        }
    }
    lcod
}

/// Table A.7 behind the length field. Lcod is set when the stream is whole.
fn picture_header(rng: &mut Rng, header: &Header) -> Vec<(u64, u32)> {
    let (profile, level) = (rng.next() & 0xffff, rng.next() & 0xffff);
    vec![
        (0, 32),
        (profile, 16),
        (level, 16),
        (header.wf as u64, 16),
        (header.hf as u64, 16),
        (header.cw as u64, 16),
        (header.hsl as u64, 16),
        (header.nc as u64, 8),
        (NG as u64, 8),
        (SS as u64, 8),
        (u64::from(header.bw), 8),
        (u64::from(header.fq), 4),
        (u64::from(header.br), 4),
        (0, 1),
        (0, 3),
        (u64::from(header.cpih), 4),
        (u64::from(header.nlx), 4),
        (u64::from(header.nly), 4),
        (u64::from(header.lh), 1),
        (u64::from(header.rl), 1),
        (u64::from(header.qpih), 2),
        (u64::from(header.fs), 2),
        (u64::from(header.rm), 2),
    ]
}

/// An extension of an accepted type, captions among them, some of them empty.
fn extension(draft: &mut Draft, rng: &mut Rng) {
    let kind = rng.pick(&[0x0000, 0x0001, 0x8000, 0x8b01, 0x8b01, 0x8b02, 0xffff]);
    let length = rng.pick(&[0, 1, 5, 12]);
    let mut fields = vec![(kind, 16)];
    fields.extend(rng.bytes(length).into_iter().map(|byte| (u64::from(byte), 8)));
    draft.segment(0xff15, &fields);
}

/// How a precinct codes one band: D[p,b] and T[p,b].
#[derive(Clone, Copy, Default)]
struct Coding {
    d: u8,
    t: u32,
}

/// A subpacket as it is written: its bytes, how many hold something, and how many stand behind those.
#[derive(Default)]
struct Filled {
    bytes: Vec<u8>,
    held: usize,
    filler: usize,
}

/// The subpackets of a packet while they grow.
#[derive(Default)]
struct Body {
    flags: Bits,
    counts: Bits,
    data: Bits,
    signs: Bits,
}

struct Writer<'a> {
    rng: &'a mut Rng,
    header: &'a Header,
    layout: &'a Layout,
    manner: Manner,
    source: &'a Source,
    draft: Draft,
    /// By band index: bitplane counts and truncation position of the latest line in each column of precincts.
    counts: Vec<Vec<u32>>,
    line_t: Vec<Vec<u32>>,
}

impl Writer<'_> {
    fn precinct(&mut self, row: usize, top: bool, column: usize, packets: &[Vec<Line>]) {
        let q = match &self.manner.steps {
            Steps::UpTo(most) => self.rng.between(0, *most),
            Steps::Each(steps) => steps[row * self.layout.columns + column],
        };
        let r = if self.manner.varied { self.rng.below(2 * self.layout.bands.len()) } else { 0 };
        let start = self.draft.length();
        let length = self.draft.put(&[(0, 24), (q as u64, 8), (r as u64, 8)])[0];
        let codings = self.modes(top, q, r);
        let body = self.draft.length();
        self.draft.count(Counted { precincts: body - start, ..Counted::default() });
        let mut raw = vec![None; self.layout.filters.len()];
        for lines in packets {
            let beta = lines[0].band / self.header.nc;
            let fresh = self.manner.varied && self.rng.once_in(3);
            let raw = if self.header.rl { fresh } else { *raw[beta].get_or_insert(fresh) };
            self.packet(lines, column, raw, &codings, length);
        }
        let size = self.draft.length() - body;
        assert!(size < 1 << 20, "a precinct of {size} bytes");
        length.set(&mut self.draft.bits.bytes, size as u64);
    }

    /// Writes D of each existing band; the first row of a slice has no vertical prediction.
    fn modes(&mut self, top: bool, q: usize, r: usize) -> Vec<Coding> {
        let mut weights = self.header.wgt.iter();
        let mut codings = vec![Coding::default(); self.layout.bands.len()];
        for (coding, _) in codings.iter_mut().zip(&self.layout.bands).filter(|(_, band)| band.is_some()) {
            let weight = weights.next().expect("each existing band has a weight");
            let step = q as i64 - i64::from(weight.gain) - i64::from(usize::from(weight.priority) < r);
            let d = if self.manner.varied { self.rng.below(4) as u8 } else { 1 };
            coding.d = if top { d & 2 } else { d };
            coding.t = step.clamp(0, (1 << self.header.br) - 1) as u32;
            self.draft.field(u64::from(coding.d), 2);
        }
        self.draft.bits.pad(self.rng);
        codings
    }

    fn packet(&mut self, lines: &[Line], column: usize, raw: bool, codings: &[Coding], precinct: Field) {
        let mut body = Body::default();
        for line in lines {
            self.line(line, column, raw, codings[line.band], &mut body);
        }
        body.flags.pad(self.rng);
        let counts = self.filled(body.counts, Content::Counts);
        let data = self.filled(body.data, Content::Data);
        let signs = if self.header.fs { self.filled(body.signs, Content::Signs) } else { Filled::default() };
        let head = self.packet_header(raw, [&data, &counts, &signs].map(|subpacket| subpacket.bytes.len() as u64));
        self.draft.count(Counted { significance: body.flags.bytes.len(), ..Counted::default() });
        self.draft.bits.bytes.extend(body.flags.bytes);
        let subpackets =
            [(counts, head[2], Content::Counts), (data, head[1], Content::Data), (signs, head[3], Content::Signs)];
        for (Filled { bytes, held, filler }, length, content) in subpackets {
            let start = self.draft.length();
            self.draft.bits.bytes.extend(bytes);
            let bytes = start..self.draft.length();
            self.draft.note(Subpacket { bytes, content, held, filler, length, precinct, raw: head[0] });
        }
    }

    /// Writes a packet header, with the lengths of data, counts and signs, and gives its fields.
    fn packet_header(&mut self, raw: bool, [ldat, lcnt, lsgn]: [u64; 3]) -> Vec<Field> {
        let long = self.header.lh || self.header.wf * self.header.nc >= 32_752;
        let widths = if long { [20, 20, 15] } else { [15, 13, 11] };
        let start = self.draft.length();
        let head = self.draft.put(&[(u64::from(raw), 1), (ldat, widths[0]), (lcnt, widths[1]), (lsgn, widths[2])]);
        self.draft.count(Counted { packets: self.draft.length() - start, ..Counted::default() });
        head
    }

    /// A subpacket's bytes, some with filler behind.
    fn filled(&mut self, mut bits: Bits, content: Content) -> Filled {
        bits.pad(self.rng);
        let Filler { inside, once_in, most } = self.manner.filler;
        let (held, mut filler) = (bits.bytes.len(), 0);
        if self.manner.varied && inside.contains(&content) && self.rng.once_in(once_in) {
            filler = self.rng.between(1, most);
            bits.bytes.extend(self.rng.bytes(filler));
        }
        Filled { bytes: bits.bytes, held, filler }
    }

    /// Codes one line, a significance group at a time.
    fn line(&mut self, line: &Line, column: usize, raw: bool, coding: Coding, body: &mut Body) {
        let layout = self.layout;
        let band = layout.bands[line.band].as_ref().expect("packets hold existing bands");
        let (x, width) = (layout.first_x(band, column), layout.width(band, column));
        let t_top = std::mem::replace(&mut self.line_t[line.band][column], coding.t);
        let start = line.y * band.width + x;
        let cells: Option<&[i64]> = match self.source {
            Source::Syntax => None,
            Source::Coefficients(bands) => {
                let existing = layout.bands[..line.band].iter().flatten().count();
                Some(&bands[existing][start..start + width])
            }
        };
        let groups = (width + NG - 1) / NG;
        for first in (0..groups).step_by(SS) {
            let end = (first + SS).min(groups);
            let wanted: Vec<u32> = (first..end).map(|g| self.wanted_count(cells, g, coding.t)).collect();
            let above: Vec<u32> = (first..end)
                .map(|g| self.counts[line.band][x / NG + g].max(coding.t).max(t_top))
                .map(|m_top| if coding.d & 1 == 1 { m_top } else { coding.t })
                .collect();
            let counts = self.count_group(raw, coding, &wanted, &above, body);
            for (g, m) in (first..end).zip(counts) {
                self.counts[line.band][x / NG + g] = m;
                self.data_group(cells, g, m, coding.t, body);
            }
        }
    }

    /// The least bitplane count that a code group needs.
    fn wanted_count(&mut self, cells: Option<&[i64]>, g: usize, t: u32) -> u32 {
        if let Some(cells) = cells {
            return forward::bitplane_count(&cells[g * NG..cells.len().min((g + 1) * NG)]);
        }
        match self.rng.below(8) {
            0 => self.rng.below(32) as u32,
            1 | 2 => t,
            3 => 0,
            _ => (t + self.rng.below(5) as u32).min(31),
        }
    }

    /// Writes the bitplane counts of a significance group, each at least as large as wanted, and gives them.
    fn count_group(&mut self, raw: bool, coding: Coding, wanted: &[u32], above: &[u32], body: &mut Body) -> Vec<u32> {
        let br = self.header.br;
        if raw {
            let largest = (1 << br) - 1;
            let counts: Vec<u32> = wanted.iter().map(|&m| m.min(largest)).collect();
            for &m in &counts {
                body.counts.put(u64::from(m), br);
            }
            return counts;
        }
        if coding.d & 2 != 0 {
            let inferred = |m_top: u32| if self.header.rm { coding.t } else { m_top };
            let enough = wanted.iter().zip(above).all(|(&m, &m_top)| m <= inferred(m_top));
            let free = matches!(self.source, Source::Syntax);
            let insignificant = if free { self.rng.once_in(3) } else { enough && !self.rng.once_in(4) };
            body.flags.put(u64::from(insignificant), 1);
            if insignificant {
                return above.iter().map(|&m_top| inferred(m_top)).collect();
            }
        }
        let code = |(&m, &m_top): (&u32, &u32)| {
            let (m, ones) = codable(m.max(coding.t), m_top, coding.t, 2 << br);
            body.counts.put((1 << ones) - 1, ones);
            body.counts.put(0, 1);
            m
        };
        wanted.iter().zip(above).map(code).collect()
    }

    /// Writes the indices of a code group, padding behind the line's end included.
    fn data_group(&mut self, cells: Option<&[i64]>, g: usize, m: u32, t: u32, body: &mut Body) {
        if m <= t {
            return;
        }
        let mut indices = [0; NG];
        for (k, index) in indices.iter_mut().enumerate() {
            *index = match cells.map(|cells| cells.get(g * NG + k)) {
                Some(Some(&c)) => forward::quantise(self.header.qpih, c, m, t),
                Some(None) if !self.manner.varied => 0,
                _ => self.any_index(m - t),
            };
        }
        let sign = |index: i32| u64::from(index < 0);
        if self.header.fs {
            for &index in indices.iter().filter(|&&index| index != 0) {
                body.signs.put(sign(index), 1);
            }
        } else {
            // The sign of an index of 0 means nothing.
            for &index in &indices {
                let stray = index == 0 && self.manner.varied && self.rng.once_in(2);
                body.data.put(sign(index) | u64::from(stray), 1);
            }
        }
        for plane in (0..m - t).rev() {
            for &index in &indices {
                body.data.put(u64::from(index.unsigned_abs() >> plane & 1), 1);
            }
        }
    }

    fn any_index(&mut self, planes: u32) -> i32 {
        let size = (self.rng.next() & ((1 << planes) - 1)) as i32;
        match self.rng.below(4) {
            0 => 0,
            1 => -size,
            _ => size,
        }
    }
}

/// The least bitplane count from `m` up whose code is not too long, and the ones of that code (Table C.18).
fn codable(m: u32, m_top: u32, t: u32, limit: u32) -> (u32, u32) {
    let theta = m_top - t;
    (m..)
        .map(|m| {
            let ones = if m > m_top + theta {
                m - m_top + theta
            } else if m >= m_top {
                2 * (m - m_top)
            } else {
                2 * (m_top - m) - 1
            };
            (m, ones)
        })
        .find(|&(_, ones)| ones < limit)
        .expect("a count equal to its prediction has a code of one bit")
}
