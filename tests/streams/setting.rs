//! Headers: random ones that the reader must accept, and those of pages for measuring.

use crate::rng::Rng;
use independent::a::{CdtEntry, Header, Weight};
use independent::b::Layout;

/// How large a page may get.
#[derive(Clone, Copy)]
pub struct Limits {
    pub samples: usize,
    pub bytes: usize,
    pub side: usize,
}

/// What the page program takes.
pub const SMALL: Limits = Limits { samples: 2_048, bytes: 16_384, side: 160 };

/// Pages of many precincts, some with long packet headers because of their width.
pub const LARGE: Limits = Limits { samples: 400_000, bytes: usize::MAX, side: 16_384 };

/// A header for a page within the limits. All values of its fields that are built occur.
pub fn random(rng: &mut Rng, limits: Limits) -> Header {
    loop {
        let mut header = fields(rng, limits);
        if accepted(&header) && Layout::new(&header).samples() <= limits.samples {
            header.wgt = weights(rng, &header);
            return header;
        }
    }
}

/// A header for a picture of 8-bit components to measure with, in slices of 16 precincts. The reversible colour transform
/// is used where the sampling allows it.
pub fn measured(wf: usize, hf: usize, lossless: bool, sampling: &[(usize, usize)]) -> Header {
    let mut header = plain(wf, hf, (5, 2), sampling);
    header.hsl = 16;
    header.cpih = u8::from(sampling.len() == 3 && sampling.iter().all(|&(sx, _)| sx == 1));
    if !lossless {
        header.bw = 20;
        header.fq = 8;
    }
    header
}

/// Headers whose layouts differ in kind: sampling, levels, columns, and heights that cut the last precinct.
pub fn chosen(n: usize) -> Header {
    const FULL: &[(usize, usize)] = &[(1, 1); 4];
    const HALF: &[(usize, usize)] = &[(1, 1), (2, 1), (2, 1), (1, 1)];
    const QUARTER: &[(usize, usize)] = &[(1, 1), (2, 2), (2, 2), (1, 1)];
    const MIXED: &[(usize, usize)] = &[(1, 1), (2, 1), (2, 2), (1, 1)];
    let (wf, hf, cw, hsl, levels, sampling) = [
        (37, 9, 0, 2, (5, 0), &FULL[..3]),
        (37, 9, 0, 2, (5, 1), &FULL[..3]),
        (37, 9, 0, 2, (5, 2), &FULL[..3]),
        (70, 6, 0, 1, (5, 2), &HALF[..3]),
        (70, 5, 0, 1, (5, 1), &QUARTER[..3]),
        (70, 13, 0, 2, (5, 2), &QUARTER[..3]),
        (39, 11, 1, 1, (1, 1), &FULL[..1]),
        (77, 7, 1, 3, (2, 2), &FULL[..2]),
        (150, 10, 1, 2, (3, 2), HALF),
        (203, 14, 2, 9, (2, 2), QUARTER),
        (101, 15, 1, 4, (1, 1), MIXED),
        (2, 3, 0, 1, (1, 1), FULL),
    ][n % 12];
    let mut header = plain(wf, hf, levels, sampling);
    header.cw = cw;
    header.hsl = hsl;
    header
}

/// How many headers `bounded` has.
pub const BOUNDED: usize = 4;

/// Headers of small pages, some of them as small as their levels allow.
pub fn bounded(n: usize) -> Header {
    match n {
        0 => Header { cw: 1, ..plain(72, 5, (2, 2), &[(1, 1), (2, 2), (2, 1), (1, 1)]) },
        1 => Header { bw: 20, fq: 8, cpih: 1, ..plain(5, 3, (3, 2), &[(1, 1); 3]) },
        2 => Header { cw: 2, ..plain(68, 2, (1, 0), &[(1, 1), (2, 1)]) },
        _ => {
            let mut header = plain(17, 2, (5, 1), &[(1, 1)]);
            header.bw = 13;
            header.br = 5;
            header.cdt[0].b = 13;
            header
        }
    }
}

/// A lossless header of 8-bit components without columns, all bands alike, with long packet headers.
fn plain(wf: usize, hf: usize, (nlx, nly): (u32, u32), sampling: &[(usize, usize)]) -> Header {
    let mut header = Header { lh: true, ..Header::plain(wf, hf, nlx, nly, sampling) };
    header.wgt = vec![Weight { gain: 0, priority: 0 }; Layout::new(&header).existing()];
    header
}

fn fields(rng: &mut Rng, limits: Limits) -> Header {
    let nc = rng.between(1, 4);
    let lossless = rng.once_in(2);
    let bw = if lossless { rng.between(8, 16) as u32 } else { 20 };
    let sampling = sampling(rng, nc);
    let cdt: Vec<CdtEntry> = sampling
        .iter()
        .map(|&(sx, sy)| CdtEntry { b: if lossless { bw } else { rng.between(8, 16) as u32 }, sx, sy })
        .collect();
    let full = sampling.iter().all(|&(sx, _)| sx == 1);
    let nlx = rng.between(1, 5) as u32;
    let cw = if rng.once_in(2) { 0 } else { rng.between(1, 3) };
    let wf = if cw == 0 || rng.once_in(4) { side(rng, limits.side) } else { columns(rng, cw, least_width(&cdt, nlx)) };
    let hf = side(rng, limits.side.min(limits.samples * 2 / wf + 1));
    Header {
        wf,
        hf,
        cw,
        hsl: if rng.once_in(8) { 65_535 } else { rng.between(1, 5) },
        nc,
        bw,
        fq: if lossless { 0 } else { 8 },
        br: if lossless && bw > 12 { 5 } else { 4 },
        cpih: u8::from(nc >= 3 && full && rng.once_in(2)),
        nlx,
        nly: rng.between(0, 2.min(nlx as usize)) as u32,
        lh: rng.once_in(3) || needs_long_headers(wf * nc),
        rl: rng.once_in(2),
        qpih: u8::from(rng.once_in(2)),
        fs: rng.once_in(2),
        rm: rng.once_in(2),
        cdt,
        wgt: Vec::new(),
        caption: false,
        first_slice: 0,
        markers: 0,
    }
}

/// Whether a length could outgrow a short packet header where none has been replaced by a long one (Table C.4).
fn needs_long_headers(line: usize) -> bool {
    (2_000..32_752).contains(&line)
}

/// Sampling factors: the usual ones, and any others that Table A.15 allows.
fn sampling(rng: &mut Rng, nc: usize) -> Vec<(usize, usize)> {
    let any = [(1, 1), (2, 1), (2, 2)];
    let common = rng.pick(&any);
    let mixed = rng.once_in(4);
    let chroma = |c| c == 1 || c == 2;
    (0..nc)
        .map(|c| {
            if !chroma(c) {
                (1, 1)
            } else if mixed {
                rng.pick(&any)
            } else {
                common
            }
        })
        .collect()
}

/// A width or height, often a small one.
fn side(rng: &mut Rng, most: usize) -> usize {
    let most = most.max(1);
    match rng.below(4) {
        0 => rng.between(1, 8.min(most)),
        1 => rng.between(1, 40.min(most)),
        _ => rng.between(1, most),
    }
}

/// A width of several columns.
fn columns(rng: &mut Rng, cw: usize, least: usize) -> usize {
    8 * cw * least * rng.between(1, 3) + rng.between(least, 8 * cw * least - 1)
}

/// The least width of a column (Table A.7).
fn least_width(cdt: &[CdtEntry], nlx: u32) -> usize {
    cdt.iter().map(|entry| entry.sx).max().unwrap_or(1) << nlx
}

/// The rules of Table A.7 and document 01 that join several fields.
fn accepted(header: &Header) -> bool {
    let two = |n: usize, levels: u32| levels == 0 || (n - 1) >> (levels - 1) > 0;
    let levels_fit = header.cdt.iter().all(|entry| {
        let nly = (header.nly + 1).checked_sub(entry.sy as u32);
        let (width, height) = ((header.wf + entry.sx - 1) / entry.sx, (header.hf + entry.sy - 1) / entry.sy);
        nly.map_or(false, |nly| two(width, header.nlx) && two(height, nly))
    });
    let least = least_width(&header.cdt, header.nlx);
    levels_fit && (header.cw == 0 || header.wf % (8 * header.cw * least) >= least)
}

fn weights(rng: &mut Rng, header: &Header) -> Vec<Weight> {
    let most = rng.pick(&[0, 3, 15]);
    let weight = |_| Weight { gain: rng.between(0, most) as u8, priority: rng.pick(&[0, 1, 2, 5, 20, 80, 255]) };
    (0..Layout::new(header).existing()).map(weight).collect()
}
