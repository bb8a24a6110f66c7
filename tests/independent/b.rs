//! Annex B: bands, precincts, packets and slices.

use super::a::Header;
use std::ops::Range;

/// Coefficients in a code group (N_g) and code groups in a significance group (S_s).
pub const NG: usize = 4;
pub const SS: usize = 8;

pub fn ceil_div(n: usize, d: usize) -> usize {
    (n + d - 1) / d
}

/// The logarithm of a sampling factor.
pub fn log2(factor: usize) -> u32 {
    factor.trailing_zeros()
}

/// A wavelet filter type β (B.3); `high_x` and `high_y` are τ_x and τ_y.
#[derive(Clone, Copy, Debug, PartialEq, Eq)]
pub struct Filter {
    pub dx: u32,
    pub dy: u32,
    pub high_x: bool,
    pub high_y: bool,
}

/// A component's size (B.1) and levels (B.2).
#[derive(Clone, Copy, Debug)]
pub struct Shape {
    pub width: usize,
    pub height: usize,
    pub nlx: u32,
    pub nly: u32,
}

/// An existing band. Its depths are the component's own: dy is at most that component's levels.
#[derive(Clone, Copy, Debug)]
pub struct Band {
    pub filter: usize,
    pub component: usize,
    pub dx: u32,
    pub dy: u32,
    pub high_x: bool,
    pub high_y: bool,
    pub width: usize,
    pub height: usize,
    /// The most lines that a precinct holds of this band.
    pub lines: usize,
    sx: usize,
    sy: usize,
}

/// A line of a band inside a packet: the band's index and the line's number within the whole band.
#[derive(Clone, Copy, Debug, PartialEq, Eq)]
pub struct Line {
    pub band: usize,
    pub y: usize,
}

/// Where everything lies that a header describes.
#[derive(Debug)]
pub struct Layout {
    pub shapes: Vec<Shape>,
    pub filters: Vec<Filter>,
    /// All bands by index b = N_c × β + i; None where a band does not exist (B.4).
    pub bands: Vec<Option<Band>>,
    /// N_p,x and N_p,y (B.5).
    pub columns: usize,
    pub rows: usize,
    wf: usize,
    cs: usize,
    nly: u32,
    nc: usize,
    hsl: usize,
}

/// The wavelet filter types in order of β (B.3, Tables B.1 to B.3); N_L,x is at least N_L,y.
fn filters(nlx: u32, nly: u32) -> Vec<Filter> {
    let filter = |dx, dy, high_x, high_y| Filter { dx, dy, high_x, high_y };
    let mut all = vec![filter(nlx, nly, false, false)];
    for dx in (nly + 1..=nlx).rev() {
        all.push(filter(dx, nly, true, false));
    }
    for d in (1..=nly).rev() {
        all.extend([filter(d, d, true, false), filter(d, d, false, true), filter(d, d, true, true)]);
    }
    all
}

/// The size of a band along one direction, of `n` samples at depth `d` (B.2).
fn band_side(n: usize, d: u32, high: bool) -> usize {
    if high {
        ceil_div(n, 1 << (d - 1)) / 2
    } else {
        ceil_div(n, 1 << d)
    }
}

impl Layout {
    pub fn new(header: &Header) -> Layout {
        let filters = filters(header.nlx, header.nly);
        let shapes: Vec<Shape> = header
            .cdt
            .iter()
            .map(|entry| Shape {
                width: ceil_div(header.wf, entry.sx),
                height: ceil_div(header.hf, entry.sy),
                nlx: header.nlx,
                nly: header.nly - log2(entry.sy),
            })
            .collect();
        let mut bands = Vec::with_capacity(filters.len() * shapes.len());
        for (beta, filter) in filters.iter().enumerate() {
            for (i, shape) in shapes.iter().enumerate() {
                bands.push(band(header, beta, filter, i, shape));
            }
        }
        let max_sx = header.cdt.iter().map(|entry| entry.sx).max().unwrap_or(1);
        let cs = match header.cw {
            0 => header.wf,
            cw => (8 * cw * max_sx) << header.nlx,
        };
        Layout {
            shapes,
            filters,
            bands,
            columns: ceil_div(header.wf, cs),
            rows: ceil_div(header.hf, 1 << header.nly),
            wf: header.wf,
            cs,
            nly: header.nly,
            nc: header.nc,
            hsl: header.hsl,
        }
    }

    /// The samples of all components together.
    pub fn samples(&self) -> usize {
        self.shapes.iter().map(|shape| shape.width * shape.height).sum()
    }

    /// How many bands exist.
    pub fn existing(&self) -> usize {
        self.bands.iter().flatten().count()
    }

    /// The rows of precincts of each slice, in order (B.11).
    pub fn slices(&self) -> impl Iterator<Item = Range<usize>> {
        let (rows, hsl) = (self.rows, self.hsl);
        (0..rows).step_by(hsl).map(move |first| first..rows.min(first + hsl))
    }

    /// The first coefficient of a band's lines in a column of precincts (B.5's membership rule).
    pub fn first_x(&self, band: &Band, column: usize) -> usize {
        column * self.cs / (band.sx << band.dx)
    }

    /// W_pb: how many coefficients of a band's line a column of precincts holds (B.5).
    pub fn width(&self, band: &Band, column: usize) -> usize {
        let wp = if column + 1 < self.columns { self.cs } else { (self.wf - 1) % self.cs + 1 };
        band_side(ceil_div(wp, band.sx), band.dx, band.high_x)
    }

    /// The packets of a precinct in `row`, in order, with their lines in order of band indices (Table B.4).
    pub fn packets(&self, row: usize) -> Vec<Vec<Line>> {
        let levels_end = self.filters.len() - 3 * self.nly as usize;
        let mut packets = vec![(0..levels_end).flat_map(|beta| self.lines(row, beta, 0)).collect()];
        for beta0 in (levels_end..self.filters.len()).step_by(3) {
            for lambda in 0..1 << (self.nly - self.filters[beta0].dy) {
                packets.extend((beta0..beta0 + 3).map(|beta| self.lines(row, beta, lambda).collect()));
            }
        }
        packets.retain(|lines: &Vec<Line>| !lines.is_empty());
        packets
    }

    /// The lines that filter type β has at line λ of a precinct in `row`, over the components.
    fn lines(&self, row: usize, beta: usize, lambda: usize) -> impl Iterator<Item = Line> + '_ {
        (beta * self.nc..(beta + 1) * self.nc).filter_map(move |b| {
            let band = self.bands[b].as_ref()?;
            let y = row * band.lines + lambda / band.sy;
            let present = lambda % band.sy == 0 && y < band.height;
            present.then_some(Line { band: b, y })
        })
    }
}

/// Filter type β in component i, where it exists (B.4). Existence looks at the depth before it is cut to the levels that
/// the component has.
fn band(header: &Header, beta: usize, filter: &Filter, i: usize, shape: &Shape) -> Option<Band> {
    let (sx, sy) = (header.cdt[i].sx, header.cdt[i].sy);
    let first_line = if filter.high_y { 1 << (header.nly - filter.dy) } else { 0 };
    if first_line % sy != 0 {
        return None;
    }
    let dy = filter.dy.min(shape.nly);
    Some(Band {
        filter: beta,
        component: i,
        dx: filter.dx,
        dy,
        high_x: filter.high_x,
        high_y: filter.high_y,
        width: band_side(shape.width, filter.dx, filter.high_x),
        height: band_side(shape.height, dy, filter.high_y),
        lines: 1 << (shape.nly - dy),
        sx,
        sy,
    })
}

#[cfg(test)]
mod tests {
    use super::*;
    use crate::a::Header;

    /// The packets of the first precinct as Tables B.5 to B.9 print them: filter types, and line numbers λ by component.
    fn packets(nly: u32, sampling: [(usize, usize); 3]) -> Vec<(Vec<usize>, Vec<usize>)> {
        let layout = Layout::new(&Header::plain(64, 64, 5, nly, &sampling));
        let packets = layout.packets(0).into_iter().map(|lines| {
            let band = |line: &Line| layout.bands[line.band].unwrap();
            let mut betas: Vec<usize> = lines.iter().map(|line| band(line).filter).collect();
            betas.dedup();
            let last = lines.last().map(|line| band(line).filter);
            let lambdas = lines.iter().filter(|line| Some(band(line).filter) == last).map(|line| {
                let band = band(line);
                band.sy * (line.y + if band.high_y { band.lines } else { 0 })
            });
            (betas, lambdas.collect())
        });
        packets.collect()
    }

    const FULL: [(usize, usize); 3] = [(1, 1); 3];
    const HALF: [(usize, usize); 3] = [(1, 1), (2, 1), (2, 1)];
    const QUARTER: [(usize, usize); 3] = [(1, 1), (2, 2), (2, 2)];

    #[test]
    fn tables_b1_to_b3() {
        let name = |f: &Filter| {
            let letter = |high| if high { 'H' } else { 'L' };
            format!("{}{}{}{}", letter(f.high_x), letter(f.high_y), f.dx, f.dy)
        };
        let names = |nly| filters(5, nly).iter().map(name).collect::<Vec<_>>().join(" ");
        assert_eq!(names(0), "LL50 HL50 HL40 HL30 HL20 HL10");
        assert_eq!(names(1), "LL51 HL51 HL41 HL31 HL21 HL11 LH11 HH11");
        assert_eq!(names(2), "LL52 HL52 HL42 HL32 HL22 LH22 HH22 HL11 LH11 HH11");
    }

    #[test]
    fn table_b5() {
        let table = vec![(vec![0, 1, 2, 3, 4, 5], vec![0, 0, 0])];
        assert_eq!(packets(0, FULL), table);
        assert_eq!(packets(0, HALF), table);
    }

    #[test]
    fn table_b6() {
        let line = |beta, lambda| (vec![beta], vec![lambda; 3]);
        let table = vec![(vec![0, 1, 2, 3, 4], vec![0; 3]), line(5, 0), line(6, 1), line(7, 1)];
        assert_eq!(packets(1, FULL), table);
        assert_eq!(packets(1, HALF), table);
    }

    #[test]
    fn table_b7() {
        let mut table = vec![(vec![0, 1, 2, 3], vec![0; 3])];
        let rest = [(4, 0), (5, 1), (6, 1), (7, 0), (8, 2), (9, 2), (7, 1), (8, 3), (9, 3)];
        table.extend(rest.iter().map(|&(beta, lambda)| (vec![beta], vec![lambda; 3])));
        assert_eq!(packets(2, FULL), table);
        assert_eq!(packets(2, HALF), table);
    }

    #[test]
    fn table_b8() {
        let luma = |beta, lambda| (vec![beta], vec![lambda]);
        let table = vec![(vec![0, 1, 2, 3, 4], vec![0; 3]), (vec![5], vec![0; 3]), luma(6, 1), luma(7, 1)];
        assert_eq!(packets(1, QUARTER), table);
    }

    #[test]
    fn table_b9() {
        let luma = |beta, lambda| (vec![beta], vec![lambda]);
        let all = |beta, lambda| (vec![beta], vec![lambda; 3]);
        let first = (vec![0, 1, 2, 3], vec![0; 3]);
        let (upper, lower) = ([all(4, 0), luma(5, 1), luma(6, 1)], [all(7, 0), all(8, 2), all(9, 2)]);
        let table = [&[first][..], &upper, &lower, &[luma(7, 1), luma(8, 3), luma(9, 3)]].concat();
        assert_eq!(packets(2, QUARTER), table);
    }

    #[test]
    fn component_sizes_are_rounded_up() {
        let layout = Layout::new(&Header::plain(5, 4, 1, 1, &QUARTER));
        assert_eq!((layout.shapes[1].width, layout.shapes[1].height), (3, 2));
    }

    /// Each coefficient of each band is in just one packet of one precinct.
    #[test]
    fn lines_cover_every_band() {
        for (wf, hf, cw) in [(23, 7, 0), (70, 9, 1), (139, 13, 2)] {
            for sampling in [FULL, HALF, QUARTER] {
                let mut header = Header::plain(wf, hf, 2, 2, &sampling);
                header.cw = cw;
                let layout = Layout::new(&header);
                let mut seen: Vec<Vec<u8>> =
                    layout.bands.iter().map(|b| b.map_or(Vec::new(), |b| vec![0; b.width * b.height])).collect();
                for row in 0..layout.rows {
                    for line in layout.packets(row).iter().flatten() {
                        let band = layout.bands[line.band].unwrap();
                        for column in 0..layout.columns {
                            let first = line.y * band.width + layout.first_x(&band, column);
                            let cells = first..first + layout.width(&band, column);
                            seen[line.band][cells].iter_mut().for_each(|n| *n += 1);
                        }
                    }
                }
                assert!(seen.iter().flatten().all(|&n| n == 1), "{} {} {:?}", wf, hf, sampling);
            }
        }
    }
}
