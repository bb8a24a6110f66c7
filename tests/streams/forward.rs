//! The forward direction: colour (F.4), wavelet (E.9 to E.14) and quantizers (D.4 to D.6).

use independent::a::Header;
use independent::b::Layout;

/// A rectangle of values, row by row.
struct Plane {
    width: usize,
    height: usize,
    cells: Vec<i64>,
}

/// The coefficients of each existing band for a picture, given as one row of samples after the other for each component.
pub fn coefficients(header: &Header, layout: &Layout, picture: &[Vec<u16>]) -> Vec<Vec<i64>> {
    let mut components: Vec<Vec<i64>> = picture
        .iter()
        .zip(&header.cdt)
        .map(|(samples, entry)| samples.iter().map(|&v| level_shift(v, header.bw, entry.b)).collect())
        .collect();
    if header.cpih == 1 {
        forward_rct(&mut components);
    }
    let mut bands: Vec<_> = components
        .into_iter()
        .zip(&layout.shapes)
        .map(|(cells, shape)| {
            let component = Plane { width: shape.width, height: shape.height, cells };
            decompose(component, shape.nlx, shape.nly).into_iter()
        })
        .collect();
    let next = |component: usize| bands[component].next().expect("each existing band comes out of the transform");
    let planes: Vec<Plane> = layout.bands.iter().flatten().map(|band| band.component).map(next).collect();
    planes.into_iter().map(|plane| plane.cells.iter().map(|&c| rounded(c, header.fq)).collect()).collect()
}

/// Undoes Table G.2.
fn level_shift(sample: u16, bw: u32, b: u32) -> i64 {
    (i64::from(sample) << (bw - b)) - (1 << bw >> 1)
}

/// Table F.3.
fn forward_rct(components: &mut [Vec<i64>]) {
    if let [first, second, third, ..] = components {
        for ((c0, c1), c2) in first.iter_mut().zip(second).zip(third) {
            let (red, green, blue) = (*c0, *c1, *c2);
            *c0 = (red + 2 * green + blue) >> 2;
            *c1 = blue - green;
            *c2 = red - green;
        }
    }
}

/// Table E.8. The bands come in the order of filter types.
fn decompose(component: Plane, nlx: u32, nly: u32) -> Vec<Plane> {
    let mut low = component;
    let mut bands = Vec::new();
    for _ in 0..nly {
        let (l, h) = split_down(&low);
        let (ll, hl) = split_across(&l);
        let (lh, hh) = split_across(&h);
        bands.extend([hh, lh, hl]);
        low = ll;
    }
    for _ in nly..nlx {
        let (ll, hl) = split_across(&low);
        bands.push(hl);
        low = ll;
    }
    bands.push(low);
    bands.reverse();
    bands
}

/// Table E.10.
fn split_across(plane: &Plane) -> (Plane, Plane) {
    let mut low = Vec::with_capacity(plane.cells.len() / 2 + plane.height);
    let mut high = Vec::with_capacity(plane.cells.len() / 2);
    let mut line = Vec::new();
    for row in plane.cells.chunks(plane.width) {
        line.clear();
        line.extend_from_slice(row);
        filter(&mut line);
        low.extend(line.iter().step_by(2));
        high.extend(line.iter().skip(1).step_by(2));
    }
    let (width, height) = (plane.width, plane.height);
    (Plane { width: width - width / 2, height, cells: low }, Plane { width: width / 2, height, cells: high })
}

/// Table E.11, on the transposed rectangle.
fn split_down(plane: &Plane) -> (Plane, Plane) {
    let (low, high) = split_across(&transposed(plane));
    (transposed(&low), transposed(&high))
}

fn transposed(plane: &Plane) -> Plane {
    let column = |x| plane.cells.iter().skip(x).step_by(plane.width);
    let cells = (0..plane.width).flat_map(column).copied().collect();
    Plane { width: plane.height, height: plane.width, cells }
}

/// Table E.12 in place, with the mirroring of Table E.5.
fn filter(line: &mut [i64]) {
    let n = line.len();
    let mirrored = |i: usize| if i < n { i } else { 2 * (n - 1) - i };
    for i in (1..n).step_by(2) {
        line[i] -= (line[i - 1] + line[mirrored(i + 1)]) >> 1;
    }
    for i in (0..n).step_by(2) {
        let before = if i == 0 { 1 } else { i - 1 };
        line[i] += (line[before] + line[mirrored(i + 1)] + 2) >> 2;
    }
}

/// Table E.13: drops the fractional bits.
fn rounded(c: i64, fq: u32) -> i64 {
    c.signum() * ((c.abs() + (1 << fq >> 1)) >> fq)
}

/// The bitplane count of a code group (D.6, Table D.5).
pub fn bitplane_count(group: &[i64]) -> u32 {
    let largest = group.iter().map(|c| c.abs()).max().unwrap_or(0);
    64 - largest.leading_zeros()
}

/// The index of a coefficient whose group has `m` bitplanes (D.4 and D.5).
pub fn quantise(qpih: u8, c: i64, m: u32, t: u32) -> i32 {
    let d = i128::from(c.abs());
    let size = match qpih {
        _ if m <= t => 0,
        0 => d >> t,
        _ => ((d << (m - t + 1)) - d + (1 << m)) >> (m + 1),
    };
    c.signum() as i32 * size as i32
}

#[cfg(test)]
mod tests {
    use super::*;

    #[test]
    fn checked_figures() {
        assert_eq!([4, 5, 31].map(|c| quantise(1, c, 5, 3)), [0, 1, 3]);
        let mut line = [8, 12, 11, 10];
        filter(&mut line);
        assert_eq!(line, [10, 3, 12, -1]);
        let mut line = [-2, -2, 2];
        filter(&mut line);
        assert_eq!(line, [-3, -2, 1]);
    }
}
