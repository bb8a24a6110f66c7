//! Annex E: the inverse wavelet transformation, in place.
//!
//! A component has one cell for each coefficient. The lines of its bands stand in the rows where the vertical filters
//! need them: line y of a band of depth d is row y × 2^d, or y × 2^d + 2^(d−1) where the band is a vertical high-pass.
//! Within a row the low part stands before the high part, at every horizontal level. So each horizontal step interleaves
//! the start of a row, and no vertical step moves anything.

use super::b::{ceil_div, Band, Layout};
use std::ops::Range;

/// A step of the transformations of Annexes E and F. It changes a value by a share of a sum of others:
/// sign × floor((sum + addend) / 2^shift).
#[derive(Clone, Copy)]
pub struct Step {
    pub sign: i64,
    pub addend: i64,
    pub shift: u32,
}

/// What the transformations of Annexes E and F go over.
pub trait Value: Copy + Default {
    fn changed<const N: usize>(self, others: [Self; N], step: Step) -> Self;
}

/// Coefficients, which become samples.
impl Value for i64 {
    fn changed<const N: usize>(self, others: [i64; N], step: Step) -> i64 {
        self + step.sign * ((others.iter().sum::<i64>() + step.addend) >> step.shift)
    }
}

/// Whether a coefficient is lost, which becomes whether a sample depends on a lost one: by the form of the steps, whatever
/// the change comes to.
impl Value for bool {
    fn changed<const N: usize>(self, others: [bool; N], _: Step) -> bool {
        others.iter().fold(self, |any, other| any | other)
    }
}

/// A component: a value for each coefficient at first, for each sample at last.
pub struct Plane<V> {
    pub width: usize,
    pub height: usize,
    pub cells: Vec<V>,
}

/// Components without any coefficients yet.
pub fn planes<V: Value>(layout: &Layout) -> Vec<Plane<V>> {
    let plane = |width, height| Plane { width, height, cells: vec![V::default(); width * height] };
    layout.shapes.iter().map(|shape| plane(shape.width, shape.height)).collect()
}

/// Gives one value to all coefficients in these rows of precincts, in all bands of all components.
pub fn fill<V: Value>(planes: &mut [Plane<V>], layout: &Layout, rows: Range<usize>, value: V) {
    for row in rows {
        for column in 0..layout.columns {
            fill_precinct(planes, layout, row, column, |_| value);
        }
    }
}

/// Gives all coefficients of a precinct a value that goes by the index of their band.
pub fn fill_precinct<V: Value>(
    planes: &mut [Plane<V>],
    layout: &Layout,
    row: usize,
    column: usize,
    value: impl Fn(usize) -> V,
) {
    for line in layout.packets(row).into_iter().flatten() {
        let band = layout.bands[line.band].as_ref().expect("packets hold existing bands");
        let plane = &mut planes[band.component];
        let start = plane.cell(band, layout.first_x(band, column), line.y);
        plane.cells[start..start + layout.width(band, column)].fill(value(line.band));
    }
}

impl<V: Value> Plane<V> {
    /// The cell of a band's coefficient at `x` and `y`; those to the right of it in the same line follow.
    pub fn cell(&self, band: &Band, x: usize, y: usize) -> usize {
        let row = if band.high_y { (2 * y + 1) << (band.dy - 1) } else { y << band.dy };
        let low_part = if band.high_x { ceil_div(self.width, 1 << band.dx) } else { 0 };
        row * self.width + low_part + x
    }

    /// Transforms the component (Table E.1).
    pub fn inverse(&mut self, nlx: u32, nly: u32) {
        let mut scratch = vec![V::default(); self.width];
        for y in (0..self.height).step_by(1 << nly) {
            for dx in (nly + 1..=nlx).rev() {
                self.join_across(y, dx, &mut scratch);
            }
        }
        for d in (1..=nly).rev() {
            self.join_level(d, &mut scratch);
        }
    }

    /// One level in both directions. Each row is filtered downwards as soon as the rows that it needs are there:
    /// an even one when the next has been joined across, an odd one after the even one below it.
    fn join_level(&mut self, d: u32, scratch: &mut [V]) {
        let step = 1 << (d - 1);
        let width = ceil_div(self.width, step);
        let rows = ceil_div(self.height, step);
        for k in 0..rows {
            self.join_across(k * step, d, scratch);
            if k % 2 == 1 {
                self.filter_down((k - 1) * step, step, width, even_sample);
            }
            if k % 2 == 1 && k > 2 {
                self.filter_down((k - 2) * step, step, width, odd_sample);
            }
        }
        if rows % 2 == 1 {
            self.filter_down((rows - 1) * step, step, width, even_sample);
            self.filter_down((rows - 2) * step, step, width, odd_sample);
        } else {
            self.filter_down((rows - 1) * step, step, width, odd_sample);
        }
    }

    /// `hor_transform` (E.4, Table E.3) on one row, from depth `dx` to `dx − 1`.
    fn join_across(&mut self, y: usize, dx: u32, scratch: &mut [V]) {
        let width = ceil_div(self.width, 1 << (dx - 1));
        let row = &mut self.cells[y * self.width..][..width];
        let (low, high) = row.split_at(ceil_div(width, 2));
        join_line(low, high, &mut scratch[..width]);
        row.copy_from_slice(&scratch[..width]);
    }

    /// A step of `ver_transform` (E.5, Table E.4) on one row, with the rows `step` above and below it.
    /// By mirroring (E.6), a border row has its only neighbour on both sides.
    fn filter_down(&mut self, y: usize, step: usize, width: usize, filter: impl Fn(V, V, V) -> V) {
        let (before, rest) = self.cells.split_at_mut(y * self.width);
        let (row, behind) = rest.split_at_mut(self.width);
        let above = y.checked_sub(step).map(|y| &before[y * self.width..][..width]);
        let below = behind.get((step - 1) * self.width..).and_then(|rows| rows.get(..width));
        if let (Some(above), Some(below)) = (above.or(below), below.or(above)) {
            for (cell, (&above, &below)) in row[..width].iter_mut().zip(above.iter().zip(below)) {
                *cell = filter(*cell, above, below);
            }
        }
    }
}

/// Joins the low and high parts of a line (E.6 and E.7, Tables E.5 and E.6). By mirroring, a border repeats the high
/// coefficient that is next to it, and a last odd sample has the even sample before it also behind it.
fn join_line<V: Value>(low: &[V], high: &[V], out: &mut [V]) {
    let mut even = even_sample(low[0], high[0], high[0]);
    for ((pair, highs), &low) in out.chunks_exact_mut(2).zip(high.windows(2)).zip(&low[1..]) {
        let next = even_sample(low, highs[0], highs[1]);
        pair[0] = even;
        pair[1] = odd_sample(highs[0], even, next);
        even = next;
    }
    let end = high.len() - 1;
    let last = high[end];
    let next = if low.len() > high.len() { even_sample(low[end + 1], last, last) } else { even };
    out[2 * end] = even;
    out[2 * end + 1] = odd_sample(last, even, next);
    if let Some(out) = out.get_mut(2 * end + 2) {
        *out = next;
    }
}

fn even_sample<V: Value>(low: V, before: V, behind: V) -> V {
    low.changed([before, behind], Step { sign: -1, addend: 2, shift: 2 })
}

fn odd_sample<V: Value>(high: V, before: V, behind: V) -> V {
    high.changed([before, behind], Step { sign: 1, addend: 0, shift: 1 })
}

#[cfg(test)]
mod tests {
    use super::*;
    use crate::distance::Number;

    /// Joins low and high coefficients across, and also down in a component of one column over another.
    fn both_ways<V: Value + PartialEq>(low: &[V], high: &[V]) -> Vec<V> {
        let mut line = vec![V::default(); low.len() + high.len()];
        join_line(low, high, &mut line);
        // A high part of 0 across leaves the low part as it is.
        let rows = (0..line.len()).flat_map(|y| [if y % 2 == 0 { low[y / 2] } else { high[y / 2] }, V::default()]);
        let mut plane = Plane { width: 2, height: line.len(), cells: rows.collect() };
        plane.inverse(1, 1);
        assert!(plane.cells.chunks(2).map(|row| row[0]).eq(line.iter().copied()));
        line
    }

    #[test]
    fn checked_figures() {
        assert_eq!(both_ways(&[10, 12], &[3, -1]), [8, 12, 11, 10]);
        assert_eq!(both_ways(&[-3, 1], &[-2]), [-2, -2, 2]);
    }

    /// The samples of a line that depend on one lost coefficient, given by its place between the others.
    fn reach(length: usize, place: usize) -> Vec<usize> {
        let part = |first: usize| (first..length).step_by(2).map(|n| n == place).collect::<Vec<bool>>();
        let marks = both_ways(&part(0), &part(1));
        (0..length).filter(|&n| marks[n]).collect()
    }

    #[test]
    fn lost_coefficients_reach_their_neighbours() {
        assert_eq!(reach(10, 4), [3, 4, 5]);
        assert_eq!(reach(10, 5), [3, 4, 5, 6, 7]);
    }

    #[test]
    fn lost_coefficients_reach_up_to_the_borders() {
        assert_eq!(reach(8, 0), [0, 1]);
        assert_eq!(reach(8, 1), [0, 1, 2, 3]);
        assert_eq!(reach(8, 6), [5, 6, 7]);
        assert_eq!(reach(8, 7), [5, 6, 7]);
        assert_eq!(reach(9, 7), [5, 6, 7, 8]);
        assert_eq!(reach(9, 8), [7, 8]);
        assert_eq!(reach(2, 0), [0, 1]);
        assert_eq!(reach(2, 1), [0, 1]);
        assert_eq!(reach(3, 2), [1, 2]);
    }

    /// Even places take a quarter of both highs, odd ones half of both evens, each sum rounded up once.
    #[test]
    fn numbers_of_a_line() {
        let line = |low: &[u64], high: &[u64]| {
            let [low, high] = [low, high].map(|part| part.iter().copied().map(Number).collect::<Vec<_>>());
            both_ways(&low, &high).iter().map(|number| number.0).collect::<Vec<u64>>()
        };
        assert_eq!(line(&[10, 12], &[3, 1]), [12, 16, 13, 14]);
        assert_eq!(line(&[3, 1], &[2]), [4, 5, 2]);
        assert_eq!(line(&[0, 0], &[1, 1]), [1, 2, 1, 2]);
        assert_eq!(line(&[0, 0, 0], &[0, 5, 0]), [0, 1, 2, 7, 2, 2]);
        assert_eq!(line(&[0, 0, 0], &[0, 5]), [0, 1, 2, 8, 3]);
        assert_eq!(line(&[0, 9, 0], &[0, 0]), [0, 5, 9, 5, 0]);
        assert_eq!(line(&[0], &[7]), [4, 11]);
        assert_eq!(line(&[7], &[0]), [7, 7]);
        assert_eq!(line(&[0, 0, 0], &[0, 0]), [0; 5]);
    }
}
