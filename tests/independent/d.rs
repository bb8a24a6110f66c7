//! Annex D: inverse quantization.

use super::b::NG;

/// Turns the indices of a line into coefficients, multiplied by 2^Fq as Table E.2 wants them.
/// `counts` and `indices` go by code group; padding behind the last coefficient is dropped.
pub fn dequantise(qpih: u8, t: u32, fq: u32, counts: &[u8], indices: &[[i32; NG]], cells: &mut [i64]) {
    match qpih {
        0 => line(counts, indices, cells, |index, _| deadzone(index, t) << fq),
        _ => line(counts, indices, cells, |index, m| uniform(index, m, t) << fq),
    }
}

fn line(counts: &[u8], indices: &[[i32; NG]], cells: &mut [i64], inverse: impl Fn(i64, u32) -> i64) {
    for (cells, (&m, group)) in cells.chunks_mut(NG).zip(counts.iter().zip(indices)) {
        for (cell, &index) in cells.iter_mut().zip(group) {
            *cell = inverse(i64::from(index), u32::from(m));
        }
    }
}

/// A coefficient from its signed index (D.2, Table D.1). The index is 0 where M is not above T.
fn deadzone(index: i64, t: u32) -> i64 {
    (index << t) + index.signum() * ((1 << t) >> 1)
}

/// A coefficient from its signed index (D.3, Table D.2). The index is 0 where M is not above T.
fn uniform(index: i64, m: u32, t: u32) -> i64 {
    let mut phi = index.abs() << t;
    let mut rho = 0;
    while phi > 0 {
        rho += phi;
        phi >>= m - t + 1;
    }
    index.signum() * rho
}

#[cfg(test)]
mod tests {
    use super::*;

    #[test]
    fn checked_figures() {
        let one = |qpih, t, m, index| {
            let mut cell = [0];
            dequantise(qpih, t, 0, &[m], &[[index, 0, 0, 0]], &mut cell);
            cell[0]
        };
        assert_eq!(one(0, 0, 5, -19), -19);
        assert_eq!(one(0, 3, 6, 5), 44);
        assert_eq!(one(0, 3, 3, 0), 0);
        assert_eq!(one(1, 1, 2, 1), 2);
        assert_eq!(one(1, 2, 3, 1), 5);
        assert_eq!(one(1, 3, 5, -3), -27);
        assert_eq!(one(1, 4, 6, 3), 54);
    }

    /// The NOTE in D.3 as a fraction.
    #[test]
    fn uniform_is_the_fraction_rounded_down() {
        for m in 1..=12u32 {
            for t in 0..m {
                for v in 0..1i64 << (m - t) {
                    assert_eq!(uniform(v, m, t), (v << (m + 1)) / ((1 << (m - t + 1)) - 1));
                }
            }
        }
    }

    /// Sizes by Table D.2, worked out elsewhere, as lines `M T v size`.
    #[test]
    fn uniform_has_the_stored_sizes() {
        for line in include_str!("../../crates/sizes/data/sizes.txt").lines() {
            let numbers: Vec<i64> = line.split(' ').map(|word| word.parse().unwrap()).collect();
            assert_eq!(uniform(numbers[2], numbers[0] as u32, numbers[1] as u32), numbers[3], "{}", line);
        }
    }
}
