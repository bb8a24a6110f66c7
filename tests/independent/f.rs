//! Annex F: the inverse reversible multiple component transformation.

use super::e::{Plane, Step, Value};

/// Turns components 0 to 2 into red, green and blue (F.3).
pub fn inverse_rct<V: Value>(planes: &mut [Plane<V>]) {
    if let [first, second, third, ..] = planes {
        let cells = first.cells.iter_mut().zip(&mut second.cells).zip(&mut third.cells);
        for ((c0, c1), c2) in cells {
            (*c0, *c1, *c2) = colours(*c0, *c1, *c2);
        }
    }
}

/// Red, green and blue of one place (Table F.2).
pub fn colours<V: Value>(c0: V, c1: V, c2: V) -> (V, V, V) {
    let whole = Step { sign: 1, addend: 0, shift: 0 };
    let green = c0.changed([c1, c2], Step { sign: -1, addend: 0, shift: 2 });
    (green.changed([c2], whole), green, green.changed([c1], whole))
}

#[cfg(test)]
mod tests {
    use super::*;

    /// Which of four components of one sample are marked when only one of them is lost before the transformation.
    fn reach(lost: usize) -> Vec<bool> {
        let plane = |i| Plane { width: 1, height: 1, cells: vec![i == lost] };
        let mut planes: Vec<Plane<bool>> = (0..4).map(plane).collect();
        inverse_rct(&mut planes);
        planes.iter().map(|plane| plane.cells[0]).collect()
    }

    #[test]
    fn each_colour_depends_on_all_three_components() {
        for lost in 0..3 {
            assert_eq!(reach(lost), [true, true, true, false]);
        }
        assert_eq!(reach(3), [false, false, false, true]);
    }
}
