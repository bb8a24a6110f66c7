//! Annex G: linear output scaling and clipping.

/// The samples of a component of precision `b` (G.3, Table G.2).
pub fn output(cells: &[i64], bw: u32, b: u32) -> Vec<u16> {
    let shift = bw - b;
    let offset = (1i64 << bw >> 1) + (1 << shift >> 1);
    let max = (1 << b) - 1;
    cells.iter().map(move |v| ((v + offset) >> shift).max(0).min(max) as u16).collect()
}
