//! Prints the layout that a header describes (Annex B), one item on a line.

use independent::a;
use independent::b::{Band, Layout};
use independent::text;
use std::io::{self, Write};

/// Prints the layout for a stream whose header is accepted, else the refusal.
pub fn print(out: &mut impl Write, stream: &[u8]) -> io::Result<()> {
    let header = match a::header(stream) {
        Ok(header) => header,
        Err(refusal) => return text::refusal(out, refusal),
    };
    let layout = Layout::new(&header);
    print_bands(out, &layout)?;
    print_slices(out, &layout)?;
    for row in 0..layout.rows {
        for column in 0..layout.columns {
            print_precinct(out, &layout, row, column)?;
        }
    }
    Ok(())
}

/// Components (B.1 and B.2) and bands (B.2 to B.4).
fn print_bands(out: &mut impl Write, layout: &Layout) -> io::Result<()> {
    for (i, shape) in layout.shapes.iter().enumerate() {
        let (width, height, nlx, nly) = (shape.width, shape.height, shape.nlx, shape.nly);
        writeln!(out, "component {i} width {width} height {height} levels across {nlx} down {nly}")?;
    }
    for (b, band) in layout.bands.iter().enumerate() {
        let (beta, i) = (b / layout.shapes.len(), b % layout.shapes.len());
        match band {
            Some(Band { dx, dy, width, height, .. }) => {
                writeln!(out, "filter {beta} component {i} exists dx {dx} dy {dy} width {width} height {height}")?;
            }
            None => writeln!(out, "filter {beta} component {i} does not exist")?,
        }
    }
    Ok(())
}

/// The grid of precincts (B.5) and its slices (B.11).
fn print_slices(out: &mut impl Write, layout: &Layout) -> io::Result<()> {
    writeln!(out, "columns {} rows {}", layout.columns, layout.rows)?;
    for (t, rows) in layout.slices().enumerate() {
        let (first, count) = (rows.start * layout.columns, rows.len() * layout.columns);
        writeln!(out, "slice {t} first {first} count {count}")?;
    }
    Ok(())
}

/// A precinct's share of each band (B.5), and its packets with their lines (B.7). A line ends with the place of its
/// first coefficient in a component whose bands are interleaved.
fn print_precinct(out: &mut impl Write, layout: &Layout, row: usize, column: usize) -> io::Result<()> {
    writeln!(out, "precinct {} row {row} column {column}", row * layout.columns + column)?;
    for band in layout.bands.iter().flatten() {
        let (beta, i, width) = (band.filter, band.component, layout.width(band, column));
        let (from, to) = ((row * band.lines).min(band.height), ((row + 1) * band.lines).min(band.height));
        writeln!(out, "band filter {beta} component {i} width {width} lines from {from} to {to}")?;
    }
    for (s, lines) in layout.packets(row).iter().enumerate() {
        writeln!(out, "packet {s} lines {}", lines.len())?;
        for line in lines {
            let band = layout.bands[line.band].as_ref().expect("packets hold existing bands");
            let (beta, i, y, width) = (band.filter, band.component, line.y, layout.width(band, column));
            let cell_column = interleaved(layout.first_x(band, column), band.dx, band.high_x);
            let cell_row = interleaved(y, band.dy, band.high_y);
            writeln!(out, "line filter {beta} component {i} y {y} width {width} column {cell_column} row {cell_row}")?;
        }
    }
    Ok(())
}

/// The place of coefficient `n` of a band of depth `d` along one direction.
fn interleaved(n: usize, d: u32, high: bool) -> usize {
    if high {
        (2 * n + 1) << (d - 1)
    } else {
        n << d
    }
}
