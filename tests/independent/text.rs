//! What the page program prints (document 01), and what it prints of marks, distances and bytes (document 02, C-15, C-22 and C-16).

use super::bytes::Bytes;
use super::{Distances, Marks, Page, Refusal};
use std::io::{self, Write};

pub fn refusal(out: &mut impl Write, refusal: Refusal) -> io::Result<()> {
    writeln!(out, "answer {} at {}", refusal.row as u8, refusal.place)
}

/// A page that was read from `length` bytes.
pub fn page(out: &mut impl Write, page: &Page, length: usize) -> io::Result<()> {
    success(out, length)?;
    for (i, component) in page.components.iter().enumerate() {
        let (width, height, distance) = (component.width, component.height, component.distance);
        writeln!(out, "component {i} width {width} height {height} distance {distance}")?;
        numbers(out, &component.samples, width)?;
    }
    Ok(())
}

/// Numbers with single spaces between them, a line for each row.
fn numbers(out: &mut impl Write, numbers: &[u16], width: usize) -> io::Result<()> {
    for row in numbers.chunks(width) {
        write!(out, "{}", row[0])?;
        for number in &row[1..] {
            write!(out, " {number}")?;
        }
        writeln!(out)?;
    }
    Ok(())
}

pub fn success(out: &mut impl Write, length: usize) -> io::Result<()> {
    writeln!(out, "answer 0 at {length}")
}

/// The marks of a page, digits without spaces.
pub fn marks(out: &mut impl Write, page: &Page, marks: &Marks) -> io::Result<()> {
    for (i, (component, marks)) in page.components.iter().zip(marks).enumerate() {
        writeln!(out, "marks {i}")?;
        for row in marks.chunks(component.width) {
            let digits: String = row.iter().map(|&lost| if lost { '1' } else { '0' }).collect();
            writeln!(out, "{digits}")?;
        }
    }
    Ok(())
}

/// The distances at the samples of a page.
pub fn distances(out: &mut impl Write, page: &Page, distances: &Distances) -> io::Result<()> {
    for (i, (component, distances)) in page.components.iter().zip(distances).enumerate() {
        writeln!(out, "distances {i}")?;
        numbers(out, distances, component.width)?;
    }
    Ok(())
}

/// Where the bytes of a stream went, in one line.
pub fn bytes(out: &mut impl Write, bytes: &Bytes) -> io::Result<()> {
    write!(out, "bytes")?;
    for (name, total) in bytes.totals() {
        write!(out, " {name} {total}")?;
    }
    writeln!(out)
}
