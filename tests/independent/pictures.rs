//! The samples of a page as PGM or PPM files, with the components' distances in comment lines; and its marks and the distances at
//! its samples as PGM files.

use independent::{Component, Distances, Marks, Page};
use std::fs::File;
use std::io::{self, BufWriter, Write};

/// Three components of one size and precision, or a single one, become the file `name`; of any other page component `i` becomes `name.i`.
pub fn write(name: &str, page: &Page) -> io::Result<()> {
    let components = &page.components;
    let first = &components[0];
    let alike = |c: &Component| (c.width, c.height, c.precision) == (first.width, first.height, first.precision);
    if components.len() == 1 || (components.len() == 3 && components.iter().all(alike)) {
        return write_one(name, 0, components);
    }
    (0..components.len()).try_for_each(|i| write_one(&format!("{name}.{i}"), i, &components[i..i + 1]))
}

/// Components of one size and precision, `number` being that of the first.
fn write_one(name: &str, number: usize, components: &[Component]) -> io::Result<()> {
    let Component { width, height, precision, .. } = components[0];
    let mut out = BufWriter::new(File::create(name)?);
    writeln!(out, "{}", if components.len() == 3 { "P6" } else { "P5" })?;
    for (i, component) in components.iter().enumerate() {
        writeln!(out, "# component {} distance {}", number + i, component.distance)?;
    }
    writeln!(out, "{width} {height}\n{}", (1u32 << precision) - 1)?;
    for at in 0..width * height {
        for component in components {
            let bytes = component.samples[at].to_be_bytes();
            out.write_all(if precision > 8 { &bytes } else { &bytes[1..] })?;
        }
    }
    out.flush()
}

/// The masks `.lost`: white where a sample is lost, else black.
pub fn write_masks(name: &str, page: &Page, marks: &Marks) -> io::Result<()> {
    marks.iter().enumerate().try_for_each(|(i, marks)| {
        let bytes: Vec<u8> = marks.iter().map(|&lost| if lost { 255 } else { 0 }).collect();
        write_beside(name, page, i, "lost", 255, &bytes)
    })
}

/// The files `.distance`, with numbers of 16 bits.
pub fn write_distances(name: &str, page: &Page, distances: &Distances) -> io::Result<()> {
    distances.iter().enumerate().try_for_each(|(i, distances)| {
        let bytes: Vec<u8> = distances.iter().flat_map(|distance| distance.to_be_bytes()).collect();
        write_beside(name, page, i, "distance", 65_535, &bytes)
    })
}

/// A PGM of component `i` without comments: `name.ending` for a single component, else `name.i.ending`.
fn write_beside(name: &str, page: &Page, i: usize, ending: &str, most: u16, bytes: &[u8]) -> io::Result<()> {
    let name = if page.components.len() == 1 { format!("{name}.{ending}") } else { format!("{name}.{i}.{ending}") };
    let mut out = BufWriter::new(File::create(name)?);
    write!(out, "P5\n{} {}\n{most}\n", page.components[i].width, page.components[i].height)?;
    out.write_all(bytes)?;
    out.flush()
}
