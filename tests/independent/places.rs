//! Document 02's C-22: the distance at each sample of a page that was read.

use super::a::{self, Header};
use super::b::Layout;
use super::damaged::each_precinct;
use super::distance::{self, Number};
use super::e::{self, Plane};
use super::{Distances, Marks, Page, Refusal};

/// The distance at each sample, from the headers of the precincts alone.
pub fn distances(s: &[u8]) -> Result<Distances, Refusal> {
    let header = a::header(s)?;
    let layout = Layout::new(&header);
    let numbers = numbers(s, &header, &layout)?;
    Ok(distance::places(&header, &layout, numbers))
}

/// The number of each coefficient: that of its own precinct and band, whatever it is and also where its slice is spoilt.
fn numbers(s: &[u8], header: &Header, layout: &Layout) -> Result<Vec<Plane<Number>>, Refusal> {
    let mut numbers = e::planes(layout);
    each_precinct(s, header, layout, |row, column, t| {
        e::fill_precinct(&mut numbers, layout, row, column, |band| distance::band_number(t[band], header.fq));
    })?;
    Ok(numbers)
}

/// Of a sample that is lost nothing is known: it may be as far off as samples can be.
pub fn give_up(distances: &mut Distances, page: &Page, marks: &Marks) {
    for ((distances, marks), component) in distances.iter_mut().zip(marks).zip(&page.components) {
        let lost = distances.iter_mut().zip(marks).filter(|(_, &lost)| lost);
        lost.for_each(|(distance, _)| *distance = distance::farthest(component.precision) as u16);
    }
}
