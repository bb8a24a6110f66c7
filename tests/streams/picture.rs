//! Pictures to encode.

use crate::rng::Rng;
use independent::a::Header;
use independent::b::Layout;

#[derive(Clone, Copy)]
enum Style {
    Noise,
    Slope,
    Letters,
    Extremes,
    Flat,
}

/// A picture of one random style: samples row by row for each component.
pub fn random(rng: &mut Rng, header: &Header, layout: &Layout) -> Vec<Vec<u16>> {
    let style = rng.pick(&[Style::Noise, Style::Slope, Style::Slope, Style::Letters, Style::Extremes, Style::Flat]);
    draw(rng, style, header, layout)
}

/// A sheet with letters.
pub fn sheet(rng: &mut Rng, header: &Header, layout: &Layout) -> Vec<Vec<u16>> {
    draw(rng, Style::Letters, header, layout)
}

fn draw(rng: &mut Rng, style: Style, header: &Header, layout: &Layout) -> Vec<Vec<u16>> {
    let traits: Vec<u64> = (0..4).map(|_| rng.next()).collect();
    let components = layout.shapes.iter().zip(&header.cdt);
    components
        .map(|(shape, entry)| {
            let max = (1u64 << entry.b) - 1;
            let places = (0..shape.height).flat_map(|y| (0..shape.width).map(move |x| (x as u64, y as u64)));
            places.map(|(x, y)| sample(rng, style, &traits, x, y, max) as u16).collect()
        })
        .collect()
}

fn sample(rng: &mut Rng, style: Style, traits: &[u64], x: u64, y: u64, max: u64) -> u64 {
    let grain = max / 64 + 1;
    match style {
        Style::Noise => rng.next() % (max + 1),
        Style::Slope => {
            (x * (traits[0] % 97) + y * (traits[1] % 89) + rng.next() % grain) * (max / 512 + 1) % (max + 1)
        }
        Style::Letters => {
            let ink = ((x / 3) ^ (y / 11 * 256)).wrapping_mul(traits[2] | 1) >> 20 & 3 == 0;
            (if ink { max / 8 } else { max - max / 8 }) - rng.next() % grain
        }
        Style::Extremes => max * ((x / (1 + traits[2] % 3) + y / (1 + traits[3] % 3)) % 2),
        Style::Flat => traits[0] % (max + 1),
    }
}
