//! Pages from what a program prints of them.

/// A component as printed. Marks are there in the damaged mode, distances at each sample where they are asked for.
pub struct Printed {
    pub distance: i64,
    pub samples: Vec<i64>,
    pub marks: Vec<bool>,
    pub distances: Vec<i64>,
}

impl Printed {
    pub fn is_marked(&self, at: usize) -> bool {
        self.marks.get(at) == Some(&true)
    }

    /// The places of the samples that are not marked.
    pub fn unmarked(&self) -> impl Iterator<Item = usize> + '_ {
        (0..self.samples.len()).filter(|&at| !self.is_marked(at))
    }

    /// The distance that the sample at a place keeps: its own, or without one that of its component.
    pub fn distance_at(&self, at: usize) -> i64 {
        self.distances.get(at).copied().unwrap_or(self.distance)
    }
}

/// What the lines belong to that are being printed.
#[derive(Clone, Copy)]
enum Block {
    Samples,
    Marks,
    Distances,
}

/// The components of an accepted page; of a refused one none. What is no number is far from any.
pub fn page(answer: &[u8]) -> Vec<Printed> {
    let text = String::from_utf8_lossy(answer);
    let mut components: Vec<Printed> = Vec::new();
    let (mut block, mut number) = (Block::Samples, 0);
    for line in text.lines().skip(1) {
        let words: Vec<&str> = line.split(' ').collect();
        match words[..] {
            ["component", _, "width", _, "height", _, "distance", d] => {
                (block, number) = (Block::Samples, components.len());
                let distance = d.parse().unwrap_or(-1);
                components.push(Printed { distance, samples: Vec::new(), marks: Vec::new(), distances: Vec::new() });
            }
            ["marks", i] => (block, number) = (Block::Marks, i.parse().unwrap_or(usize::MAX)),
            ["distances", i] => (block, number) = (Block::Distances, i.parse().unwrap_or(usize::MAX)),
            ["bytes", ..] => number = usize::MAX,
            _ => {
                if let Some(component) = components.get_mut(number) {
                    take_line(component, block, line, &words);
                }
            }
        }
    }
    components
}

fn take_line(component: &mut Printed, block: Block, line: &str, words: &[&str]) {
    let numbers = words.iter().map(|word| word.parse().unwrap_or(i64::MAX / 2));
    match block {
        Block::Samples => component.samples.extend(numbers),
        Block::Marks => component.marks.extend(line.chars().map(|digit| digit == '1')),
        Block::Distances => component.distances.extend(numbers),
    }
}
