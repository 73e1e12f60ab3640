//! In what pieces a program gets its input.

use shared::random::Random;

#[derive(Clone, Copy, Debug, PartialEq, Eq)]
pub enum Style {
    /// Standard input is a file.
    File,
    /// A pipe, written as fast as it goes.
    Pipe,
    /// Each read gets one byte.
    Bytes,
    /// A pipe, and a read ends at each of a few random places.
    Anywhere(u64),
    /// Likewise, before a LF, after it, and one byte before and after these.
    LineEnds(u64),
    /// Likewise, at each multiple of this number, or next to it.
    Multiples(usize, u64),
}

/// Pieces of one input are no more than this, so that a long one does not take for ever.
const MOST_CUTS: usize = 60;

impl Style {
    pub fn name(&self) -> String {
        match self {
            Style::File => "a file".to_string(),
            Style::Pipe => "a pipe".to_string(),
            Style::Bytes => "single bytes".to_string(),
            Style::Anywhere(_) => "cut anywhere".to_string(),
            Style::LineEnds(_) => "cut about line ends".to_string(),
            Style::Multiples(size, _) => format!("cut about multiples of {}", size),
        }
    }

    /// The same style with other places to cut at.
    pub fn seeded(self, seed: u64) -> Style {
        match self {
            Style::Anywhere(_) => Style::Anywhere(seed),
            Style::LineEnds(_) => Style::LineEnds(seed),
            Style::Multiples(size, _) => Style::Multiples(size, seed),
            other => other,
        }
    }

    /// Where a read must end, rising; nothing for the styles that have no such places.
    pub fn cuts(&self, input: &[u8]) -> Vec<usize> {
        let mut places: Vec<usize> = match *self {
            Style::File | Style::Pipe | Style::Bytes => Vec::new(),
            Style::Anywhere(seed) => {
                let mut random = Random::new(&[seed, input.len() as u64]);
                let count = random.within(1, 20);
                (0..count).map(|_| random.below(input.len() + 1)).collect()
            }
            Style::LineEnds(seed) => line_ends(input, seed),
            Style::Multiples(size, seed) => {
                let aside = (seed % 3) as usize;
                let places = (1..=MOST_CUTS).map(|index| index * size + aside - 1);
                places.collect()
            }
        };
        places.retain(|&place| place > 0 && place < input.len());
        places.sort_unstable();
        places.dedup();
        places
    }
}

/// Places about some line ends that follow one another.
fn line_ends(input: &[u8], seed: u64) -> Vec<usize> {
    let mut random = Random::new(&[seed, input.len() as u64]);
    let is_end = |&place: &usize| input[place] == b'\n';
    let ends: Vec<usize> = (0..input.len()).filter(is_end).collect();
    let first = random.below(ends.len().saturating_sub(MOST_CUTS / 2) + 1);
    let mut places = Vec::new();
    for &end in ends.iter().skip(first).take(MOST_CUTS / 2) {
        let about = [end.saturating_sub(1), end, end + 1, end + 2];
        places.push(about[random.below(4)]);
        places.push(about[random.below(4)]);
    }
    places
}
