//! Frames of which each pass frees one word.
//!
//! The words of a chain are numbered from 1 to m, by turns a row and a column. A bit is wrong where word k meets word k + 1, and
//! one where it meets word k + 3; but word m - 7 meets word m instead, which ties the last word. So word 1 has two wrong bits,
//! and every other three or four.
//!
//! Up to k = m - 7, pass k mends word k alone. The words before it are mended, so it has two wrong bits left, those with later
//! words; and a word w behind it has three at least: with w - 1, w + 1 and w + 3, or, of the last three, with words m - 7 and
//! later. Then word m has lost its third, and pass m - 6 mends it along with word m - 6. Of words m - 5, m - 3 and m - 1 those
//! with m - 4 and m - 2 are left, so pass m - 5 mends all three, and it is the last.

use crate::bits::{flip_at, MOST_ALLOWED};
use crate::division::Places;
use crate::random::Random;

/// A shorter chain would have no word m - 7.
pub const SHORTEST_CHAIN: usize = 8;

/// The passes are so many less than the words.
const ENDS_BEFORE: usize = 5;

/// The shortest chain that is spent at every allowance.
pub const SPENT_CHAIN: usize = MOST_ALLOWED + ENDS_BEFORE + 1;

/// The words of a chain, in a frame of n rows.
pub struct Chain {
    n: usize,
    /// Which row or column each is, from word 1 on.
    words: Vec<usize>,
}

/// What decoding says: the number, passes, bits, rows and columns.
pub type Counts = [usize; 5];

impl Chain {
    /// A chain of `length` words, twice n of them at most, at random places.
    pub fn new(random: &mut Random, places: &Places, n: usize, length: usize) -> Chain {
        assert!((SHORTEST_CHAIN..=2 * n).contains(&length), "no chain of {} words has room at n = {}", length, n);
        loop {
            if let Some(words) = placed(random, places, n, length) {
                return Chain { n, words };
            }
        }
    }

    /// Makes the bits of the chain wrong.
    pub fn spoil(&self, frame: &mut [u8]) {
        for (first, second) in crossings(self.words.len()) {
            let (row, column) = if first % 2 == 1 { (first, second) } else { (second, first) };
            flip_at(self.n, frame, self.words[row - 1], self.words[column - 1]);
        }
    }

    /// How many passes repair it.
    pub fn passes(&self) -> usize {
        self.words.len() - ENDS_BEFORE
    }

    /// What decoding says at an allowance: each word that is mended had two wrong bits left.
    pub fn decoded(&self, allowance: usize) -> Counts {
        let (length, passes) = (self.words.len(), self.passes());
        if allowance >= passes {
            return [0, passes, 2 * length - 4, 0, 0];
        }
        // After pass m - 6 word m is mended too.
        let (mended, last) = if allowance == passes - 1 { (allowance + 1, length - 1) } else { (allowance, length) };
        let [rows, columns] = [1, 0].map(|kind| (allowance + 1..=last).filter(|word| word % 2 == kind).count());
        [8, allowance, 2 * mended, rows, columns]
    }
}

/// The pairs of words that meet in a wrong bit, the earlier word first.
fn crossings(length: usize) -> Vec<(usize, usize)> {
    let next = (1..length).map(|word| (word, word + 1));
    let tied = length - 7;
    let other = (1..length - 2).map(|word| (word, if word == tied { length } else { word + 3 }));
    next.chain(other).collect()
}

/// The words that each word meets, by its number; there is no word 0.
fn meets(length: usize) -> Vec<Vec<usize>> {
    let mut meets = vec![Vec::new(); length + 1];
    for (first, second) in crossings(length) {
        meets[first].push(second);
        meets[second].push(first);
    }
    meets
}

/// Places at which no word of four wrong bits has a codeword within two, or nothing if none is free for one of the last words.
/// Where there are three wrong bits, no codeword is within two.
fn placed(random: &mut Random, places: &Places, n: usize, length: usize) -> Option<Vec<usize>> {
    let meets = meets(length);
    let mut free = [random.distinct(n, n), random.distinct(n, n)];
    let mut words: Vec<usize> = Vec::new();
    for word in 1..=length {
        // The words of four that meet this one, and no later one.
        let last = |met: &&Vec<usize>| met.len() == 4 && met.iter().max() == Some(&word);
        let whole: Vec<&Vec<usize>> = meets[word].iter().map(|&other| &meets[other]).filter(last).collect();
        let free = &mut free[word % 2];
        let good = free.iter().position(|&place| {
            let at = |&other: &usize| words.get(other - 1).copied().unwrap_or(place);
            whole.iter().all(|met| places.other_two(&met.iter().map(at).collect::<Vec<_>>()).is_none())
        })?;
        words.push(free.swap_remove(good));
    }
    Some(words)
}
