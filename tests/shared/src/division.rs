//! Codewords and frames of the rules by long division, apart from both sides.

use crate::bits::{bit, bytes_for, clear_spare_bits, has_spare_bits, row, square_bytes, CHECK_BITS};

/// The powers of z in g.
const G: [usize; 11] = [16, 14, 13, 11, 10, 9, 8, 6, 5, 1, 0];

/// One bit of each of up to 256 words.
type Slice = [u64; 4];

/// The words' first bits, their second bits, and so on.
type Slices = Vec<Slice>;

fn add(to: &mut Slice, other: &Slice) {
    to.iter_mut().zip(other).for_each(|(to, with)| *to ^= with);
}

/// Whether `frame` is the one that has `data` in its upper left corner.
pub fn is_frame_of(n: usize, data: &[u8], frame: &[u8]) -> bool {
    if frame.len() != square_bytes(n) || has_spare_bits(n, frame) {
        return false;
    }
    let bit = |i: usize, j: usize| bit(row(n, frame, i), j);
    corner(n, frame) == data && are_codewords(slices(n, bit)) && are_codewords(slices(n, |j, i| bit(i, j)))
}

fn corner(n: usize, frame: &[u8]) -> Vec<u8> {
    let k = n - CHECK_BITS;
    let first = |i| row(n, frame, i)[..bytes_for(k)].iter().copied();
    let mut corner: Vec<u8> = (0..k).flat_map(first).collect();
    clear_spare_bits(k, &mut corner);
    corner
}

pub fn is_codeword(n: usize, word: &[u8]) -> bool {
    let alone = |place| [u64::from(bit(word, place)), 0, 0, 0];
    are_codewords((0..n).map(alone).collect())
}

/// The slices of n words, given bit `place` of each.
fn slices(n: usize, bit: impl Fn(usize, usize) -> bool) -> Slices {
    let slice = |place| {
        let mut slice = Slice::default();
        for word in 0..n {
            slice[word / 64] |= u64::from(bit(word, place)) << (word % 64);
        }
        slice
    };
    (0..n).map(slice).collect()
}

/// Divides by g, for all words at once: the remainder must be zero, and the ones even.
fn are_codewords(words: Slices) -> bool {
    let (zero, mut parity) = (Slice::default(), Slice::default());
    words.iter().for_each(|bits| add(&mut parity, bits));
    let mut left = words;
    left.pop();
    for top in 0..left.len() - 16 {
        let quotient = left[top];
        for power in G {
            add(&mut left[top + 16 - power], &quotient);
        }
    }
    parity == zero && left.iter().all(|bits| *bits == zero)
}

/// The remainders of words in which one bit alone is set.
pub struct Places {
    n: usize,
    remainders: Vec<usize>,
    /// Indexed by remainders. No two places have the same.
    places: Vec<Option<usize>>,
}

impl Places {
    pub fn new(n: usize) -> Places {
        let g: usize = G.iter().map(|power| 1 << power).sum();
        let mut remainders = vec![0; n];
        let mut places = vec![None; 1 << 16];
        // The last bit is no coefficient; the one before it is that of z^0.
        let mut power = 1;
        for place in (0..n - 1).rev() {
            remainders[place] = power;
            power <<= 1;
            if power >> 16 == 1 {
                power ^= g;
            }
        }
        for (place, &remainder) in remainders.iter().enumerate() {
            places[remainder] = Some(place);
        }
        Places { n, remainders, places }
    }

    /// The places, two at most, after whose change the word that has just these ones is a codeword; or nothing, if it is beyond.
    pub fn near(&self, ones: &[usize]) -> Option<Vec<usize>> {
        self.wrong(self.sum(ones), ones.len() % 2 == 1)
    }

    /// The same, of any word with this remainder, and with an odd number of ones or an even one.
    pub fn wrong(&self, remainder: usize, odd: bool) -> Option<Vec<usize>> {
        match odd {
            true => self.places[remainder].map(|place| vec![place]),
            false if remainder == 0 => Some(Vec::new()),
            false => self.two_of(remainder).map(|(a, b)| vec![a.min(b), a.max(b)]),
        }
    }

    /// The checks of the word that has just these ones: twice the remainder, and one if they are odd.
    pub fn checks(&self, ones: &[usize]) -> usize {
        2 * self.sum(ones) + ones.len() % 2
    }

    fn sum(&self, ones: &[usize]) -> usize {
        ones.iter().fold(0, |sum, &place| sum ^ self.remainders[place])
    }

    /// The two places that make a codeword of six ones out of these four, if there are any. If not,
    /// no codeword is within two of the four: none but zero has fewer ones than six.
    pub fn other_two(&self, four: &[usize]) -> Option<(usize, usize)> {
        self.two_of(self.sum(four))
    }

    fn two_of(&self, remainder: usize) -> Option<(usize, usize)> {
        (0..self.n).find_map(|first| {
            let second = self.places[remainder ^ self.remainders[first]]?;
            Some((first, second))
        })
    }
}
