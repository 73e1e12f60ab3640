//! The checks of a word, and the table from checks to wrong places.

use crate::answer::Answer;
use crate::bits::Word;

pub const SHORTEST: usize = 18;
pub const LONGEST: usize = 256;

/// The remainder and the parity bit.
pub const CHECK_BITS: usize = 17;

/// g = z^16 + z^14 + z^13 + z^11 + z^10 + z^9 + z^8 + z^6 + z^5 + z + 1, less
/// its top term.
const G: u32 =
    1 << 14 | 1 << 13 | 1 << 11 | 1 << 10 | 1 << 9 | 1 << 8 | 1 << 6 | 1 << 5 | 1 << 1 | 1 << 0;

/// The parity among a word's checks. The 16 bits below it are the remainder.
pub const PARITY: u32 = 1 << 16;

/// What is wrong with a word that has certain checks. A place is given by its
/// distance from the word's last bit, which makes it the same for every n.
#[derive(Clone, Copy, Debug, PartialEq, Eq)]
enum Pattern {
    Nothing,
    One(u8),
    /// The smaller distance first.
    Two(u8, u8),
    Other,
}

#[derive(Clone)]
pub struct Tables {
    /// At t, the remainder of t(z) z^16.
    remainders: [u32; 256],
    /// Indexed by checks.
    patterns: Vec<Pattern>,
}

impl Tables {
    pub fn new() -> Tables {
        Tables {
            remainders: remainders(),
            patterns: patterns(),
        }
    }

    /// The parity of all n bits, and below it the remainder of the first
    /// n − 1. Zero for codewords and for nothing else.
    pub fn checks(&self, n: usize, word: &Word) -> u32 {
        let bytes = word.bytes();
        let (whole, rest) = ((n - 1) / 8, (n - 1) % 8);
        let mut remainder = 0;
        for &byte in &bytes[..whole] {
            remainder = self.append(remainder, 8, byte.into());
        }
        // Appends nothing if the bytes were all.
        let last = u32::from(bytes[whole]) >> (8 - rest);
        remainder = self.append(remainder, rest, last);
        let parity = PARITY * (word.ones() & 1);
        parity | remainder
    }

    /// The remainder of a polynomial to which `count` ≤ 8 further coefficients
    /// are appended.
    fn append(&self, remainder: u32, count: usize, bits: u32) -> u32 {
        let above = remainder >> (16 - count);
        let below = remainder << count & 0xffff | bits;
        below ^ self.remainders[above as usize]
    }

    pub fn is_codeword(&self, n: usize, word: &Word) -> bool {
        self.checks(n, word) == 0
    }

    pub fn answer(&self, n: usize, word: &Word) -> Answer {
        self.answer_to(n, self.checks(n, word))
    }

    /// The answer to a word of n bits with these checks.
    pub fn answer_to(&self, n: usize, checks: u32) -> Answer {
        // None for a place that was cut away.
        let place = |distance: u8| (n - 1).checked_sub(distance.into());
        match self.patterns[checks as usize] {
            Pattern::Nothing => Answer::Codeword,
            Pattern::One(distance) => match place(distance) {
                Some(place) => Answer::OnePlace(place),
                None => Answer::NoCodeword,
            },
            Pattern::Two(near, far) => match (place(far), place(near)) {
                (Some(lower), Some(higher)) => Answer::TwoPlaces(lower, higher),
                _ => Answer::NoCodeword,
            },
            Pattern::Other => Answer::NoCodeword,
        }
    }

    /// The codeword that begins with the n − 17 bits of `data`, in which all
    /// further bits are zero.
    pub fn encode(&self, n: usize, data: &Word) -> Word {
        // Adding the remainder to data(z) z^16 takes it away, and its ones
        // count for the parity too.
        let checks = self.checks(n, data);
        let (remainder, last) = (checks & !PARITY, checks.count_ones() & 1);
        let tail = u64::from(remainder << 1 | last) << (64 - CHECK_BITS);
        let (part, shift) = ((n - CHECK_BITS) / 64, (n - CHECK_BITS) % 64);
        let mut word = *data;
        word.0[part] |= tail >> shift;
        if shift + CHECK_BITS > 64 {
            word.0[part + 1] |= tail << (64 - shift);
        }
        word
    }
}

/// The remainder of z times a polynomial, given the polynomial's own.
fn times_z(remainder: u32) -> u32 {
    let shifted = remainder << 1;
    if shifted >> 16 == 1 {
        shifted & 0xffff ^ G
    } else {
        shifted
    }
}

fn remainders() -> [u32; 256] {
    let mut table = [0; 256];
    for (t, entry) in table.iter_mut().enumerate() {
        // t(z) z^8 has a degree below 16 and is its own remainder.
        *entry = (0..8).fold((t as u32) << 8, |remainder, _| times_z(remainder));
    }
    table
}

/// The checks of a word in which one bit alone is set, by its distance from
/// the last bit.
fn checks_of_places() -> [u32; LONGEST] {
    let mut checks = [0; LONGEST];
    // The last bit belongs to no power of z, the one before it to z^0.
    checks[0] = PARITY;
    let mut power = 1;
    for entry in &mut checks[1..] {
        *entry = PARITY | power;
        power = times_z(power);
    }
    checks
}

fn patterns() -> Vec<Pattern> {
    let places = checks_of_places();
    let mut patterns = vec![Pattern::Other; 1 << CHECK_BITS];
    let mut enter = |checks: u32, pattern| {
        let entry = &mut patterns[checks as usize];
        // Two patterns with the same checks would make codewords that differ
        // in fewer than five places.
        debug_assert_eq!(*entry, Pattern::Other);
        *entry = pattern;
    };
    enter(0, Pattern::Nothing);
    for near in 0..LONGEST {
        enter(places[near], Pattern::One(near as u8));
        for far in near + 1..LONGEST {
            let pattern = Pattern::Two(near as u8, far as u8);
            enter(places[near] ^ places[far], pattern);
        }
    }
    patterns
}

#[cfg(test)]
mod tests {
    use super::*;

    #[test]
    fn no_two_patterns_share_their_checks() {
        let patterns = patterns();
        let count = |kind: fn(&Pattern) -> bool| patterns.iter().filter(|p| kind(p)).count();
        assert_eq!(patterns[0], Pattern::Nothing);
        assert_eq!(count(|p| matches!(p, Pattern::Nothing)), 1);
        assert_eq!(count(|p| matches!(p, Pattern::One(_))), 256);
        assert_eq!(count(|p| matches!(p, Pattern::Two(_, _))), 256 * 255 / 2);
    }
}
