//! The bits of one word, and how they lie in bytes.

use crate::answer::Answer;

/// Up to 256 bits, from the top of the first number down; places past the
/// word's end are zero.
#[derive(Clone, Copy, Debug, PartialEq, Eq)]
pub struct Word(pub [u64; 4]);

impl Word {
    pub const ZERO: Word = Word([0; 4]);

    /// The first `len` bits of `bytes`, which has no byte more than they need.
    pub fn unpack(len: usize, bytes: &[u8]) -> Word {
        let mut padded = [0; 32];
        padded[..bytes.len()].copy_from_slice(bytes);
        padded[bytes.len() - 1] &= !spare_mask(len);
        let mut word = Word::ZERO;
        for (part, chunk) in word.0.iter_mut().zip(padded.chunks_exact(8)) {
            for &byte in chunk {
                *part = *part << 8 | u64::from(byte);
            }
        }
        word
    }

    /// Writes the first `len` bits to `bytes`, which has no byte more than
    /// they need, and the spare bits as zero.
    pub fn pack(&self, len: usize, bytes: &mut [u8]) {
        let count = bytes.len();
        bytes.copy_from_slice(&self.bytes()[..count]);
        bytes[count - 1] &= !spare_mask(len);
    }

    /// All 256 bits, place 0 at the top of the first byte.
    pub fn bytes(&self) -> [u8; 32] {
        let mut bytes = [0; 32];
        for (chunk, part) in bytes.chunks_exact_mut(8).zip(&self.0) {
            chunk.copy_from_slice(&part.to_be_bytes());
        }
        bytes
    }

    pub fn flip(&mut self, place: usize) {
        self.0[place / 64] ^= 1 << (63 - place % 64);
    }

    pub fn ones(&self) -> u32 {
        self.0.iter().map(|part| part.count_ones()).sum()
    }

    /// This word with the places that `answer` names flipped.
    pub fn corrected(mut self, answer: Answer) -> Word {
        match answer {
            Answer::Codeword | Answer::NoCodeword => {}
            Answer::OnePlace(place) => self.flip(place),
            Answer::TwoPlaces(lower, higher) => {
                self.flip(lower);
                self.flip(higher);
            }
        }
        self
    }
}

/// The fewest whole bytes for `len` bits.
pub fn bytes_for(len: usize) -> usize {
    (len + 7) / 8
}

/// Whether a bit past the first `len` is set in `bytes`, which has no byte
/// more than they need.
pub fn has_spare_bits(len: usize, bytes: &[u8]) -> bool {
    bytes[bytes.len() - 1] & spare_mask(len) != 0
}

/// The spare bits of the last byte of `len` bits.
fn spare_mask(len: usize) -> u8 {
    match len % 8 {
        0 => 0,
        used => 0xff >> used,
    }
}
