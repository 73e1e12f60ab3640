//! A square bit matrix.

use crate::bits::{bytes_for, Word};
use crate::word::LONGEST;

/// `n` rows of `n` bits. All outside of them is zero.
#[derive(Clone)]
pub struct Matrix {
    n: usize,
    words: [Word; LONGEST],
}

impl Matrix {
    pub fn zero(n: usize) -> Matrix {
        Matrix {
            n,
            words: [Word::ZERO; LONGEST],
        }
    }

    /// A matrix of `n` rows that has the `size` rows of `size` bits of `bytes`
    /// in its upper left corner and zero elsewhere.
    pub fn unpack(n: usize, size: usize, bytes: &[u8]) -> Matrix {
        let mut matrix = Matrix::zero(n);
        let rows = bytes.chunks_exact(bytes_for(size));
        for (word, row) in matrix.words.iter_mut().zip(rows) {
            *word = Word::unpack(size, row);
        }
        matrix
    }

    /// Writes the first `size` bits of the first `size` rows to `bytes`.
    pub fn pack(&self, size: usize, bytes: &mut [u8]) {
        let rows = bytes.chunks_exact_mut(bytes_for(size));
        for (word, row) in self.words.iter().zip(rows) {
            word.pack(size, row);
        }
    }

    /// The length of its rows, and their number.
    pub fn n(&self) -> usize {
        self.n
    }

    pub fn rows(&self) -> &[Word] {
        &self.words[..self.n]
    }

    /// The matrix whose rows are `change` of the rows of this one.
    pub fn map_rows(&self, change: impl Fn(&Word) -> Word) -> Matrix {
        let mut new = Matrix::zero(self.n);
        for (to, from) in new.words.iter_mut().zip(self.rows()) {
            *to = change(from);
        }
        new
    }

    /// The matrix with a one wherever two matrices differ.
    pub fn xor(&self, other: &Matrix) -> Matrix {
        self.with(other, |a, b| a ^ b)
    }

    /// The matrix with a one wherever two matrices both have one.
    pub fn and(&self, other: &Matrix) -> Matrix {
        self.with(other, |a, b| a & b)
    }

    /// The matrix of `join`, taken of 64 bits at a time.
    fn with(&self, other: &Matrix, join: impl Fn(u64, u64) -> u64) -> Matrix {
        let mut new = self.clone();
        for (to, word) in new.words.iter_mut().zip(other.rows()) {
            for (part, with) in to.0.iter_mut().zip(word.0) {
                *part = join(*part, with);
            }
        }
        new
    }

    /// How many bits are one.
    pub fn ones(&self) -> usize {
        self.rows().iter().map(|word| word.ones() as usize).sum()
    }

    /// The matrix whose rows are the columns of this one.
    pub fn transposed(&self) -> Matrix {
        let mut turned = Matrix::zero(self.n);
        let tiles = (self.n + 63) / 64;
        for down in 0..tiles {
            for along in 0..tiles {
                let mut tile = [0; 64];
                for (part, word) in tile.iter_mut().zip(&self.words[64 * down..]) {
                    *part = word.0[along];
                }
                transpose_tile(&mut tile);
                for (word, part) in turned.words[64 * along..].iter_mut().zip(&tile) {
                    word.0[down] = *part;
                }
            }
        }
        turned
    }
}

/// Transposes 64 rows of 64 bits: swaps the upper right quarter with the lower
/// left one, then does the same within each quarter, and so on, all squares of
/// one width at once.
fn transpose_tile(tile: &mut [u64; 64]) {
    let mut width = 32;
    // The right half of every square of twice the width.
    let mut right = u64::MAX >> 32;
    while width > 0 {
        for top in (0..64).filter(|i| i & width == 0) {
            let swap = (tile[top] ^ tile[top + width] >> width) & right;
            tile[top] ^= swap;
            tile[top + width] ^= swap << width;
        }
        width /= 2;
        right ^= right << width;
    }
}

#[cfg(test)]
mod tests {
    use super::*;

    #[test]
    fn transposing_moves_every_single_bit() {
        for n in [18, 64, 65, 195, 256] {
            for row in (0..n).step_by(7) {
                for column in 0..n {
                    let mut matrix = Matrix::zero(n);
                    matrix.words[row].flip(column);
                    let mut expected = Matrix::zero(n);
                    expected.words[column].flip(row);
                    assert!(matrix.transposed().words == expected.words);
                }
            }
        }
    }
}
