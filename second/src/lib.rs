//! Encodes, repairs and reads square code frames.
//!
//! A frame is a square of n by n bits, 18 ≤ n ≤ 256. All its rows and columns
//! are codewords: the first n − 1 bits, read as a polynomial, are divisible by
//! a fixed g of degree 16, and the number of ones is even.
//!
//! # How it works
//!
//! A word's *checks* are 17 bits: the parity of all n above the remainder
//! modulo g of the first n − 1. They are zero for a codeword, and flipping a
//! place changes them by an amount that depends only on how far the place is
//! from the word's end. [`Code::new`] therefore writes down all patterns of
//! one and of two places, once, in an array indexed by their checks. Finding
//! what is wrong with a word is one lookup, for every n: a shorter word uses
//! the same array and turns down a pattern with a place it does not have.
//!
//! A frame is held as a bit matrix. A pass over the rows maps a whole matrix
//! to a new one, and a pass over the columns does the same to the transposed
//! matrix. A further matrix has a one wherever a bit is not as it was received.
//! The count goes along with it: a pass adds the bits that it flips, and takes
//! off twice those that it flips back.
//!
//! A matrix that has as many ones as bits is erased. It is counted before
//! anything else is asked of a frame, and when a frame was made, before it is
//! written out.
//!
//! A frame that comes in pieces is put together by a [`receiver`], which knows
//! of no bits or words: only of bytes, and of how many a frame has.
//!
//! # How this differs from the algebraic way
//!
//! The usual decoder takes a word's syndromes in the field of 256 elements,
//! forms the polynomial whose roots locate the errors, solves it with tables
//! of logarithms, and then asks whether the parity and the cut-away places
//! agree. Nothing of that is here: no field, no equation to solve. A codeword
//! lies within two places of a word just when the word's checks stand in the
//! table with places that the word has.

#![forbid(unsafe_code)]

mod answer;
mod bits;
pub mod data;
pub mod dump;
mod frame;
mod lines;
mod matrix;
pub mod receiver;
mod word;

pub use answer::{Answer, Ending, Refusal, Report};

use bits::{bytes_for, has_spare_bits, Word};
use matrix::Matrix;
use word::{Tables, CHECK_BITS, LONGEST, PARITY, SHORTEST};

/// The most passes a caller may allow.
const MOST_PASSES: usize = 200;

/// The tables for all word lengths. Build it once and lend it out.
#[derive(Clone)]
pub struct Code {
    tables: Tables,
}

impl Default for Code {
    fn default() -> Code {
        Code::new()
    }
}

impl Code {
    /// Builds the tables.
    pub fn new() -> Code {
        Code {
            tables: Tables::new(),
        }
    }

    /// Writes to `frame` the frame of word length `n` that has `data`, k rows
    /// of k = n − 17 bits, in its upper left corner.
    ///
    /// Refuses with numbers 1, 2, 3, 5 and 10; `frame` is then untouched.
    pub fn encode(&self, n: usize, data: &[u8], frame: &mut [u8]) -> Result<(), Refusal> {
        check_word_length(n)?;
        let k = n - CHECK_BITS;
        check_lengths(data, square_bytes(k), frame, square_bytes(n))?;
        if data.chunks(bytes_for(k)).any(|row| has_spare_bits(k, row)) {
            return Err(Refusal::SpareBits);
        }
        let corner = Matrix::unpack(n, k, data);
        let made = frame::encode(&self.tables, &corner);
        check_not_erased(&made)?;
        made.pack(n, frame);
        Ok(())
    }

    /// Writes to `data` the upper left corner of `frame`, whose spare bits do
    /// not matter. The spare bits of `data` become zero.
    ///
    /// Refuses with numbers 1, 2, 3, 10 and 6, looked for in this order; `data`
    /// is then untouched.
    pub fn read(&self, n: usize, frame: &[u8], data: &mut [u8]) -> Result<(), Refusal> {
        check_word_length(n)?;
        let k = n - CHECK_BITS;
        check_lengths(frame, square_bytes(n), data, square_bytes(k))?;
        let matrix = Matrix::unpack(n, n, frame);
        check_not_erased(&matrix)?;
        if !frame::is_frame(&self.tables, &matrix) {
            return Err(Refusal::NotCodewords);
        }
        matrix.pack(k, data);
        Ok(())
    }

    /// Mends `received` with at most `allowance` passes, rows first.
    ///
    /// `frame` gets the mended frame, spare bits zero, if the ending is clean
    /// or repaired, and a copy of `received` if it is stuck or spent. Refuses
    /// with numbers 1 to 4 and 10; `frame` is then untouched.
    pub fn decode(
        &self,
        n: usize,
        allowance: usize,
        received: &[u8],
        frame: &mut [u8],
    ) -> Result<Report, Refusal> {
        check_word_length(n)?;
        check_lengths(received, square_bytes(n), frame, square_bytes(n))?;
        if !(1..=MOST_PASSES).contains(&allowance) {
            return Err(Refusal::Allowance);
        }
        let start = Matrix::unpack(n, n, received);
        check_not_erased(&start)?;
        let (last, report) = frame::mend(&self.tables, start, allowance);
        match report.ending {
            Ending::Clean | Ending::Repaired => last.pack(n, frame),
            Ending::Stuck | Ending::Spent => frame.copy_from_slice(received),
        }
        Ok(report)
    }

    /// Mends a single word.
    ///
    /// `word` gets the codeword within two places of `received`, spare bits
    /// zero, or a copy of `received` if there is none. Refuses with numbers 1
    /// to 3; `word` is then untouched.
    pub fn decode_word(
        &self,
        n: usize,
        received: &[u8],
        word: &mut [u8],
    ) -> Result<Answer, Refusal> {
        check_word_length(n)?;
        check_lengths(received, bytes_for(n), word, bytes_for(n))?;
        let start = Word::unpack(n, received);
        let answer = self.tables.answer(n, &start);
        match answer {
            Answer::NoCodeword => word.copy_from_slice(received),
            _ => start.corrected(answer).pack(n, word),
        }
        Ok(answer)
    }

    /// The answer to a word of `n` bits of which this is the remainder, and
    /// whose number of ones is odd or not.
    pub fn answer_to(&self, n: usize, remainder: u16, odd: bool) -> Result<Answer, Refusal> {
        check_word_length(n)?;
        let parity = if odd { PARITY } else { 0 };
        Ok(self.tables.answer_to(n, parity | u32::from(remainder)))
    }

    /// Writes to `word` the codeword of `n` bits that begins with the n − 17
    /// bits of `data`.
    ///
    /// Refuses with numbers 1, 2, 3 and 5; `word` is then untouched.
    pub fn encode_word(&self, n: usize, data: &[u8], word: &mut [u8]) -> Result<(), Refusal> {
        check_word_length(n)?;
        let k = n - CHECK_BITS;
        check_lengths(data, bytes_for(k), word, bytes_for(n))?;
        if has_spare_bits(k, data) {
            return Err(Refusal::SpareBits);
        }
        let start = Word::unpack(k, data);
        self.tables.encode(n, &start).pack(n, word);
        Ok(())
    }
}

/// Row `i` of `frame`, or an empty slice if `n`, the frame's length or `i` is
/// wrong.
pub fn row(n: usize, frame: &[u8], i: usize) -> &[u8] {
    if check_word_length(n).is_err() || frame.len() != square_bytes(n) || i >= n {
        return &[];
    }
    let width = bytes_for(n);
    &frame[i * width..(i + 1) * width]
}

/// Comes before any other check, so that all sizes computed later are small.
fn check_word_length(n: usize) -> Result<(), Refusal> {
    if (SHORTEST..=LONGEST).contains(&n) {
        Ok(())
    } else {
        Err(Refusal::WordLength)
    }
}

fn check_lengths(
    input: &[u8],
    input_bytes: usize,
    output: &[u8],
    output_bytes: usize,
) -> Result<(), Refusal> {
    if input.len() != input_bytes {
        Err(Refusal::InputLength)
    } else if output.len() != output_bytes {
        Err(Refusal::OutputLength)
    } else {
        Ok(())
    }
}

/// Comes after the checks of the arguments, and before any codeword is asked for.
fn check_not_erased(matrix: &Matrix) -> Result<(), Refusal> {
    if frame::is_erased(matrix) {
        Err(Refusal::Erased)
    } else {
        Ok(())
    }
}

/// The bytes of `size` rows of `size` bits.
fn square_bytes(size: usize) -> usize {
    size * bytes_for(size)
}
