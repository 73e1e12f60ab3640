//! What the calls return, and the number that stands for each.

use std::error::Error;
use std::fmt;

/// Why a call was turned down. The output is untouched.
#[derive(Clone, Copy, Debug, PartialEq, Eq)]
pub enum Refusal {
    /// n is not 18 to 256.
    WordLength,
    /// The input, or the frame that a receiver is lent, does not have exactly
    /// the bytes that n asks for.
    InputLength,
    /// The output does not have exactly the bytes that n asks for.
    OutputLength,
    /// No pass is allowed, or more than a caller may allow.
    Allowance,
    /// The data has a spare bit set.
    SpareBits,
    /// Some row or column of the frame is not a codeword.
    NotCodewords,
    /// Every code bit of the frame is one, as in flash that was wiped.
    Erased,
    /// The piece would run past the frame, or the state claims more bytes than
    /// the frame has.
    PastFrame,
}

impl Refusal {
    /// 1 to 6, 10, or 14.
    pub fn number(self) -> u32 {
        match self {
            Refusal::WordLength => 1,
            Refusal::InputLength => 2,
            Refusal::OutputLength => 3,
            Refusal::Allowance => 4,
            Refusal::SpareBits => 5,
            Refusal::NotCodewords => 6,
            Refusal::Erased => 10,
            Refusal::PastFrame => 14,
        }
    }
}

impl fmt::Display for Refusal {
    fn fmt(&self, f: &mut fmt::Formatter<'_>) -> fmt::Result {
        f.write_str(match self {
            Refusal::WordLength => "the word length is not 18 to 256",
            Refusal::InputLength => "the input length does not fit the word length",
            Refusal::OutputLength => "the output length does not fit the word length",
            Refusal::Allowance => "the allowance is out of range",
            Refusal::SpareBits => "the data has a spare bit set",
            Refusal::NotCodewords => "not a frame of codewords",
            Refusal::Erased => "the frame is erased: all its bits are ones",
            Refusal::PastFrame => "the piece or the state runs past the frame",
        })
    }
}

impl Error for Refusal {}

/// How the passes over a frame ended.
#[derive(Clone, Copy, Debug, PartialEq, Eq)]
pub enum Ending {
    /// The received frame was one of codewords; no pass was made.
    Clean,
    /// After the last pass every row and column was a codeword.
    Repaired,
    /// The last pass, not the first, changed no bit.
    Stuck,
    /// The allowance was used up.
    Spent,
}

/// The answer for a frame.
#[derive(Clone, Copy, Debug, PartialEq, Eq)]
pub struct Report {
    pub ending: Ending,
    pub passes: usize,
    /// Code bits of the last frame that are not as they were received.
    pub bits: usize,
    /// Rows of the last frame that are not codewords.
    pub bad_rows: usize,
    /// Columns of the last frame that are not codewords.
    pub bad_columns: usize,
}

impl Report {
    /// 0 for clean and repaired, 7 for stuck, 8 for spent.
    pub fn number(&self) -> u32 {
        match self.ending {
            Ending::Clean | Ending::Repaired => 0,
            Ending::Stuck => 7,
            Ending::Spent => 8,
        }
    }
}

/// The answer for a single word. Places count from 0, the word's first bit.
#[derive(Clone, Copy, Debug, PartialEq, Eq)]
pub enum Answer {
    /// It is a codeword.
    Codeword,
    /// Changing this place gives a codeword.
    OnePlace(usize),
    /// Changing these places, the lower first, gives a codeword.
    TwoPlaces(usize, usize),
    /// No codeword lies within two places.
    NoCodeword,
}

impl Answer {
    /// 9 if no codeword lies within two places, else 0.
    pub fn number(&self) -> u32 {
        match self {
            Answer::NoCodeword => 9,
            _ => 0,
        }
    }
}
