//! A frame that comes in pieces.
//!
//! The bytes so far stand at the front of the lent frame, and what is missing
//! is the slice behind them. A piece is taken if the missing slice has room for
//! it at its front, and more is wanted if the piece is the shorter of the two.

use crate::answer::Refusal;
use crate::{check_word_length, square_bytes};

/// How far a frame has come. A call takes it and gives the next.
#[derive(Clone, Copy, Debug, PartialEq, Eq)]
pub struct State {
    pub n: usize,
    /// The bytes so far.
    pub bytes: usize,
}

/// The answer for a piece that was taken.
#[derive(Clone, Copy, Debug, PartialEq, Eq)]
pub struct Received {
    pub state: State,
    /// Whether more is wanted. It is not once the frame is whole.
    pub more: bool,
}

impl State {
    /// The state before the first piece. Whether `n` is good is asked when one
    /// comes.
    pub fn fresh(n: usize) -> State {
        State { n, bytes: 0 }
    }

    /// The state before the first piece of another frame, of the same n. What
    /// the lent frame holds does not matter.
    pub fn reset(self) -> State {
        State::fresh(self.n)
    }

    /// Puts `piece` behind the bytes so far, and touches no other byte of
    /// `frame`. A piece may be empty, also when the frame is whole.
    ///
    /// Refuses with numbers 1, 2 and 14, looked for in this order; `frame` is
    /// then untouched, the state is the one that there was, and no more is
    /// wanted.
    pub fn receive(self, piece: &[u8], frame: &mut [u8]) -> Result<Received, Refusal> {
        check_word_length(self.n)?;
        if frame.len() != square_bytes(self.n) {
            return Err(Refusal::InputLength);
        }
        // There is none, not even an empty one, if the state claims too much.
        let missing = frame.get_mut(self.bytes..).ok_or(Refusal::PastFrame)?;
        let more = piece.len() < missing.len();
        let place = missing.get_mut(..piece.len());
        place.ok_or(Refusal::PastFrame)?.copy_from_slice(piece);
        let bytes = self.bytes + piece.len();
        let state = State { n: self.n, bytes };
        Ok(Received { state, more })
    }
}
