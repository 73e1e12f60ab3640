//! The state of a receiver as C has it: packed into one number, which goes in and comes back.
//!
//! Bits 0 to 7 are the number of the call that returned it, bit 8 is set if more is wanted, and bits 9 to 15 are zero; on the way
//! in none of these is looked at. Bits 16 to 31 are n, and bits 32 to 63 the bytes so far.

use second::receiver::{Received, State};
use second::Refusal;

const NOT_LOOKED_AT: u64 = 0xffff;

/// As it comes back.
pub fn returned(state: State, number: u64, more: bool) -> u64 {
    given(state, number as u16 | u16::from(more) << 8)
}

/// As it goes in, with these bits 0 to 15.
pub fn given(state: State, low: u16) -> u64 {
    (state.bytes as u64) << 32 | (state.n as u64) << 16 | u64::from(low)
}

/// As it comes back from a call that was refused.
pub fn refused(packed: u64, number: u64) -> u64 {
    packed & !NOT_LOOKED_AT | number
}

pub fn state_of(packed: u64) -> State {
    State { n: (packed >> 16 & 0xffff) as usize, bytes: (packed >> 32) as usize }
}

pub fn number_of(packed: u64) -> u64 {
    packed & 0xff
}

pub fn more_of(packed: u64) -> bool {
    packed >> 8 & 1 == 1
}

/// What the second program says of a piece, given with this state, as C gets it.
pub fn said(before: u64, said: Result<Received, Refusal>) -> u64 {
    match said {
        Ok(received) => returned(received.state, 0, received.more),
        Err(refusal) => refused(before, refusal.number().into()),
    }
}

/// The number and its parts, to be read.
pub fn shown(packed: u64) -> String {
    let (State { n, bytes }, number) = (state_of(packed), number_of(packed));
    let more = if more_of(packed) { "more" } else { "no more" };
    format!("state 0x{:016X}: number {}, {} wanted, n {}, bytes {}", packed, number, more, n, bytes)
}
