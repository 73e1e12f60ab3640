//! Calls of receive with states that nobody made, and with pieces and buffers of all lengths: each reason to refuse, and any two.

use crate::batch::Batch;
use crate::case::Case;
use crate::packed::{given, state_of};
use crate::promise::Promise;
use second::receiver::State;
use shared::bits::{square_bytes, LONGEST, SHORTEST};
use shared::random::Random;

/// Bytes so far: at the frame's edges, the greatest, anywhere, and such that a part of the bits, or of a sum's, would fit.
fn claims(random: &mut Random, whole: u32) -> Vec<u32> {
    let edges = [0, 1, whole - 1, whole, whole + 1, 2 * whole, 1 << 16, (1 << 16) + whole - 1, 1 << 31];
    let last = [whole + 1, whole, 1].map(u32::wrapping_neg);
    let any = [random.below(whole as usize) as u32, random.number() as u32];
    [&edges[..], &last, &any].concat()
}

/// The lengths of pieces: at the edges of what is missing, and more.
fn pieces(whole: usize, bytes: usize) -> [usize; 7] {
    let missing = whole.saturating_sub(bytes);
    [0, 1, missing, missing + 1, whole, whole + 1, 3 * whole]
}

/// A good n with all claims, pieces and buffers; then a bad one.
pub fn states(batch: &mut Batch) {
    good_n(batch);
    bad_n(batch);
}

fn good_n(batch: &mut Batch) {
    let (n, whole) = (batch.n, square_bytes(batch.n));
    let other = square_bytes(if n < LONGEST { n + 1 } else { n - 1 });
    let any = square_bytes(batch.random.within(SHORTEST, LONGEST));
    for bytes in claims(&mut batch.random, whole as u32) {
        let bytes = bytes as usize;
        for piece in pieces(whole, bytes) {
            for buffer in [whole, whole - 1, whole + 1, 0, other, any] {
                check(batch, State { n, bytes }, piece, buffer);
            }
        }
    }
    // A length of which 16 bits would fit.
    for bytes in [0, whole - 1] {
        check(batch, State { n, bytes }, (1 << 16) + whole - bytes, whole);
    }
}

/// An n that is out of range, also where its lower bits are not, with a buffer of this n and with one of its own.
fn bad_n(batch: &mut Batch) {
    let whole = square_bytes(batch.n);
    let any = batch.random.within(LONGEST + 1, 65535);
    for n in [0, 1, 17, 257, 258, 65535, 256 + batch.n, 65280 + batch.n % 256, any] {
        let own = if n <= 2 * LONGEST { square_bytes(n) } else { 0 };
        for bytes in [0, 1, whole, own + 1, u32::MAX as usize] {
            for piece in [0, 1, whole, whole + 1] {
                for buffer in [whole, own, whole - 1] {
                    check(batch, State { n, bytes }, piece, buffer);
                }
            }
        }
    }
}

/// This batch's share of all that a state can have as n, with a buffer for its lower bits.
pub fn every_n(batch: &mut Batch) {
    for n in (batch.n - SHORTEST..1 << 16).step_by(LONGEST - SHORTEST + 1) {
        let piece = batch.random.below(3);
        let buffer = square_bytes(if n == LONGEST { n } else { n % 256 });
        check(batch, State { n, bytes: 0 }, piece, buffer);
    }
}

/// Random bytes of these lengths, and any bits 0 to 15.
fn check(batch: &mut Batch, state: State, piece: usize, buffer: usize) {
    let random = &mut batch.random;
    let low = [0, u16::MAX, random.number() as u16][random.below(3)];
    let case = Case::receive(given(state, low), random.bytes(piece), random.bytes(buffer));
    let reasons = reasons(&case);
    for (what, reason, other) in [("1Before2", 0, 1), ("1Before14", 0, 2), ("2Before14", 1, 2)] {
        if reasons[reason].1 && reasons[other].1 {
            batch.met(what);
        }
    }
    let promise = promise(&case, reasons.iter().find(|(_, there)| *there).map(|&(number, _)| number));
    batch.check(case, promise, &[]);
}

/// Each number, and whether its reason is there, whatever the others. What n rows would take is asked of any n.
fn reasons(case: &Case) -> [(u64, bool); 3] {
    let State { n, bytes } = state_of(case.state);
    let whole = square_bytes(n);
    [
        (1, !(SHORTEST..=LONGEST).contains(&n)),
        (2, case.output.len() != whole),
        (14, bytes > whole || case.input.len() > whole - bytes),
    ]
}

fn promise(case: &Case, refused: Option<u64>) -> Promise {
    if let Some(number) = refused {
        return Promise::refused(number, case);
    }
    let State { n, bytes } = state_of(case.state);
    let (end, mut frame) = (bytes + case.input.len(), case.output.clone());
    frame[bytes..end].copy_from_slice(&case.input);
    Promise::received(n, end, frame)
}
