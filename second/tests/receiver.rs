//! Frames that come in pieces: every piece with its whole answer and every byte
//! of the lent frame.

use second::receiver::{Received, State};
use second::{Code, Ending, Refusal};

/// What stands in the lent frame before a call, to see what was touched.
const OLD: u8 = 0xa5;

/// No byte of it is like its neighbours, and none is the old one.
fn frame_of(n: usize) -> Vec<u8> {
    let bytes = n * ((n + 7) / 8);
    (0..bytes).map(|at| (at % 101) as u8).collect()
}

/// Receives `frame` cut at these places, rising, and checks each answer.
fn receive_cut(n: usize, frame: &[u8], cuts: &[usize]) -> (State, Vec<u8>) {
    let (mut state, mut lent) = (State::fresh(n), vec![OLD; frame.len()]);
    for &end in cuts.iter().chain([&frame.len()]) {
        let said = state.receive(&frame[state.bytes..end], &mut lent);
        state = State { n, bytes: end };
        let more = end < frame.len();
        assert_eq!(said, Ok(Received { state, more }));
        assert_eq!(lent[..end], frame[..end]);
        assert!(lent[end..].iter().all(|&byte| byte == OLD));
    }
    (state, lent)
}

/// Nothing changes, and this is the reason.
fn is_refused(state: State, piece: &[u8], bytes: usize, refusal: Refusal) {
    let mut lent = vec![OLD; bytes];
    assert_eq!(state.receive(piece, &mut lent), Err(refusal));
    assert_eq!(lent, vec![OLD; bytes]);
}

#[test]
fn its_number_is_14() {
    assert_eq!(Refusal::PastFrame.number(), 14);
}

#[test]
fn in_one_piece() {
    for n in 18..=256 {
        let (frame, whole) = (frame_of(n), n * ((n + 7) / 8));
        let (state, lent) = receive_cut(n, &frame, &[]);
        assert_eq!((state.n, state.bytes, lent), (n, whole, frame));
    }
}

#[test]
fn every_cutting_of_18_in_two_and_in_three() {
    let frame = frame_of(18);
    let whole = receive_cut(18, &frame, &[]);
    for first in 0..=54 {
        assert_eq!(receive_cut(18, &frame, &[first]), whole);
        for second in first..=54 {
            assert_eq!(receive_cut(18, &frame, &[first, second]), whole);
        }
    }
}

#[test]
fn byte_by_byte() {
    for n in [18, 19, 24, 25, 64, 195, 256] {
        let frame = frame_of(n);
        let cuts: Vec<usize> = (1..frame.len()).collect();
        assert_eq!(receive_cut(n, &frame, &cuts), receive_cut(n, &frame, &[]));
    }
}

#[test]
fn empty_pieces_are_good_anywhere() {
    let frame = frame_of(18);
    let whole = receive_cut(18, &frame, &[]);
    for at in 0..=54 {
        assert_eq!(receive_cut(18, &frame, &[at; 4]), whole);
    }
}

#[test]
fn a_piece_that_runs_past_the_frame() {
    for bytes in 0..=54 {
        let state = State { n: 18, bytes };
        for more in [1, 2, 54, 1000] {
            let piece = vec![0; 54 - bytes + more];
            is_refused(state, &piece, 54, Refusal::PastFrame);
        }
    }
}

#[test]
fn a_state_that_claims_too_much() {
    let large = u32::MAX as usize;
    for bytes in [
        55,
        108,
        65536,
        large - 53,
        large,
        usize::MAX - 1,
        usize::MAX,
    ] {
        let state = State { n: 18, bytes };
        for length in [0, 1, 2, 54] {
            is_refused(state, &vec![0; length], 54, Refusal::PastFrame);
        }
    }
}

#[test]
fn the_lent_frame_is_looked_at_before_the_piece() {
    for bytes in [0, 54, 55, usize::MAX] {
        let state = State { n: 18, bytes };
        for (piece, lent) in [(0, 0), (0, 53), (1, 55), (55, 53), (60, 57)] {
            is_refused(state, &vec![0; piece], lent, Refusal::InputLength);
        }
    }
}

#[test]
fn n_is_looked_at_first() {
    for n in [0, 1, 17, 257, 274, 65535, usize::MAX] {
        for bytes in [0, 54, 55, usize::MAX] {
            for (piece, lent) in [(0, 0), (0, 54), (55, 54), (1, 8192)] {
                let piece = vec![0; piece];
                is_refused(State { n, bytes }, &piece, lent, Refusal::WordLength);
            }
        }
        is_refused(State::fresh(n), &[], 54, Refusal::WordLength);
    }
}

#[test]
fn refused_pieces_between_change_nothing() {
    let frame = frame_of(18);
    let (mut state, mut lent) = (State::fresh(18), vec![OLD; 54]);
    for piece in frame.chunks(7) {
        let (before, state_before) = (lent.clone(), state);
        let past = state.receive(&vec![0; 55 - state.bytes], &mut lent);
        let short = state.receive(piece, &mut lent[1..]);
        assert_eq!(past, Err(Refusal::PastFrame));
        assert_eq!(short, Err(Refusal::InputLength));
        assert_eq!((&lent, state), (&before, state_before));
        state = state.receive(piece, &mut lent).unwrap().state;
    }
    assert_eq!((state, lent), receive_cut(18, &frame, &[]));
}

#[test]
fn after_a_reset_another_frame_comes() {
    for so_far in [0, 1, 30, 54] {
        let mut lent = vec![OLD; 54];
        let first = State::fresh(18).receive(&frame_of(18)[..so_far], &mut lent);
        let state = first.unwrap().state.reset();
        assert_eq!(state, State::fresh(18));
        let other: Vec<u8> = frame_of(18).iter().map(|byte| !byte).collect();
        let half = state.receive(&other[..27], &mut lent).unwrap();
        assert!(half.more);
        let last = half.state.receive(&other[27..], &mut lent).unwrap();
        assert!(!last.more);
        assert_eq!(lent, other);
    }
}

#[test]
fn what_came_in_pieces_is_decoded_as_the_frame() {
    let code = Code::new();
    // Two rows of ones, which two passes mend.
    let mut frame = [0xff, 0xff, 0xc0].repeat(2);
    frame.resize(54, 0);
    let (_, lent) = receive_cut(18, &frame, &[3, 3, 5, 40]);
    let mut mended = [OLD; 54];
    let report = code.decode(18, 2, &lent, &mut mended).unwrap();
    assert_eq!((report.ending, report.bits), (Ending::Repaired, 36));
    assert_eq!(mended, [0; 54]);
}
