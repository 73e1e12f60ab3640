//! Frames that arrive in pieces. However a frame is cut, and whatever is refused between, each call must do what the rules say; the
//! last leaves the frame in the buffer, and the state that the frame in one piece leaves. Then the buffer is decoded.

use crate::batch::Batch;
use crate::case::{Case, Said};
use crate::packed::{given, state_of};
use crate::promise::Promise;
use second::receiver::State;
use shared::bits::{square_bytes, LONGEST, SHORTEST};
use shared::damage;
use shared::random::Random;
use std::mem::take;

/// The kinds of frames that `sent` makes.
pub const FRAMES: usize = 6;

/// A frame as it is received, and decode's call for it in one piece.
struct Sent {
    frame: Vec<u8>,
    decode: Case,
    said: Said,
}

/// Clean, within the class, beyond it, torn, erased, and no frame at all.
fn sent(batch: &mut Batch, kind: usize) -> Sent {
    let n = batch.n;
    let written = batch.write_random().frame;
    let (mut frame, random) = (written.clone(), &mut batch.random);
    match kind % FRAMES {
        0 => {}
        1 => damage::few_in_each_row(random, n, &mut frame),
        2 => damage::crossing(random, n, &mut frame, 3, 3),
        3 => damage::tear(random, n, &mut frame),
        4 => frame.fill(0xff),
        _ => random.fill(&mut frame),
    }
    if random.once_in(2) {
        damage::set_spare_bits(random, n, &mut frame);
    }
    let allowance = random.within(1, 8);
    let decode = batch.decode_case(allowance, frame.clone());
    let promise = Promise::of_frame(&decode, &written);
    let said = batch.check(decode.clone(), promise, &written);
    Sent { frame, decode, said }
}

/// Bytes of which none is the frame's at its place.
fn other_than(random: &mut Random, frame: &[u8]) -> Vec<u8> {
    frame.iter().map(|byte| byte ^ (random.byte() | 1)).collect()
}

/// A frame on its way into a lent buffer.
struct Arrival<'a> {
    sent: &'a Sent,
    /// What the buffer held before the first piece.
    old: &'a [u8],
    /// As the calls left it.
    buffer: Vec<u8>,
    /// As the last call returned it.
    state: u64,
    /// The bytes so far, whatever the state says.
    so_far: usize,
}

impl<'a> Arrival<'a> {
    fn new(n: usize, sent: &'a Sent, old: &'a [u8]) -> Arrival<'a> {
        Arrival { sent, old, buffer: old.to_vec(), state: given(State::fresh(n), 0), so_far: 0 }
    }

    /// In the buffer that another frame left, with that one's state.
    fn after_reset(state: u64, sent: &'a Sent, left: &'a [u8]) -> Arrival<'a> {
        Arrival { sent, old: left, buffer: left.to_vec(), state: given(state_of(state).reset(), 0), so_far: 0 }
    }

    fn whole(&self) -> usize {
        self.sent.frame.len()
    }

    /// Gives the piece up to `end`. Behind it the buffer must be as it was before the first one.
    fn piece_to(&mut self, batch: &mut Batch, end: usize) {
        let frame = &self.sent.frame;
        let case = Case::receive(self.state, frame[self.so_far..end].to_vec(), take(&mut self.buffer));
        let promise = Promise::received(batch.n, end, [&frame[..end], &self.old[end..]].concat());
        let said = batch.check(case, promise, &[]);
        (self.state, self.buffer, self.so_far) = (said.number, said.output, end);
    }

    /// Gives all pieces, the last of them behind the last cut.
    fn pieces(&mut self, batch: &mut Batch, cuts: &[usize]) {
        cuts.iter().for_each(|&end| self.piece_to(batch, end));
        self.piece_to(batch, self.whole());
    }

    /// Decodes the buffer: what is said must be what was said of the frame in one piece.
    fn decode(self, batch: &mut Batch) {
        let Said { number, block, output, .. } = self.sent.said.clone();
        let case = Case { input: self.buffer, ..self.sent.decode.clone() };
        batch.check(case, Promise::Exactly(number, block, output), &[]);
    }

    /// A call that is refused: too long a piece, or a buffer of another length. The next call goes on from what it leaves.
    fn refused(&mut self, batch: &mut Batch) {
        let (whole, random) = (self.whole(), &mut batch.random);
        let missing = whole - self.so_far;
        let (number, piece, bytes) = match random.below(6) {
            0 | 1 => (14, missing + 1, whole),
            2 => (14, missing + random.within(2, whole), whole),
            3 => (2, random.within(0, missing), whole - 1),
            4 => (2, random.within(0, missing + 1), whole + 1),
            _ => (2, random.within(0, missing), 0),
        };
        let mut lent = self.buffer.clone();
        lent.resize(bytes, random.byte());
        let case = Case::receive(self.state, random.bytes(piece), lent);
        let said = refuse(batch, case, number);
        let kept = bytes.min(whole);
        self.buffer[..kept].copy_from_slice(&said.output[..kept]);
        self.state = said.number;
    }

    /// A call that is refused for its state, which is not that of this frame: nobody goes on with what comes back.
    fn refused_state(&mut self, batch: &mut Batch) {
        let (whole, random) = (self.whole(), &mut batch.random);
        let (number, n, bytes) = match random.below(3) {
            0 => (14, batch.n, whole + random.within(1, whole)),
            1 => (1, SHORTEST - 1, self.so_far),
            _ => (1, LONGEST + 1, self.so_far),
        };
        let state = given(State { n, bytes }, random.number() as u16);
        let piece = random.below(3);
        let case = Case::receive(state, random.bytes(piece), take(&mut self.buffer));
        self.buffer = refuse(batch, case, number).output;
    }
}

fn refuse(batch: &mut Batch, case: Case, number: u64) -> Said {
    let promise = Promise::refused(number, &case);
    batch.check(case, promise, &[])
}

/// Places to cut at, rising. Where two are one, or one is an end of the frame, a piece is empty.
fn some_cuts(random: &mut Random, whole: usize) -> Vec<usize> {
    let mut cuts: Vec<usize> = match random.below(3) {
        0 => (0..whole).step_by(random.within(whole / 40, whole)).collect(),
        _ => (0..random.within(1, 30)).map(|_| random.below(whole + 1)).collect(),
    };
    for _ in 0..random.below(6) {
        let again = [0, whole, cuts[random.below(cuts.len())]];
        cuts.push(again[random.below(3)]);
    }
    cuts.sort_unstable();
    cuts
}

/// Every cutting of a frame of 18 rows into two pieces, and into three.
pub fn all_at_18(batch: &mut Batch) {
    if batch.n != SHORTEST {
        return;
    }
    for kind in 0..FRAMES {
        let sent = sent(batch, kind);
        let (old, whole) = (other_than(&mut batch.random, &sent.frame), sent.frame.len());
        let mut cut_at = |cuts: &[usize]| {
            let mut arrival = Arrival::new(SHORTEST, &sent, &old);
            arrival.pieces(batch, cuts);
            arrival.decode(batch);
        };
        for first in 0..=whole {
            cut_at(&[first]);
            (first..=whole).for_each(|second| cut_at(&[first, second]));
        }
    }
}

/// Every cutting into two pieces.
pub fn in_two(batch: &mut Batch) {
    let (n, whole) = (batch.n, square_bytes(batch.n));
    let sent = sent(batch, n);
    let old = other_than(&mut batch.random, &sent.frame);
    let every = if batch.quick && n > 24 { 1 + whole / 8 } else { 1 };
    for cut in (0..=whole).step_by(every) {
        let mut arrival = Arrival::new(n, &sent, &old);
        arrival.pieces(batch, &[cut]);
        if cut % (1 + whole / 4) == 0 {
            arrival.decode(batch);
        }
    }
}

pub fn byte_by_byte(batch: &mut Batch) {
    let (n, whole) = (batch.n, square_bytes(batch.n));
    if batch.quick && n > 24 {
        return;
    }
    let sent = sent(batch, n + 1);
    let old = other_than(&mut batch.random, &sent.frame);
    let mut arrival = Arrival::new(n, &sent, &old);
    arrival.pieces(batch, &(1..whole).collect::<Vec<_>>());
    arrival.decode(batch);
}

/// In one piece, and cut anywhere, with empty pieces.
pub fn anywhere(batch: &mut Batch) {
    let sent = sent(batch, batch.n + 2);
    let old = other_than(&mut batch.random, &sent.frame);
    for index in 0..batch.count {
        let mut arrival = Arrival::new(batch.n, &sent, &old);
        let cuts = if index == 0 { Vec::new() } else { some_cuts(&mut batch.random, arrival.whole()) };
        arrival.pieces(batch, &cuts);
        if index < 2 {
            arrival.decode(batch);
        }
    }
}

/// With refused ones before, between and behind.
pub fn refused_between(batch: &mut Batch) {
    let sent = sent(batch, batch.n + 3);
    let old = other_than(&mut batch.random, &sent.frame);
    for index in 0..batch.count {
        let mut arrival = Arrival::new(batch.n, &sent, &old);
        let mut cuts = some_cuts(&mut batch.random, arrival.whole());
        cuts.push(arrival.whole());
        for end in cuts {
            refused_ones(batch, &mut arrival);
            arrival.piece_to(batch, end);
        }
        refused_ones(batch, &mut arrival);
        arrival.pieces(batch, &[]);
        if index == 0 {
            arrival.decode(batch);
        }
    }
}

fn refused_ones(batch: &mut Batch, arrival: &mut Arrival) {
    for _ in 0..batch.random.below(3) {
        if batch.random.once_in(3) {
            arrival.refused_state(batch);
        } else {
            arrival.refused(batch);
        }
    }
}

/// A frame, or the beginning of one; then, after a reset, another in the same buffer.
pub fn after_reset(batch: &mut Batch) {
    let n = batch.n;
    let (first, second) = (sent(batch, n + 4), sent(batch, n + 5));
    let old = other_than(&mut batch.random, &first.frame);
    for index in 0..batch.count {
        let mut arrival = Arrival::new(n, &first, &old);
        let mut cuts = some_cuts(&mut batch.random, arrival.whole());
        cuts.truncate(batch.random.within(1, cuts.len()));
        if index % 2 == 0 {
            cuts.push(arrival.whole());
        }
        cuts.iter().for_each(|&end| arrival.piece_to(batch, end));
        let (left, state) = (arrival.buffer, arrival.state);
        let mut arrival = Arrival::after_reset(state, &second, &left);
        let cuts = some_cuts(&mut batch.random, left.len());
        arrival.pieces(batch, &cuts);
        if index == 0 {
            arrival.decode(batch);
        }
    }
}
