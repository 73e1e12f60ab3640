//! The bench items of the rules, with the answers that they give.

use crate::batch::Batch;
use crate::case::{Case, Entry, Told};
use crate::promise::Promise;
use shared::bits::{
    bit, bytes_for, clear_spare_bits, flip, flip_at, on_spare_bits, square_bytes, LONGEST, MOST_ALLOWED, SHORTEST,
};

/// The codeword of 18 that is not zero.
const TWELVE_ONES: [u8; 3] = [0xb7, 0xb1, 0xc0];

pub fn items(batch: &mut Batch) {
    if batch.n != SHORTEST {
        return;
    }
    frames(batch);
    data_bit(batch);
    erased(batch);
    ones(batch);
    words(batch);
    edges(batch);
}

fn decode(batch: &mut Batch, allowance: usize, frame: Vec<u8>, counts: [usize; 5], mended: bool) {
    let output = if mended { vec![0; 54] } else { frame.clone() };
    let case = Case::new(&mut batch.random, Entry::Decode, 18, frame, 54).with(allowance);
    batch.check(case, Promise::frame(counts, output), &[]);
}

/// Each at every allowance, with and without spare bits; and each spare bit alone.
fn frames(batch: &mut Batch) {
    let item = |bytes: &[u8]| [bytes, &vec![0; 54 - bytes.len()]].concat();
    let (c, d): (&[u8], &[u8]) = (&[0xff, 0xff, 0xc0, 0xff, 0xff, 0xc0], &[0xe0, 0, 0, 0xe0, 0, 0, 0xe0]);
    // Ten of the twelve ones: pass 1 sets the two others, pass 2 clears all.
    let all = [&[][..], &[0xc0], c, d, &[0, 0, 0x40], &[0x17, 0xb1, 0xc0]];
    for spare in [0, 0x3f] {
        let [a, b, c, d, last, ten] = all.map(item).map(|mut frame| {
            on_spare_bits(18, &mut frame, |byte, mask| *byte |= mask & spare);
            frame
        });
        for allowance in 1..=MOST_ALLOWED {
            decode(batch, allowance, a.clone(), [0; 5], true);
            decode(batch, allowance, b.clone(), [0, 1, 2, 0, 0], true);
            decode(batch, allowance, last.clone(), [0, 1, 1, 0, 0], true);
            let [of_c, of_d, of_ten] = match allowance {
                1 => [[8, 1, 0, 2, 18], [8, 1, 0, 3, 3], [8, 1, 2, 0, 12]],
                _ => [[0, 2, 36, 0, 0], [7, 2, 0, 3, 3], [0, 2, 10, 0, 0]],
            };
            decode(batch, allowance, c.clone(), of_c, allowance > 1);
            decode(batch, allowance, d.clone(), of_d, false);
            decode(batch, allowance, ten.clone(), of_ten, allowance > 1);
        }
    }
    for place in (0..18 * 24).filter(|place| place % 24 >= 18) {
        let mut frame = vec![0; 54];
        flip(&mut frame, place);
        decode(batch, 2, frame.clone(), [0; 5], true);
        let case = Case::new(&mut batch.random, Entry::Read, 18, frame, 1);
        batch.check(case, Promise::data(vec![0]), &[]);
    }
}

/// A frame of ones, spare bits zero or set: at every allowance, and with each code bit zero.
fn erased(batch: &mut Batch) {
    for spare in [0, 0x3f] {
        let frame = [0xff, 0xff, 0xc0 | spare].repeat(18);
        for allowance in 0..=MOST_ALLOWED + 1 {
            let case = Case::new(&mut batch.random, Entry::Decode, 18, frame.clone(), 54).with(allowance);
            batch.check_refused(case, if (1..=MOST_ALLOWED).contains(&allowance) { 10 } else { 4 });
        }
        for place in 0..18 * 18 {
            let mut other = frame.clone();
            flip_at(18, &mut other, place / 18, place % 18);
            decode(batch, 2, other, [7, 2, 0, 18, 18], false);
        }
        let case = Case::new(&mut batch.random, Entry::Read, 18, frame, 1);
        batch.check_refused(case, 10);
    }
}

/// Erased at 256, where the word of ones is a codeword, as where it is none. Only there data of ones has an erased frame.
fn ones(batch: &mut Batch) {
    for n in [256, 255, 254] {
        let frame = vec![0xff; square_bytes(n)];
        let case = Case::new(&mut batch.random, Entry::Decode, n, frame.clone(), frame.len()).with(2);
        batch.check_refused(case, 10);
        let case = Case::new(&mut batch.random, Entry::Read, n, frame, square_bytes(n - 17));
        batch.check_refused(case, 10);
        let mut data = vec![0xff; square_bytes(n - 17)];
        let case = Case::new(&mut batch.random, Entry::Encode, n, data.clone(), square_bytes(n));
        batch.check_refused(case, 5);
        clear_spare_bits(n - 17, &mut data);
        let case = Case::new(&mut batch.random, Entry::Encode, n, data, square_bytes(n));
        if n == LONGEST {
            batch.check_refused(case, 10);
        } else {
            let promise = Promise::encoded(&case);
            batch.check(case, promise, &[]);
        }
    }
}

/// Row i of the frame of data bit 1 is the codeword where its bit i is one.
fn data_bit(batch: &mut Batch) {
    let mut frame = vec![0; 54];
    for i in (0..18).filter(|&i| bit(&TWELVE_ONES, i)) {
        frame[3 * i..3 * i + 3].copy_from_slice(&TWELVE_ONES);
    }
    let case = Case::new(&mut batch.random, Entry::Encode, 18, vec![0x80], 54);
    batch.check(case, Promise::told(Entry::Encode, Told::number(0), frame.clone()), &[]);
    // The long division, too, knows this frame from those beside it.
    batch.divide(&[0x80], &frame, true);
    for place in 0..8 * frame.len() {
        let mut other = frame.clone();
        flip(&mut other, place);
        batch.divide(&[0x80], &other, false);
    }
    let case = Case::new(&mut batch.random, Entry::Read, 18, frame, 1);
    batch.check(case, Promise::data(vec![0x80]), &[]);
}

fn words(batch: &mut Batch) {
    let mut last = vec![0; 3];
    flip(&mut last, 17);
    word(batch, 18, last, Told::places(&[17]), vec![0; 3]);
    word(batch, 18, vec![0xe0, 0, 0], Told::number(9), vec![0xe0, 0, 0]);
    for (n, number) in [(256, 0), (255, 9), (254, 9)] {
        let mut ones = vec![0; bytes_for(n)];
        (0..n).for_each(|place| flip(&mut ones, place));
        word(batch, n, ones.clone(), Told::number(number), ones);
    }
}

fn word(batch: &mut Batch, n: usize, received: Vec<u8>, told: Told, output: Vec<u8>) {
    let bytes = bytes_for(n);
    let case = Case::new(&mut batch.random, Entry::Word, n, received, bytes);
    batch.check(case, Promise::told(Entry::Word, told, output), &[]);
}

/// The first and last n, allowance and length that are accepted, and their neighbours.
fn edges(batch: &mut Batch) {
    let calls = [
        (17, 2, square_bytes(17), 1),
        (18, 2, 54, 0),
        (256, 2, square_bytes(256), 0),
        (257, 2, square_bytes(257), 1),
        (18, 0, 54, 4),
        (18, 1, 54, 0),
        (18, 32, 54, 0),
        (18, 33, 54, 0),
        (18, 200, 54, 0),
        (18, 201, 54, 4),
        (18, 2, 53, 2),
        (18, 2, 55, 2),
    ];
    for (n, allowance, len, number) in calls {
        let case = Case::new(&mut batch.random, Entry::Decode, n, vec![0; len], len);
        let case = case.with(allowance);
        let promise = match number {
            0 => Promise::frame([0; 5], vec![0; len]),
            _ => Promise::refused(number, &case),
        };
        batch.check(case, promise, &[]);
    }
}
