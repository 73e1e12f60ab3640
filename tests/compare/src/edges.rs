//! Frames at the edges: counts at their greatest, damage that just can be mended or just can't, and single bits.

use crate::batch::Batch;
use crate::promise::Promise;
use shared::bits::{flip_at, has_spare_bits, on_spare_bits, row_mut, square_bytes, CHECK_BITS, MOST_ALLOWED};
use shared::damage;

/// Decodes a frame: the answer, as its five counts, and the output must be these.
fn decode(batch: &mut Batch, allowance: usize, received: &[u8], counts: [usize; 5], output: &[u8]) {
    let case = batch.decode_case(allowance, received.to_vec());
    batch.check(case, Promise::frame(counts, output.to_vec()), &[]);
}

/// Three wrong bits in every row and column. Such a word has no codeword within two: codewords differ in at least 6 places.
pub fn all_words_bad(batch: &mut Batch) {
    let n = batch.n;
    let mut received = batch.write_random().frame;
    (0..3 * n).for_each(|place| flip_at(n, &mut received, place / 3, (place / 3 + place % 3) % n));
    decode(batch, 1, &received, [8, 1, 0, n, n], &received);
    for allowance in (2..=MOST_ALLOWED).step_by(33) {
        decode(batch, allowance, &received, [7, 2, 0, n, n], &received);
    }
}

pub fn two_in_every_row(batch: &mut Batch) {
    let n = batch.n;
    let written = batch.write_random().frame;
    let mut received = written.clone();
    for i in 0..n {
        batch.random.distinct(2, n).into_iter().for_each(|j| flip_at(n, &mut received, i, j));
    }
    for allowance in [1, MOST_ALLOWED] {
        decode(batch, allowance, &received, [0, 1, 2 * n, 0, 0], &written);
    }
}

/// Bands of wrong bits: the widest that n has room for, at the least allowance that mends it and at one less; and two others.
pub fn bands(batch: &mut Batch) {
    let (n, widest) = (batch.n, batch.n - 2);
    let passes = passes_of(widest);
    let other = (batch.random.within(1, widest), batch.random.within(1, passes));
    let greatest = (batch.random.within(1, widest), MOST_ALLOWED);
    for (rows, allowance) in [(widest, passes), (widest, passes - 1), other, greatest] {
        let written = batch.write_random().frame;
        let mut received = written.clone();
        (0..3 * rows).for_each(|place| flip_at(n, &mut received, place / 3, place / 3 + place % 3));
        let counts = of_band(rows, allowance);
        decode(batch, allowance, &received, counts, if counts[0] == 0 { &written } else { &received });
    }
}

/// How many mend a band of so many rows.
fn passes_of(rows: usize) -> usize {
    rows / 2 + 1 + rows % 2
}

/// Row i of `rows` rows has the wrong bits i, i + 1 and i + 2. Only the outer two columns on either side have less than three.
/// Pass 2 mends them, pass 3 the outer two rows on either side, and so on: after pass 2 p + 1 a band of rows - 4 p is left.
fn of_band(rows: usize, allowance: usize) -> [usize; 5] {
    let passes = passes_of(rows);
    if allowance >= passes {
        return [0, passes, 3 * rows, 0, 0];
    }
    let left = rows - 4 * ((allowance - 1) / 2);
    match allowance % 2 {
        1 => [8, allowance, 3 * (rows - left), left, left + 2],
        // The columns that have three wrong bits still.
        _ => [8, allowance, 3 * (rows - left + 2), left, left - 2],
    }
}

/// Two rows flipped, emptied or filled; two columns flipped; eight wrong bits, hard for rows and for columns; two spoiled rows with
/// two wrong bits in each other; and as many wrong bits as the promise allows.
pub fn just_mended(batch: &mut Batch) {
    let n = batch.n;
    for kind in 0..6 {
        let written = batch.write_random().frame;
        let mut received = written.clone();
        let (lines, left) = (batch.random.distinct(2, n), batch.random.below(n - 5));
        match kind {
            0 => (0..2 * n).for_each(|place| flip_at(n, &mut received, lines[place % 2], place / 2)),
            1 => {
                row_mut(n, &mut received, lines[0]).fill(0);
                batch.random.fill(row_mut(n, &mut received, lines[1]));
            }
            2 => (0..2 * n).for_each(|place| flip_at(n, &mut received, place / 2, lines[place % 2])),
            3 => (0..8).for_each(|e| flip_at(n, &mut received, lines[0].min(n - 3) + e / 3, left + e % 3)),
            4 => {
                for i in 0..n {
                    flip_at(n, &mut received, i, left + batch.random.below(2));
                    flip_at(n, &mut received, i, left + 2 + batch.random.below(2));
                    flip_at(n, &mut received, lines[0], i);
                    flip_at(n, &mut received, lines[1], batch.random.below(n));
                }
            }
            _ => damage::most_of_class(n, &mut received, [lines[0], lines[1]]),
        }
        let allowance = if kind == 4 { batch.random.within(2, MOST_ALLOWED) } else { 2 };
        let case = batch.decode_case(allowance, received);
        let promise = Promise::within_the_class(&case, &written);
        batch.check(case, promise, &written);
    }
}

/// A written frame with one wrong bit, or with all rows codewords and not all columns, or the other way round, can't be read;
/// with its spare bits set it can.
pub fn unreadable(batch: &mut Batch) {
    let n = batch.n;
    let mut data = vec![0; square_bytes(n - CHECK_BITS)];
    data[0] = 0x80;
    let written = batch.write(data.clone()).frame;
    let mut places = vec![0, n * n - 1];
    places.extend(
        (0..if n == 18 { n * n } else { 6 }).map(|place| if n == 18 { place } else { batch.random.below(n * n) }),
    );
    let mut read = |frame: Vec<u8>, good: bool| {
        let case = batch.read_case(frame);
        let promise = if good { Promise::data(data.clone()) } else { Promise::refused(6, &case) };
        batch.check(case, promise, &written);
    };
    for place in places {
        let mut frame = written.clone();
        flip_at(n, &mut frame, place / n, place % n);
        read(frame, false);
    }
    let (mut rows, mut columns, mut spare) = (vec![0; written.len()], written.clone(), written.clone());
    let width = written.len() / n;
    rows[..width].copy_from_slice(&written[..width]);
    columns.iter_mut().enumerate().for_each(|(at, byte)| *byte &= if at % width == 0 { 0x80 } else { 0 });
    on_spare_bits(n, &mut spare, |byte, mask| *byte |= mask);
    [(rows, false), (columns, false), (spare, true)].into_iter().for_each(|(frame, good)| read(frame, good));
}

/// Data in which one spare bit alone is set.
pub fn each_spare_bit(batch: &mut Batch) {
    let (n, k) = (batch.n, batch.n - CHECK_BITS);
    if ![18, 19, 24, 26, 31, 32, 195, 255, 256].contains(&n) {
        return;
    }
    let data = batch.write_random().data;
    for place in (0..8 * data.len()).filter(|place| place % (8 * (data.len() / k)) >= k) {
        let mut spoiled = data.clone();
        spoiled[place / 8] ^= 0x80 >> (place % 8);
        assert!(has_spare_bits(k, &spoiled));
        let case = batch.encode_case(spoiled);
        batch.check_refused(case, 5);
    }
}
