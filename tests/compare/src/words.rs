//! Single words.

use crate::batch::Batch;
use crate::case::{Case, Entry, Told};
use crate::promise::Promise;
use shared::bits::{bit, bytes_for, flip, ones, spare_mask, xor, CHECK_BITS, LONGEST, SHORTEST};
use shared::division::Places;

fn case(batch: &mut Batch, n: usize, received: Vec<u8>) -> Case {
    Case::new(&mut batch.random, Entry::Word, n, received, bytes_for(n))
}

/// Checks a codeword with the bits at `wrong` flipped, and with these spare bits.
fn check_damaged(batch: &mut Batch, written: &[u8], wrong: &[usize], spare: u8) {
    let mut received = written.to_vec();
    wrong.iter().for_each(|&place| flip(&mut received, place));
    received[written.len() - 1] |= spare & spare_mask(batch.n);
    let case = case(batch, batch.n, received);
    let promise = Promise::of_word(&case, written, wrong);
    batch.check(case, promise, written);
}

/// A random codeword, or the one whose data is all zero or all ones.
fn some_codeword(batch: &mut Batch) -> Vec<u8> {
    let bytes = bytes_for(batch.n - CHECK_BITS);
    let data = match batch.random.below(6) {
        0 => vec![0; bytes],
        1 => vec![0xff; bytes],
        _ => batch.random.bytes(bytes),
    };
    batch.write_word(batch.n, data)
}

/// This batch's share of all words of 18. There are two codewords, both known from the rules.
pub fn all_at_18(batch: &mut Batch) {
    let lengths = LONGEST - SHORTEST + 1;
    for number in (batch.n - SHORTEST..1 << 18).step_by(lengths) {
        let mut received = vec![(number >> 10) as u8, (number >> 2) as u8, (number << 6) as u8];
        let near = [[0; 3], [0xb7, 0xb1, 0xc0]].map(|codeword| {
            let mut damage = received.clone();
            xor(&mut damage, &codeword);
            (ones(&damage), damage, codeword)
        });
        if batch.random.once_in(4) {
            received[2] |= batch.random.byte() & spare_mask(18);
        }
        let case = case(batch, 18, received);
        let promise = match near.iter().find(|(distance, ..)| *distance <= 2) {
            Some((_, damage, codeword)) => {
                let wrong: Vec<usize> = (0..18).filter(|&place| bit(damage, place)).collect();
                Promise::of_word(&case, codeword, &wrong)
            }
            None => Promise::no_codeword(&case),
        };
        batch.check(case, promise, &[]);
    }
}

/// One codeword, with every one and every two places wrong.
pub fn every_place(batch: &mut Batch) {
    let n = batch.n;
    let data = batch.random.bytes(bytes_for(n - CHECK_BITS));
    let written = batch.write_word(n, data);
    for first in 0..n {
        check_damaged(batch, &written, &[first], 0);
        if batch.quick && n > 40 {
            continue;
        }
        for second in first + 1..n {
            check_damaged(batch, &written, &[first, second], 0);
        }
    }
}

pub fn up_to_five(batch: &mut Batch) {
    for index in 0..batch.count {
        let written = some_codeword(batch);
        let wrong = batch.random.distinct(index % 6, batch.n);
        check_damaged(batch, &written, &wrong, 0);
    }
}

/// A codeword of 256 with one to three ones among the places that are cut away, and perhaps wrong
/// bits in the rest, cut to n bits. It lies within three of that codeword, so that no codeword
/// without those ones lies within two of it.
pub fn cut_away(batch: &mut Batch) {
    let n = batch.n;
    let cut = LONGEST - n;
    if cut == 0 {
        return;
    }
    for _ in 0..batch.count {
        let (away, wrong) = [(1, 0), (2, 0), (3, 0), (1, 1), (1, 2), (2, 1)][batch.random.below(6)];
        let mut data = batch.random.bytes(bytes_for(LONGEST - CHECK_BITS));
        for place in 0..cut {
            if bit(&data, place) {
                flip(&mut data, place);
            }
        }
        for place in batch.random.distinct(away.min(cut), cut) {
            flip(&mut data, place);
        }
        let whole = batch.write_word(LONGEST, data);
        let mut received = vec![0; bytes_for(n)];
        for place in (0..n).filter(|place| bit(&whole, cut + place)) {
            flip(&mut received, place);
        }
        for place in batch.random.distinct(wrong, n) {
            flip(&mut received, place);
        }
        let case = case(batch, n, received);
        let promise = Promise::no_codeword(&case);
        batch.check(case, promise, &[]);
    }
}

/// The word of n ones, and those of ones but one. That of 256 ones is a codeword: a word is never erased.
pub fn of_ones(batch: &mut Batch) {
    let n = batch.n;
    let places = Places::new(n);
    for zero in (0..n).map(Some).chain([None]) {
        let ones: Vec<usize> = (0..n).filter(|&place| Some(place) != zero).collect();
        let mut word = vec![0; bytes_for(n)];
        ones.iter().for_each(|&place| flip(&mut word, place));
        let near = places.near(&ones);
        near.iter().flatten().for_each(|&place| flip(&mut word, place));
        for spare in [0, 0xff, batch.random.byte()] {
            match &near {
                Some(wrong) => check_damaged(batch, &word, wrong, spare),
                None => check_beyond(batch, &word, spare),
            }
        }
    }
}

fn check_beyond(batch: &mut Batch, word: &[u8], spare: u8) {
    let mut received = word.to_vec();
    received[word.len() - 1] |= spare & spare_mask(batch.n);
    let case = case(batch, batch.n, received);
    let promise = Promise::no_codeword(&case);
    batch.check(case, promise, &[]);
}

/// Random bytes, and words of ones with some zeros.
pub fn random(batch: &mut Batch) {
    let n = batch.n;
    for _ in 0..batch.count {
        let mut received = batch.random.bytes(bytes_for(n));
        if batch.random.once_in(8) {
            received = vec![0xff; bytes_for(n)];
            let zeros = batch.random.below(4);
            for place in batch.random.distinct(zeros, n) {
                flip(&mut received, place);
            }
        }
        let case = case(batch, n, received);
        batch.check(case, Promise::None, &[]);
    }
}

/// One of so many checks is tried at each n: an odd number, so that both parities come.
const ONE_IN: usize = 15;

/// As many as are tried at least.
pub const CHECKS: u64 = ((1 << CHECK_BITS) / ONE_IN) as u64;

/// Checks from a random one on, at equal steps; and what no checks are.
pub fn checks(batch: &mut Batch) {
    let (n, every) = (batch.n, if batch.quick { 1025 } else { ONE_IN });
    let places = Places::new(n);
    for checks in (batch.random.below(every)..1 << CHECK_BITS).step_by(every) {
        let wrong = places.wrong(checks / 2, checks % 2 == 1);
        let told = wrong.map_or(Told::number(9), |wrong| Told::places(&wrong));
        check_located(batch, n, checks, told);
    }
    for checks in [1 << CHECK_BITS, 1 << 31, u32::MAX as usize] {
        check_located(batch, n, checks, Told::number(2));
    }
    for n in [0, SHORTEST - 1, LONGEST + 1, usize::MAX] {
        check_located(batch, n, 1, Told::number(1));
    }
}

fn check_located(batch: &mut Batch, n: usize, checks: usize, told: Told) {
    let case = Case::new(&mut batch.random, Entry::Locate, n, Vec::new(), 0).with(checks);
    batch.check(case, Promise::told(Entry::Locate, told, Vec::new()), &[]);
}

pub fn spare_bits(batch: &mut Batch) {
    for index in 0..batch.count {
        let written = some_codeword(batch);
        let wrong = batch.random.distinct(index % 4, batch.n);
        let spare = if batch.random.once_in(4) { 0xff } else { batch.random.byte() | 1 };
        check_damaged(batch, &written, &wrong, spare);
    }
}
