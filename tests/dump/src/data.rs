//! Records of data to be written: good by their form, whatever becomes of them.

use crate::job::WRITE;
use crate::records::{self, bad_bytes, bad_n, length, most_bytes, number, Maker};
use crate::text::{Expect, Line};
use shared::bits::{clear_spare_bits, flip_at, row_mut, spare_mask, square_bytes, CHECK_BITS, LONGEST};
use shared::random::Random;
use shared::written;

/// The record of data that make a frame.
pub fn taken(number: usize, n: usize, data: Vec<u8>) -> Line {
    Line { text: records::text(&WRITE, number, n, &data), expect: Expect::Frame { number, n, data } }
}

pub fn refused_line(number: usize, n: usize, data: &[u8], why: usize) -> Line {
    Line::refused(&WRITE, records::text(&WRITE, number, n, data), number, why)
}

pub fn good(maker: &mut Maker, n: usize) -> Line {
    let random = &mut maker.random;
    taken(number(random), n, written::data(random, n))
}

/// k rows of k ones: at n = 256 their frame is all ones too.
pub fn all_ones(n: usize) -> Vec<u8> {
    let k = n - CHECK_BITS;
    let mut data = vec![0xff; square_bytes(k)];
    clear_spare_bits(k, &mut data);
    data
}

/// All ones, or all but one.
fn ones(random: &mut Random, n: usize) -> Line {
    let (number, k, mut data) = (number(random), n - CHECK_BITS, all_ones(n));
    match random.below(2) {
        0 if n == LONGEST => refused_line(number, n, &data, 10),
        0 => taken(number, n, data),
        _ => {
            flip_at(k, &mut data, random.below(k), [random.below(k), k - 1][random.below(2)]);
            taken(number, n, data)
        }
    }
}

/// A spare bit of one row is set; at some n there is none.
fn spare(random: &mut Random, n: usize) -> Line {
    let (number, k) = (number(random), n - CHECK_BITS);
    let mut data = if random.once_in(4) { all_ones(n) } else { written::data(random, n) };
    let mask = spare_mask(k);
    if mask == 0 {
        return taken(number, n, data);
    }
    let bit = 1 << random.below(mask.count_ones() as usize);
    *row_mut(k, &mut data, random.below(k)).last_mut().unwrap() |= bit;
    refused_line(number, n, &data, 5)
}

fn wrong_length(random: &mut Random, n: usize) -> Line {
    let number = number(random);
    let bytes = match random.below(8) {
        0 => square_bytes(n).min(most_bytes(&WRITE)), // as a frame has
        _ => bad_bytes(random, &WRITE, n - CHECK_BITS),
    };
    refused_line(number, n, &random.bytes(bytes), 2)
}

pub fn any(maker: &mut Maker, n: usize) -> Line {
    match maker.random.below(8) {
        0..=4 => good(maker, n),
        5 => ones(&mut maker.random, n),
        6 => spare(&mut maker.random, n),
        _ => wrong_length(&mut maker.random, n),
    }
}

pub fn each_sort(maker: &mut Maker, n: usize) -> Vec<Line> {
    let lines = vec![good(maker, n), good(maker, n)];
    let random = &mut maker.random;
    let others = [ones(random, n), ones(random, n), spare(random, n), wrong_length(random, n)];
    lines.into_iter().chain(others).collect()
}

/// A record that is refused: by its n, its length, a spare bit that is set, or since its frame is erased.
pub fn refused(maker: &mut Maker) -> Line {
    let random = &mut maker.random;
    let length = length(random);
    match random.below(30) {
        0..=9 => {
            let (n, bytes) = bad_n(random, length, square_bytes(length - CHECK_BITS));
            refused_line(number(random), n, &random.bytes(bytes), 1)
        }
        10..=19 => wrong_length(random, length),
        // With spare bits at every n.
        20..=28 => spare(random, length - usize::from(spare_mask(length - CHECK_BITS) == 0)),
        _ => refused_line(number(random), LONGEST, &all_ones(LONGEST), 10),
    }
}
