//! Frames in which every pass undoes the one before it.
//!
//! A knot has four rows and four columns. Two rows have wrong bits in all four columns, which a
//! pass over rows makes six, a codeword away; two further rows, of three wrong bits each, see that
//! the four columns are refused. The pass over columns takes the two added columns back.

use crate::batch::Batch;
use crate::promise::Promise;
use shared::bits::{flip_at, MOST_ALLOWED};
use shared::damage;
use shared::division::Places;
use shared::random::Random;
use std::ops::RangeInclusive;

/// So long that many knots fit.
pub const LENGTHS: RangeInclusive<usize> = 200..=256;

/// The first frame of each n has as many knots as fit, and all passes.
pub fn knots(batch: &mut Batch) {
    let n = batch.n;
    if !LENGTHS.contains(&n) {
        return;
    }
    let places = Places::new(n);
    // Each takes six columns, and the last needs some to choose from.
    let most = (n - 40) / 6;
    for index in 0..batch.count {
        let random = &mut batch.random;
        let few = index > 0 && random.once_in(3);
        let knots = if few { random.within(1, most) } else { most };
        let short = index > 0 && random.once_in(3);
        let allowance = if short { random.within(1, MOST_ALLOWED) } else { MOST_ALLOWED };
        let written = batch.write_random().frame;
        let mut received = written.clone();
        tie(&mut batch.random, &places, n, knots, &mut received);
        if batch.random.once_in(4) {
            damage::set_spare_bits(&mut batch.random, n, &mut received);
        }
        let promise = promise(knots, allowance, received.clone());
        let case = batch.decode_case(allowance, received);
        batch.check(case, promise, &written);
    }
}

fn promise(knots: usize, allowance: usize, received: Vec<u8>) -> Promise {
    let (rows, columns) = if allowance % 2 == 1 { (2, 6) } else { (4, 4) };
    // Those that the last pass over rows has added, where none over columns took them back.
    let bits = 4 * knots * (allowance % 2);
    Promise::frame([8, allowance, bits, knots * rows, knots * columns], received)
}

/// Damages a frame by so many knots, no two of which share a row or a column.
fn tie(random: &mut Random, places: &Places, n: usize, knots: usize, frame: &mut [u8]) {
    let (mut rows, mut columns): (Vec<usize>, Vec<usize>) = ((0..n).collect(), (0..n).collect());
    for _ in 0..knots {
        let four_rows = take_refused(random, places, &mut rows);
        let four_columns = take_completed(random, places, &mut columns);
        for (a, &i) in four_rows.iter().enumerate() {
            for (b, &j) in four_columns.iter().enumerate() {
                // The last two rows, and the last two columns, have three wrong bits each.
                if (a, b) != (2, 2) && (a, b) != (3, 3) {
                    flip_at(n, frame, i, j);
                }
            }
        }
    }
}

fn some_four(random: &mut Random, free: &[usize]) -> Vec<usize> {
    let chosen = random.distinct(4, free.len());
    chosen.iter().map(|&index| free[index]).collect()
}

/// Takes four places with no codeword within two.
fn take_refused(random: &mut Random, places: &Places, free: &mut Vec<usize>) -> Vec<usize> {
    loop {
        let four = some_four(random, free);
        if places.other_two(&four).is_none() {
            free.retain(|place| !four.contains(place));
            return four;
        }
    }
}

/// Takes four places and the two more that make a codeword; gives the four.
fn take_completed(random: &mut Random, places: &Places, free: &mut Vec<usize>) -> Vec<usize> {
    loop {
        let four = some_four(random, free);
        if let Some((fifth, sixth)) = places.other_two(&four) {
            if free.contains(&fifth) && free.contains(&sixth) {
                let two = [fifth, sixth];
                free.retain(|place| !four.contains(place) && !two.contains(place));
                return four;
            }
        }
    }
}
