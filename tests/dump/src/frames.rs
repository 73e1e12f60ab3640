//! Records of a dump: good by their form, whatever becomes of them.

use crate::job::REPAIR;
use crate::records::{bad_bytes, bad_n, length, number, Maker};
use crate::text::{Expect, Line};
use shared::bits::{clear_spare_bits, flip_at, follows, on_spare_bits, row_mut, square_bytes, Follows, MOST_ALLOWED};
use shared::chain::{Chain, SHORTEST_CHAIN, SPENT_CHAIN};
use shared::damage;
use shared::division::Places;
use shared::random::Random;
use shared::score::hex;
use shared::written::{add_crossings, full_frame};

pub fn text(number: usize, n: usize, allowance: usize, frame: &[u8]) -> Vec<u8> {
    format!("{}\t{}\t{}\t{}", number, n, allowance, hex(frame)).into()
}

fn allowance(random: &mut Random) -> usize {
    match random.below(8) {
        0..=5 => random.within(1, 6),
        6 => random.within(1, MOST_ALLOWED),
        _ => [1, 2, 32, 33, MOST_ALLOWED][random.below(5)],
    }
}

/// A frame as it was written, of random data.
pub fn written(maker: &mut Maker, n: usize) -> Vec<u8> {
    full_frame(maker.code, &mut maker.random, n).frame
}

/// The record of a frame that was `written`, and what follows from its rows' wrong bits, or since all of them are ones.
fn received(maker: &mut Maker, n: usize, written: &[u8], mut frame: Vec<u8>) -> Line {
    if maker.random.once_in(4) {
        let random = &mut maker.random;
        on_spare_bits(n, &mut frame, |byte, mask| *byte |= mask & random.byte());
    }
    let (number, allowance) = (number(&mut maker.random), allowance(&mut maker.random));
    let text = text(number, n, allowance, &frame);
    match follows(n, allowance, written, &frame) {
        Follows::Erased => Line::says(text, number, "erased 0 0 0 0"),
        Follows::Clean => Line::says(text, number, "clean 0 0 0 0"),
        Follows::OnePass(wrong) => Line::says(text, number, &format!("repaired 1 {} 0 0", wrong)),
        Follows::TwoPasses(wrong) => Line::says(text, number, &format!("repaired 2 {} 0 0", wrong)),
        Follows::Nothing => Line { text, expect: Expect::Ended { number, allowance } },
    }
}

fn clean(maker: &mut Maker, n: usize) -> Line {
    let frame = written(maker, n);
    received(maker, n, &frame, frame.clone())
}

/// Up to two wrong bits in each row, and up to two rows of anything.
fn within_promise(maker: &mut Maker, n: usize) -> Line {
    let frame = written(maker, n);
    let mut damaged = frame.clone();
    let random = &mut maker.random;
    damage::few_in_each_row(random, n, &mut damaged);
    let lost = random.within(0, 2);
    for i in random.distinct(lost, n) {
        let row = row_mut(n, &mut damaged, i);
        random.fill(row);
    }
    received(maker, n, &frame, damaged)
}

/// Wrong bits anywhere, or all crossings of some rows and columns.
fn past_promise(maker: &mut Maker, n: usize) -> Line {
    let frame = written(maker, n);
    let mut damaged = frame.clone();
    let random = &mut maker.random;
    if random.once_in(2) {
        let count = random.within(1, 5 * n);
        damage::wrong_bits(random, n, &mut damaged, count);
    } else {
        let (rows, columns) = (random.within(3, 6), random.within(3, 6));
        let (rows, columns) = (random.distinct(rows, n), random.distinct(columns, n));
        add_crossings(n, &mut damaged, &rows, &columns);
    }
    received(maker, n, &frame, damaged)
}

fn random_frame(maker: &mut Maker, n: usize) -> Line {
    let frame = maker.random.bytes(square_bytes(n));
    let (number, allowance) = (number(&mut maker.random), allowance(&mut maker.random));
    Line { text: text(number, n, allowance, &frame), expect: Expect::Ended { number, allowance } }
}

/// n rows of n ones, spare bits zero, set or at random.
fn ones(random: &mut Random, n: usize) -> Vec<u8> {
    let mut frame = vec![0xff; square_bytes(n)];
    match random.below(3) {
        0 => clear_spare_bits(n, &mut frame),
        1 => on_spare_bits(n, &mut frame, |byte, mask| *byte &= !mask | random.byte()),
        _ => {}
    }
    frame
}

/// Erased; or ones at a bad allowance, or all ones but one bit, which are not.
fn erased(maker: &mut Maker, n: usize) -> Line {
    let random = &mut maker.random;
    let (number, good, mut frame) = (number(random), allowance(random), ones(random, n));
    match random.below(4) {
        0 => {
            let bad = [0, MOST_ALLOWED + 1, 999_999_999][random.below(3)];
            Line::refused(&REPAIR, text(number, n, bad, &frame), number, 4)
        }
        1 => {
            flip_at(n, &mut frame, random.below(n), [random.below(n), n - 1][random.below(2)]);
            Line { text: text(number, n, good, &frame), expect: Expect::Ended { number, allowance: good } }
        }
        _ => Line::says(text(number, n, good, &frame), number, "erased 0 0 0 0"),
    }
}

/// A chain, which each pass frees of one word: repaired, or spent.
fn chained(maker: &mut Maker, n: usize) -> Line {
    let mut frame = written(maker, n);
    let random = &mut maker.random;
    let length = random.within(SHORTEST_CHAIN, SPENT_CHAIN.min(2 * n));
    let chain = Chain::new(random, &Places::new(n), n, length);
    chain.spoil(&mut frame);
    let enough = chain.passes().min(MOST_ALLOWED);
    let allowance = [enough, enough - 1, MOST_ALLOWED, random.within(1, enough)][random.below(4)];
    let [why, passes, bits, rows, columns] = chain.decoded(allowance);
    let ending = if why == 0 { "repaired" } else { "spent" };
    let number = number(random);
    let said = format!("{} {} {} {} {}", ending, passes, bits, rows, columns);
    Line::says(text(number, n, allowance, &frame), number, &said)
}

pub fn any(maker: &mut Maker, n: usize) -> Line {
    match maker.random.below(10) {
        0 | 1 => clean(maker, n),
        2..=4 => within_promise(maker, n),
        5 | 6 => past_promise(maker, n),
        7 => erased(maker, n),
        8 => chained(maker, n),
        _ => random_frame(maker, n),
    }
}

/// Clean, or within the promise.
pub fn good(maker: &mut Maker, n: usize) -> Line {
    match maker.random.below(2) {
        0 => clean(maker, n),
        _ => within_promise(maker, n),
    }
}

pub fn each_sort(maker: &mut Maker, n: usize) -> Vec<Line> {
    let sorts = [clean, within_promise, past_promise, chained, random_frame, erased];
    sorts.map(|sort| sort(maker, n)).to_vec()
}

/// A record that is refused: by its n, its length or its allowance. Some of the numbers would do if
/// their upper bits were lost.
pub fn refused(maker: &mut Maker) -> Line {
    let random = &mut maker.random;
    let (record, length) = (number(random), length(random));
    let good = square_bytes(length);
    let (why, n, allowance, bytes) = match random.below(3) {
        0 => {
            let (n, bytes) = bad_n(random, length, good);
            (1, n, any_allowance(random), bytes)
        }
        1 => (2, length, any_allowance(random), bad_bytes(random, &REPAIR, length)),
        _ => {
            let lost_bits = 2 + (256 << (8 * random.below(3)));
            let few = [0, MOST_ALLOWED + 1, MOST_ALLOWED + 2, 255, lost_bits, 999_999_999];
            (4, length, few[random.below(6)], good)
        }
    };
    let frame = random.bytes(bytes);
    Line::refused(&REPAIR, text(record, n, allowance, &frame), record, why)
}

fn any_allowance(random: &mut Random) -> usize {
    [0, 1, 2, MOST_ALLOWED, MOST_ALLOWED + 1, 999_999_999][random.below(6)]
}
