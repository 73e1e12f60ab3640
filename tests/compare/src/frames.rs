//! Decoding of whole frames.

use crate::batch::{Batch, Kind};
use crate::kinds::{kind, whole};
use crate::promise::Promise;
use second::Code;
use shared::bits::{row_mut, square_bytes, MOST_ALLOWED};
use shared::chain::{Chain, SHORTEST_CHAIN, SPENT_CHAIN};
use shared::damage;
use shared::division::Places;
use shared::random::Random;
use shared::written::{self, add_crossings, six_places};

type Allowance = fn(&mut Random) -> usize;

/// All that are permitted. The small ones, up to 32, come more often, and so do those at the edges of both ranges.
fn allowance(random: &mut Random) -> usize {
    const EDGES: [usize; 6] = [1, 2, 32, 33, MOST_ALLOWED - 1, MOST_ALLOWED];
    match random.below(20) {
        0..=9 => random.within(1, 4),
        10..=15 => random.within(5, 8),
        16..=17 => random.within(9, 32),
        18 => EDGES[random.below(EDGES.len())],
        _ => random.within(1, MOST_ALLOWED),
    }
}

/// What spoils a written frame of n rows.
type Damage = fn(&Code, &mut Random, usize, &mut [u8]);

/// A kind of `count` written frames for every n, each after `damage`, with allowances from `allowance`.
fn allowed(name: &'static str, count: usize, answers: &'static str, allowance: Allowance, damage: Damage) -> Kind {
    kind(name, count, answers, move |batch| {
        for _ in 0..batch.count {
            let written = batch.write_random().frame;
            let mut received = written.clone();
            damage(batch.code, &mut batch.random, batch.n, &mut received);
            if batch.random.once_in(4) {
                damage::set_spare_bits(&mut batch.random, batch.n, &mut received);
            }
            let allowance = allowance(&mut batch.random);
            let case = batch.decode_case(allowance, received);
            let promise = Promise::of_frame(&case, &written);
            batch.check(case, promise, &written);
        }
    })
}

fn spoiled(name: &'static str, count: usize, answers: &'static str, damage: Damage) -> Kind {
    allowed(name, count, answers, allowance, damage)
}

/// So many wrong bits more, once in three.
fn perhaps(random: &mut Random, n: usize, frame: &mut [u8], wrong: usize) {
    if random.once_in(3) {
        damage::wrong_bits(random, n, frame, wrong);
    }
}

const THREE: &str = "Repaired Stuck Spent";

/// Damage as flash and cable do it: rows, columns, and what comes after a torn write.
pub fn whole_lines() -> Vec<Kind> {
    vec![
        spoiled("frames, whole rows", 40, THREE, |_, random, n, frame| {
            let (count, loss) = (random.within(1, 4), damage::loss(random));
            random.distinct(count, n).into_iter().for_each(|i| damage::lose_row(random, n, frame, i, loss));
            perhaps(random, n, frame, 3);
        }),
        spoiled("frames, whole columns", 40, THREE, |_, random, n, frame| {
            let (count, loss) = (random.within(1, 4), damage::loss(random));
            random.distinct(count, n).into_iter().for_each(|j| damage::lose_column(random, n, frame, j, loss));
            perhaps(random, n, frame, 3);
        }),
        spoiled("frames, crossings of rows and columns", 48, THREE, |_, random, n, frame| {
            let (rows, columns) = (random.within(2, 4), random.within(2, 4));
            damage::crossing(random, n, frame, rows, columns);
            perhaps(random, n, frame, 3);
        }),
        spoiled("frames, torn", 40, THREE, |_, random, n, frame| damage::tear(random, n, frame)),
    ]
}

/// Damage likewise: bits here and there.
pub fn scattered() -> Vec<Kind> {
    const PER_MILLE: [usize; 12] = [1, 4, 8, 12, 16, 20, 25, 30, 40, 60, 150, 500];
    vec![
        spoiled("frames, clean", 16, "Clean", |_, _, _, _| {}),
        spoiled("frames, one wrong bit", 24, "RepairedInOne", |_, random, n, frame| {
            damage::wrong_bits(random, n, frame, 1);
        }),
        spoiled("frames, a few wrong bits", 48, THREE, |_, random, n, frame| {
            let count = random.within(2, 60);
            damage::wrong_bits(random, n, frame, count);
        }),
        spoiled("frames, bursts", 32, THREE, |_, random, n, frame| {
            for _ in 0..random.within(1, 4) {
                let length = random.within(1, 2 * n);
                damage::burst(random, n, frame, length);
            }
        }),
        spoiled("frames, noise", 24, THREE, |_, random, n, frame| {
            let per_mille = PER_MILLE[random.below(PER_MILLE.len())];
            damage::noise(random, n, frame, per_mille);
        }),
        kind("frames, random bytes", 16, "Stuck Spent", random_bytes),
        spoiled("frames, spare bits set", 24, "Clean Repaired", |_, random, n, frame| {
            let wrong = random.below(12);
            damage::wrong_bits(random, n, frame, wrong);
            damage::set_spare_bits(random, n, frame);
        }),
    ]
}

/// Damage made to lead the decoder somewhere.
pub fn made() -> Vec<Kind> {
    let two_or_more: Allowance = |random| random.within(2, MOST_ALLOWED);
    vec![
        // Up to two rows of anything, up to two wrong bits in each other row.
        allowed(
            "frames, within the class",
            48,
            "Clean RepairedInOne RepairedInTwo",
            two_or_more,
            |_, random, n, frame| {
                damage::few_in_each_row(random, n, frame);
                let lost = random.within(0, 2);
                for i in random.distinct(lost, n) {
                    let loss = damage::loss(random);
                    damage::lose_row(random, n, frame, i, loss);
                }
            },
        ),
        // One to three rows.
        spoiled("frames, rows that are other codewords", 40, "RepairedInTwo Stuck Spent", |code, random, n, frame| {
            let count = random.within(1, 3);
            for i in random.distinct(count, n) {
                row_mut(n, frame, i).copy_from_slice(&written::codeword(code, random, n));
            }
            perhaps(random, n, frame, 2);
        }),
        spoiled("frames, rows of another frame", 32, "Clean Repaired Stuck Spent", |code, random, n, frame| {
            let other = written::frame(code, random, n).frame;
            damage::mix_rows(random, n, frame, &other);
        }),
    ]
}

/// Damage made of codewords with just six ones, and chains, sometimes beside three rows and columns that nothing mends.
pub fn tied() -> Vec<Kind> {
    let mostly_all: Allowance = |random| if random.once_in(2) { MOST_ALLOWED } else { random.within(1, MOST_ALLOWED) };
    vec![
        allowed(
            "frames, chains that take many passes",
            8,
            "RepairedLate StuckLate Spent",
            mostly_all,
            |_, random, n, frame| {
                let most = if random.once_in(8) { 2 * n - 8 } else { (2 * n - 8).min(72) };
                let length = random.within(6, most);
                damage::chain(random, n, frame, length);
                if random.once_in(3) {
                    damage::crossing(random, n, frame, 3, 3);
                }
            },
        ),
        whole("frames, one word freed a pass", 4 * 334, "Repaired RepairedLate Spent", chains),
        Kind {
            lengths: 31..=256,
            least: 8 * 226,
            ..kind("frames, sixteen bits of another frame", 8, "WronglyRepaired Spent", sixteen_bits)
        },
    ]
}

/// Chains, each at the least allowance that repairs it, at one less, and at two others. Of each n one that goes with it, and of
/// some the longest that has room; of all n together every length, up to one that no allowance repairs.
fn chains(batch: &mut Batch) {
    let n = batch.n;
    let (places, longest) = (Places::new(n), SPENT_CHAIN.min(2 * n));
    let mut lengths = vec![SHORTEST_CHAIN + n % (longest - SHORTEST_CHAIN + 1)];
    if longest < SPENT_CHAIN || n % 16 == 0 {
        lengths.push(longest);
    }
    for length in lengths {
        let chain = Chain::new(&mut batch.random, &places, n, length);
        let enough = chain.passes().min(MOST_ALLOWED);
        let others = [MOST_ALLOWED, batch.random.within(1, enough)];
        let allowances = [enough, enough - 1].into_iter().chain(others);
        for allowance in allowances.take(if batch.quick { 2 } else { 4 }) {
            let written = batch.write_random().frame;
            let mut received = written.clone();
            chain.spoil(&mut received);
            let counts = chain.decoded(allowance);
            let output = if counts[0] == 0 { written.clone() } else { received.clone() };
            let case = batch.decode_case(allowance, received);
            batch.check(case, Promise::frame(counts, output), &written);
        }
    }
}

/// Random bytes, and one byte everywhere.
fn random_bytes(batch: &mut Batch) {
    for _ in 0..batch.count {
        let mut received = batch.random.bytes(square_bytes(batch.n));
        if batch.random.once_in(8) {
            received = vec![batch.random.byte(); square_bytes(batch.n)];
        }
        let allowance = allowance(&mut batch.random);
        let case = batch.decode_case(allowance, received);
        batch.check(case, Promise::None, &[]);
    }
}

/// Another frame differs from the written one at the crossings of six rows and six columns. Of
/// these four and four are wrong: pass 1 completes the rows, pass 2 the columns, and the frame is
/// repaired to that other one.
fn sixteen_bits(batch: &mut Batch) {
    let n = batch.n;
    let places = Places::new(n);
    for _ in 0..batch.count {
        let lines = (six_places(&places, &mut batch.random, n), six_places(&places, &mut batch.random, n));
        let (rows, columns) = match lines {
            (Some(rows), Some(columns)) => (rows, columns),
            _ => return,
        };
        let written = batch.write_random().frame;
        let (mut received, mut other) = (written.clone(), written.clone());
        add_crossings(n, &mut received, &rows[..4], &columns[..4]);
        add_crossings(n, &mut other, &rows, &columns);
        let allowance = allowance(&mut batch.random);
        let case = batch.decode_case(allowance, received.clone());
        let promise = if allowance == 1 {
            Promise::frame([8, 1, 8, 0, 6], received)
        } else {
            Promise::frame([0, 2, 20, 0, 0], other)
        };
        batch.check(case, promise, &written);
    }
}
