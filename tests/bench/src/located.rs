//! The time from a word's checks to its answer, apart from the reading of the word.

use crate::timing::Times;
use compare::case::{Case, Entry};
use second::Code;
use shared::division::Places;
use shared::random::Random;
use std::time::Instant;

/// How many places are wrong.
pub const ITEMS: [(usize, &str); 4] = [
    (0, "locate, n = 195, a codeword"),
    (1, "locate, n = 195, one wrong bit"),
    (2, "locate, n = 195, two wrong bits"),
    (4, "locate, n = 195, beyond two"),
];

const N: usize = 195;
/// So many wrong bits are mended.
const MENDED: usize = 2;
/// Timed together, since one is shorter than a clock's tick.
pub const TOGETHER: usize = 1000;

/// Times both sides on the same checks, in microseconds for each. Nothing is given if an answer is wrong.
pub fn time(code: &Code, wrong: usize, warm_up: usize, rounds: usize) -> Option<(Times, Times)> {
    let (mut random, places) = (Random::new(&[7, wrong as u64]), Places::new(N));
    let (mut proved, mut second) = (Vec::new(), Vec::new());
    for round in 0..warm_up + rounds {
        let cases: Vec<Case> = (0..TOGETHER).map(|_| case(&mut random, &places, wrong)).collect();
        if cases.iter().any(|case| case.proved() != case.second(code)) {
            return None;
        }
        let of_proved = || together(&cases, |case, block| case.call_proved(&[], &mut [], block));
        let of_second = || together(&cases, |case, block| case.call_second(code, &mut [], block));
        let ((ours, said), (theirs, also_said)) = if round % 2 == 0 {
            let first = of_proved();
            (first, of_second())
        } else {
            let first = of_second();
            (of_proved(), first)
        };
        // The calls that were timed did their work.
        if said != also_said {
            return None;
        }
        if round >= warm_up {
            proved.push(ours);
            second.push(theirs);
        }
    }
    Some((Times::of(proved), Times::of(second)))
}

/// The checks of a word with so many wrong bits. More than two are drawn until no codeword is within two of the word.
fn case(random: &mut Random, places: &Places, wrong: usize) -> Case {
    loop {
        let checks = places.checks(&random.distinct(wrong, N));
        let beyond = places.wrong(checks / 2, checks % 2 == 1).is_none();
        if beyond == (wrong > MENDED) {
            return Case::new(random, Entry::Locate, N, Vec::new(), 0).with(checks);
        }
    }
}

/// The time of a call, and the sum of the numbers, with the blocks of all calls.
fn together(cases: &[Case], call: impl Fn(&Case, &mut [u8]) -> u64) -> (f64, (u64, Vec<u8>)) {
    let block_bytes = Entry::Locate.block_bytes();
    let mut blocks = vec![0; TOGETHER * block_bytes];
    let start = Instant::now();
    let lent = cases.iter().zip(blocks.chunks_exact_mut(block_bytes));
    let sum = lent.fold(0, |sum: u64, (case, block)| sum.wrapping_add(call(case, block)));
    (start.elapsed().as_secs_f64() * 1e6 / TOGETHER as f64, (sum, blocks))
}
