//! Bad arguments, one reason or several at once: the output must stay untouched. And row i of a frame.

use crate::batch::Batch;
use crate::case::{Case, Entry, Told};
use crate::promise::Promise;
use shared::bits::{
    all_ones, bytes_for, has_spare_bits, row as row_of, square_bytes, CHECK_BITS, LONGEST, MOST_ALLOWED, SHORTEST,
};

pub fn encode(batch: &mut Batch) {
    refusals(batch, Entry::Encode);
}

pub fn read(batch: &mut Batch) {
    refusals(batch, Entry::Read);
}

pub fn decode(batch: &mut Batch) {
    refusals(batch, Entry::Decode);
}

pub fn word(batch: &mut Batch) {
    refusals(batch, Entry::Word);
}

/// Values of n that are out of range, some of which are in range if a part of their bits is lost.
fn bad_lengths() -> Vec<usize> {
    let word = u32::MAX as usize;
    let some = [0, 1, 2, 8, 16, 17, 257, 258, 274, 512, 1000, 65535, 65536, 65554, 65792];
    let half = usize::MAX / 2;
    let large = [word, word.wrapping_add(1), word.wrapping_add(19), word.wrapping_add(257), half, half + 1, half + 19];
    let largest = [usize::MAX - 17, usize::MAX - 7, usize::MAX - 6, usize::MAX];
    let all = some.into_iter().chain(large).chain(largest);
    all.filter(|n| !(SHORTEST..=LONGEST).contains(n)).collect()
}

/// The lengths of input and output that n asks for.
pub fn exact(entry: Entry, n: usize) -> (usize, usize) {
    let k = n - CHECK_BITS;
    match entry {
        Entry::Encode => (square_bytes(k), square_bytes(n)),
        Entry::Read => (square_bytes(n), square_bytes(k)),
        Entry::Decode => (square_bytes(n), square_bytes(n)),
        Entry::Word | Entry::Row => (bytes_for(n), bytes_for(n)),
        Entry::Locate => (0, 0),
        // A piece may have any.
        Entry::Receive => (0, square_bytes(n)),
    }
}

/// A length and the wrong ones beside it.
fn around(len: usize, other: usize) -> [usize; 6] {
    [len, len - 1, len + 1, 0, 2 * len, other]
}

/// The first check that applies: for number 11, for 1 to 5, and then for 10.
pub fn refusal(case: &Case) -> Option<u64> {
    if case.block.len() != case.entry.block_bytes() {
        return Some(11);
    }
    if !(SHORTEST..=LONGEST).contains(&case.n) {
        return Some(1);
    }
    let (input, output) = exact(case.entry, case.n);
    let reasons = [
        (2, case.input.len() != input),
        (3, case.output.len() != output),
        (4, case.entry == Entry::Decode && !(1..=MOST_ALLOWED).contains(&case.argument)),
        (5, case.entry == Entry::Encode && has_spare_bits(case.n - CHECK_BITS, &case.input)),
    ];
    let first = reasons.iter().find(|(_, applies)| *applies).map(|&(number, _)| number);
    first.or_else(|| is_erased(case).then_some(10))
}

/// Of a case whose lengths are right. All ones are a frame at n = 256 alone.
fn is_erased(case: &Case) -> bool {
    match case.entry {
        Entry::Decode | Entry::Read => all_ones(case.n, &case.input),
        Entry::Encode => case.n == LONGEST && all_ones(case.n - CHECK_BITS, &case.input),
        Entry::Word | Entry::Row | Entry::Locate | Entry::Receive => false,
    }
}

fn refusals(batch: &mut Batch, entry: Entry) {
    let n = batch.n;
    let (input, output) = exact(entry, n);
    let next = exact(entry, if n < LONGEST { n + 1 } else { n - 1 });
    let allowances = match entry {
        Entry::Decode => {
            let large = [65537, (u32::MAX as usize).wrapping_add(2), usize::MAX / 2 + 1, usize::MAX];
            let most = MOST_ALLOWED;
            [&[1, 2, 32, most, 0, 33, most + 1, most + 2, 256, 257, 258, 256 + most], &large[..]].concat()
        }
        _ => vec![0],
    };
    for input in around(input, next.0) {
        for output in around(output, next.1) {
            for &allowance in &allowances {
                check(batch, entry, n, (input, output), allowance);
            }
        }
    }
    for bad in bad_lengths() {
        // Those of this n, none, and those that the bad n would ask for.
        let own = if (18..300).contains(&bad) { exact(entry, bad) } else { (0, 0) };
        for lengths in [(input, output), (input, 0), (0, output), own] {
            for &allowance in &allowances {
                check(batch, entry, bad, lengths, allowance);
            }
        }
    }
}

/// Checks random bytes of these lengths. Where the lengths are right, most data has spare bits, and what should be a frame is
/// none.
fn check(batch: &mut Batch, entry: Entry, n: usize, lengths: (usize, usize), allowance: usize) {
    let input = batch.random.bytes(lengths.0);
    let case = Case::new(&mut batch.random, entry, n, input, lengths.1).with(allowance);
    let promise = refusal(&case).map_or(Promise::None, |number| Promise::refused(number, &case));
    batch.check(case, promise, &[]);
}

/// Lent blocks of another length than the entry point asks for, whatever else is good or bad.
pub fn block_of_decode(batch: &mut Batch) {
    let (good, bad) = (square_bytes(batch.n), [MOST_ALLOWED + 1, 0]);
    for n in [batch.n, SHORTEST - 1, LONGEST + 1] {
        for lengths in [(good, good), (good - 1, good), (good, good + 1), (0, 0)] {
            for allowance in [batch.random.within(1, MOST_ALLOWED), bad[batch.random.below(2)]] {
                for block_bytes in [0, 1, 4, 12, 19, 21, 24, 40] {
                    check_block(batch, (Entry::Decode, n, allowance), lengths, block_bytes);
                }
            }
        }
    }
}

/// The same for the probes of words and of checks.
pub fn block_of_probes(batch: &mut Batch) {
    let good = bytes_for(batch.n);
    for block_bytes in [0, 1, 4, 11, 13, 20, 24] {
        for n in [batch.n, SHORTEST - 1, LONGEST + 1] {
            for lengths in [(good, good), (good - 1, good), (good, good + 1), (0, 0)] {
                check_block(batch, (Entry::Word, n, 0), lengths, block_bytes);
            }
            for checks in [batch.random.below(1 << CHECK_BITS), 1 << CHECK_BITS] {
                check_block(batch, (Entry::Locate, n, checks), (0, 0), block_bytes);
            }
        }
    }
}

/// What is received is zero, all ones, or random.
fn check_block(
    batch: &mut Batch,
    (entry, n, argument): (Entry, usize, usize),
    (input, output): (usize, usize),
    block_bytes: usize,
) {
    let random = &mut batch.random;
    let input = match random.below(3) {
        0 => vec![0; input],
        1 => vec![0xff; input],
        _ => random.bytes(input),
    };
    let lent = random.bytes(block_bytes);
    let case = Case::new(random, entry, n, input, output).with(argument).with_block(lent);
    batch.check_refused(case, 11);
}

pub fn every_row(batch: &mut Batch) {
    let n = batch.n;
    let frame = batch.random.bytes(square_bytes(n));
    for i in 0..n {
        let case = batch.case(Entry::Row, frame.clone(), bytes_for(n)).with(i);
        let told = Told::number(bytes_for(n) as u64);
        let promise = Promise::told(Entry::Row, told, row_of(n, &frame, i).to_vec());
        batch.check(case, promise, &[]);
    }
}

/// No row where n, the length or i is wrong. A part that is lent in another length than the row's is left alone.
pub fn row(batch: &mut Batch) {
    let (n, width) = (batch.n, bytes_for(batch.n));
    let frame = batch.random.bytes(square_bytes(n));
    for i in [n, n + 1, 2 * n, 255, 256, usize::MAX / 2, usize::MAX] {
        for part in [width, 0] {
            if i >= n {
                part_untouched(batch, n, frame.clone(), i, part, 0);
            }
        }
    }
    for &len in &around(square_bytes(n), square_bytes(n - 1))[1..] {
        for i in [0, n - 1, n] {
            let frame = batch.random.bytes(len);
            part_untouched(batch, n, frame, i, width, 0);
        }
    }
    for bad in bad_lengths() {
        for len in [square_bytes(n), 0] {
            let frame = batch.random.bytes(len);
            let i = batch.random.below(n);
            part_untouched(batch, bad, frame, i, width, 0);
        }
    }
    for &part in &around(width, 2)[1..] {
        let i = batch.random.below(n);
        part_untouched(batch, n, frame.clone(), i, part, width as u64);
    }
}

fn part_untouched(batch: &mut Batch, n: usize, frame: Vec<u8>, i: usize, part: usize, bytes: u64) {
    let case = Case::new(&mut batch.random, Entry::Row, n, frame, part).with(i);
    let promise = Promise::refused(bytes, &case);
    batch.check(case, promise, &[]);
}
