//! Lines that are records, of either program.

use crate::job::Job;
use crate::text::Line;
use second::Code;
use shared::bits::{bytes_for, square_bytes, LONGEST, SHORTEST};
use shared::random::Random;
use shared::score::hex;
use shared::written::full_frame;

/// What the makers of inputs draw from.
pub struct Maker<'a> {
    pub job: &'static Job,
    pub code: &'a Code,
    pub random: Random,
}

/// A record that is taken; what it gives is known.
pub fn good(maker: &mut Maker, n: usize) -> Line {
    (maker.job.good)(maker, n)
}

pub fn any(maker: &mut Maker, n: usize) -> Line {
    (maker.job.any)(maker, n)
}

pub fn refused(maker: &mut Maker) -> Line {
    (maker.job.refused)(maker)
}

/// Those that a good record has.
pub fn bytes(maker: &mut Maker, n: usize) -> Vec<u8> {
    (maker.job.bytes)(full_frame(maker.code, &mut maker.random, n))
}

/// The fields of a record. A number between n and the bytes is an allowance, and a good one.
pub fn fields(job: &Job, number: usize, n: usize, bytes: &[u8]) -> Vec<Vec<u8>> {
    let mut fields = vec![number.to_string(), n.to_string()];
    fields.resize(job.decimals, "12".to_string());
    fields.push(hex(bytes));
    fields.into_iter().map(String::into_bytes).collect()
}

pub fn text(job: &Job, number: usize, n: usize, bytes: &[u8]) -> Vec<u8> {
    fields(job, number, n, bytes).join(&b'\t')
}

/// A number of 1 to 9 digits, each count as often as another; 0 and the greatest more often.
pub fn number(random: &mut Random) -> usize {
    match random.below(16) {
        0 => 0,
        1 => 999_999_999,
        _ => {
            let bound = 10usize.pow(random.within(1, 9) as u32);
            random.within(bound / 10, bound - 1)
        }
    }
}

/// Mostly small, so that an input does not take long.
pub fn length(random: &mut Random) -> usize {
    match random.below(100) {
        0..=93 => random.within(SHORTEST, 40),
        94..=97 => random.within(41, 80),
        98 => [195, LONGEST][random.below(2)],
        _ => random.within(SHORTEST, LONGEST),
    }
}

/// An n that is out of range, and a number of bytes: those of `length`, which is in range, where n would be that if its upper
/// bits were lost.
pub fn bad_n(random: &mut Random, length: usize, bytes: usize) -> (usize, usize) {
    let lost_bits = [1 << 8, 1 << 16, 1 << 24][random.below(3)];
    let few = [0, 1, 2, 9, 17, 257, 258, 1000, 999_999_999][random.below(9)];
    match random.below(3) {
        0 => (length + lost_bits, bytes),
        _ => (few, random.below(80)),
    }
}

/// Not the number of bytes that `size` rows of so many bits have, in a line that is not too long.
pub fn bad_bytes(random: &mut Random, job: &Job, size: usize) -> usize {
    let (good, row) = (square_bytes(size), bytes_for(size));
    let near = [0, 1, good - 1, good + 1, good - row, good + row, good + 256];
    let bytes = [near[random.below(7)], random.below(good)][random.below(2)];
    if bytes == good {
        return good + 1;
    }
    bytes.min(most_bytes(job))
}

/// What a line has room for: each number may have nine digits, but an n of three, and has its tab.
pub fn most_bytes(job: &Job) -> usize {
    (job.longest_line - 10 * job.decimals + 6) / 2
}
