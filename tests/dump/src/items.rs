//! Records whose answer the rules write down, or that follows at once from their bench items or from what is promised.

use crate::data::{all_ones, refused_line, taken};
use crate::frames;
use crate::job::{Job, REPAIR, WRITE};
use crate::records;
use crate::text::{Expect, Input, Line};
use shared::bits::{bit, clear_spare_bits, flip_at, square_bytes, LONGEST};
use shared::chain::Chain;
use shared::damage;
use shared::division::Places;
use shared::random::Random;
use shared::score::hex;

/// At n = 18, the one codeword beside zero.
const OTHER: [u8; 3] = [0xb7, 0xb1, 0xc0];

/// The frame of zeros at n = 18, with these bits set.
fn with_bits(bits: &[(usize, usize)]) -> Vec<u8> {
    let mut frame = vec![0; square_bytes(18)];
    for &(i, j) in bits {
        flip_at(18, &mut frame, i, j);
    }
    frame
}

/// Bits 0 to `columns` - 1 of as many rows are set.
fn corner(rows: usize, columns: usize) -> Vec<u8> {
    let bits: Vec<_> = (0..rows * columns).map(|place| (place / columns, place % columns)).collect();
    with_bits(&bits)
}

/// The frame of data bit 1 at n = 18.
fn data_bit_1() -> Vec<u8> {
    let rows = (0..18).map(|i| if bit(&OTHER, i) { OTHER } else { [0; 3] });
    rows.flatten().collect()
}

/// n rows of n ones, or n rows of as many bits as there are, all of them ones.
fn ones(n: usize, spare: bool) -> Vec<u8> {
    let mut frame = vec![0xff; square_bytes(n)];
    if !spare {
        clear_spare_bits(n, &mut frame);
    }
    frame
}

fn line(number: usize, n: usize, allowance: usize, frame: &[u8], said: &str) -> Line {
    Line::says(frames::text(number, n, allowance, frame), number, said)
}

fn example() -> Vec<Line> {
    vec![
        line(0, 18, 2, &corner(0, 1), "clean 0 0 0 0"),
        line(1, 18, 2, &corner(1, 2), "repaired 1 2 0 0"),
        line(2, 18, 2, &corner(2, 18), "repaired 2 36 0 0"),
        line(3, 18, 2, &corner(3, 3), "stuck 2 0 3 3"),
        line(4, 17, 2, &corner(0, 1), "refused 1 0 0 0"),
        Line::bad(""),
    ]
}

fn at_18() -> Vec<Line> {
    let a = corner(0, 1);
    let spare = with_bits(&[(0, 18), (17, 23)]);
    let only_last = with_bits(&[(0, 17)]);
    // Ten of the twelve ones of the codeword: pass 1 sets the two others, pass 2 clears all.
    let mut ten = a.clone();
    ten[..3].copy_from_slice(&[0x17, 0xb1, 0xc0]);
    vec![
        line(10, 18, 1, &corner(2, 18), "spent 1 0 2 18"),
        line(11, 18, 1, &data_bit_1(), "clean 0 0 0 0"),
        line(12, 18, 1, &spare, "clean 0 0 0 0"),
        line(13, 18, 1, &only_last, "repaired 1 1 0 0"),
        line(14, 18, 200, &ones(18, true), "erased 0 0 0 0"),
        line(15, 18, 1, &a, "clean 0 0 0 0"),
        line(16, 18, 200, &a, "clean 0 0 0 0"),
        line(17, 18, 0, &a, "refused 4 0 0 0"),
        line(18, 18, 201, &a, "refused 4 0 0 0"),
        line(19, 18, 2, &a[..53], "refused 2 0 0 0"),
        line(20, 18, 2, &[&a[..], &[0]].concat(), "refused 2 0 0 0"),
        line(21, 18, 201, &a[..53], "refused 2 0 0 0"),
        line(22, 257, 201, &a, "refused 1 0 0 0"),
        line(23, 18, 2, &ten, "repaired 2 10 0 0"),
        line(24, 18, 1, &ten, "spent 1 2 0 12"),
        line(25, 18, 33, &a, "clean 0 0 0 0"),
    ]
}

/// As many wrong bits as the promise allows: counts of three and of four digits.
fn most_bits() -> Vec<Line> {
    let counts = [(99, "repaired 2 392 0 0"), (256, "repaired 2 1020 0 0")];
    let record = |(n, said)| {
        let mut frame = vec![0; square_bytes(n)];
        damage::most_of_class(n, &mut frame, [0, n - 1]);
        line(n, n, 2, &frame, said)
    };
    counts.into_iter().map(record).collect()
}

/// Chains of 60, 200, 205 and 206 words, which pass after pass frees of one: five passes less than words repair them.
fn chains() -> Vec<Line> {
    let mut random = Random::new(&[1]);
    let mut chain = |n, length| {
        let mut frame = vec![0; square_bytes(n)];
        Chain::new(&mut random, &Places::new(n), n, length).spoil(&mut frame);
        frame
    };
    let [short, long, most, spent] = [chain(64, 60), chain(195, 200), chain(256, 205), chain(256, 206)];
    vec![
        line(0, 64, 200, &short, "repaired 55 116 0 0"),
        line(1, 64, 55, &short, "repaired 55 116 0 0"),
        line(2, 64, 54, &short, "spent 54 110 3 2"),
        line(3, 64, 33, &short, "spent 33 66 13 14"),
        line(4, 64, 32, &short, "spent 32 64 14 14"),
        line(5, 195, 200, &long, "repaired 195 396 0 0"),
        line(6, 195, 194, &long, "spent 194 390 3 2"),
        line(7, 256, 200, &most, "repaired 200 406 0 0"),
        line(8, 256, 199, &most, "spent 199 400 2 3"),
        line(9, 256, 200, &spent, "spent 200 402 3 2"),
        line(10, 256, 201, &spent, "refused 4 0 0 0"),
    ]
}

/// Ones are erased, whatever the spare bits, but not at a bad allowance or length. With the last bit zero they are decoded: at
/// 256 they are a frame with one wrong bit, and at the other n here all words are beyond.
fn of_ones(n: usize) -> Vec<Line> {
    let all = format!(" 0 {} {}", n, n);
    let [once, twice] = match n {
        256 => ["repaired 1 1 0 0"; 2].map(String::from),
        _ => ["spent 1", "stuck 2"].map(|ending| ending.to_string() + &all),
    };
    let mut lines = Vec::new();
    // At 256 there are no spare bits.
    for spare in [true, false].into_iter().take(if n == 256 { 1 } else { 2 }) {
        let frame = ones(n, spare);
        lines.push(line(999_999_999, n, 1, &frame, "erased 0 0 0 0"));
        lines.push(line(0, n, 200, &frame, "erased 0 0 0 0"));
        lines.push(line(1, n, if spare { 0 } else { 201 }, &frame, "refused 4 0 0 0"));
        lines.push(line(2, n, 2, &frame[1..], "refused 2 0 0 0"));
        let mut short = frame;
        flip_at(n, &mut short, n - 1, n - 1);
        lines.push(line(3, n, 1, &short, &once));
        lines.push(line(4, n, 2, &short, &twice));
    }
    lines
}

/// Data whose frame is this one.
fn written(number: usize, n: usize, data: &[u8], frame: &[u8]) -> Line {
    let said = format!("{}\t{}\t8\t{}", number, n, hex(frame));
    Line { text: records::text(&WRITE, number, n, data), expect: Expect::Exactly(said) }
}

fn data_at_18() -> Vec<Line> {
    let (zero, one) = (corner(0, 1), data_bit_1());
    vec![
        written(0, 18, &[0], &zero),
        written(999_999_999, 18, &[0x80], &one),
        refused_line(2, 18, &[0x40], 5),
        refused_line(3, 18, &[0x81], 5),
        refused_line(4, 18, &[], 2),
        refused_line(5, 18, &[0x80, 0], 2),
        refused_line(6, 18, &[0xff; 2], 2),
        refused_line(7, 18, &one, 2),
        refused_line(8, 17, &[0], 1),
        refused_line(9, 0, &[], 1),
        refused_line(10, 257, &[0xff; 3], 1),
        refused_line(999_999_999, 999_999_999, &[0x80], 1),
        written(0, 18, &[0x80], &one),
    ]
}

/// At 256, and about it: all data bits ones, and all but one.
fn data_of_ones() -> Vec<Line> {
    let ones = all_ones(LONGEST);
    let (mut all_but_one, mut spare) = (ones.clone(), ones.clone());
    *all_but_one.last_mut().unwrap() ^= 2;
    *spare.last_mut().unwrap() ^= 1;
    vec![
        refused_line(0, LONGEST, &ones, 10),
        refused_line(1, LONGEST, &spare, 5),
        refused_line(2, LONGEST, &ones[1..], 2),
        refused_line(3, LONGEST + 1, &ones, 1),
        refused_line(4, LONGEST - 1, &ones, 2),
        taken(5, LONGEST, all_but_one),
        taken(6, LONGEST - 1, all_ones(LONGEST - 1)),
        written(7, LONGEST, &vec![0; ones.len()], &vec![0; square_bytes(LONGEST)]),
    ]
}

/// All parts together, and each by itself.
fn inputs(job: &'static Job, parts: Vec<Vec<Line>>) -> Vec<Input> {
    let mut inputs = vec![Input::of(job, parts.concat(), true)];
    for lines in parts {
        inputs.push(Input::of(job, lines.clone(), true));
        inputs.push(Input::of(job, lines, false));
    }
    inputs
}

pub fn decoded() -> Vec<Input> {
    let mut parts = vec![example(), at_18(), most_bits(), chains()];
    parts.extend([18, 20, 195, 256].map(of_ones));
    inputs(&REPAIR, parts)
}

pub fn encoded() -> Vec<Input> {
    inputs(&WRITE, vec![data_at_18(), data_of_ones()])
}
