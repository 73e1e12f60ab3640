//! Lines about the greatest length, and far longer ones.

use crate::records::{self, Maker};
use crate::text::{Input, Line};
use shared::random::Random;
use shared::score::hex;

/// The digits of number, n and allowance, where there is one. The hex digits that are left over are an even number for
/// half of them at each length.
const DIGITS: [[usize; 3]; 10] =
    [[1, 1, 1], [1, 2, 1], [1, 3, 1], [2, 3, 1], [9, 3, 2], [9, 3, 9], [9, 2, 9], [9, 9, 8], [8, 9, 9], [9, 9, 9]];

fn of_digits(random: &mut Random, count: usize) -> usize {
    let bound = 10usize.pow(count as u32);
    random.within(if count == 1 { 0 } else { bound / 10 }, bound - 1)
}

/// A line of `length` characters, about as many as there may be or more. It is a record by its form, unless its hex digits are
/// odd or it is too long.
fn record(maker: &mut Maker, length: usize, digits: [usize; 3]) -> Line {
    let (job, random) = (maker.job, &mut maker.random);
    let digits = &digits[..job.decimals];
    let mut numbers: Vec<usize> = digits.iter().map(|&count| of_digits(random, count)).collect();
    numbers[1] = match digits[1] {
        2 => random.within(18, 99),
        3 => random.within(100, 255), // whose bytes are too few for such a line
        _ => numbers[1],
    };
    let mut text: Vec<u8> = numbers.iter().flat_map(|number| format!("{}\t", number).into_bytes()).collect();
    let digits = length - text.len();
    text.extend(hex(&random.bytes((digits + 1) / 2)).bytes().take(digits));
    if length > job.longest_line || digits % 2 != 0 {
        return Line::bad(text);
    }
    let good = (18..=256).contains(&numbers[1]);
    Line::refused(job, text, numbers[0], if good { 2 } else { 1 })
}

/// Lines of `length` characters that are bad by their form, by one character.
fn bad_by_one(maker: &mut Maker, length: usize) -> Vec<Line> {
    let digits = if length % 2 == 0 { [1, 1, 1] } else { [1, 2, 1] };
    let good = record(maker, length, digits).text;
    let changes = [
        (0, b' '),
        (1, b'0'),
        (2, b'\t'),
        (4096, b'\t'),
        (8191, b'G'),
        (8192, b'a'),
        (16_383, b'\r'),
        (16_384, 0),
        (length - 2, b'\t'),
        (length - 1, b'g'),
        (length - 1, b'\t'),
        (length - 1, b'\r'),
        (length - 1, 0xff),
    ];
    let changed = |&(place, byte): &(usize, u8)| {
        let mut text = good.clone();
        text[place] = byte;
        Line::bad(text)
    };
    changes.iter().filter(|(place, _)| *place < length).map(changed).collect()
}

/// Lines of `length` characters that are bad by their form.
fn bad_by_form(maker: &mut Maker, length: usize) -> Vec<Line> {
    let mut lines = bad_by_one(maker, length);
    for fill in [b'0', b'A', b'\t', b'\r', b' ', 0, 0xff] {
        lines.push(Line::bad(vec![fill; length]));
    }
    // A good one, and something more.
    let digits = if length % 2 == 0 { [1, 2, 1] } else { [1, 1, 1] };
    for more in [b'\r', b'\t', b' ', b'0', 0] {
        let mut text = record(maker, length - 1, digits).text;
        text.push(more);
        lines.push(Line::bad(text));
    }
    lines
}

/// The most bytes that are right and more, in lines that are not too long.
fn longer_records(maker: &mut Maker) -> Vec<Line> {
    let (job, bytes) = (maker.job, records::bytes(maker, 256));
    let room = (job.longest_line - records::text(job, 0, 256, &bytes).len()) / 2;
    let mut lines = vec![records::good(maker, 256)];
    for more in [1, 2, room - 3, room] {
        let longer = [&bytes[..], &vec![0; more]].concat();
        lines.push(Line::refused(job, records::text(job, more % 10, 256, &longer), more % 10, 2));
    }
    lines
}

/// Lines that are too long, each with a record as its tail. The tail begins 9 characters later in
/// each, and up to 8 of the ones before it would make its number longer: wherever from a little
/// before the greatest length on a new line were begun, one of them would be taken for a record.
pub fn tails(maker: &mut Maker) -> Vec<Input> {
    let (job, bytes) = (maker.job, records::bytes(maker, 18));
    let record = records::text(job, 7, 18, &bytes);
    let mut lines = Vec::new();
    for start in (job.longest_line - 40..job.longest_line + 4200).step_by(9) {
        let mut text = vec![b'1'; start];
        text.extend_from_slice(&record);
        lines.push(Line::bad(text));
    }
    vec![Input::of(job, lines.clone(), true), Input::of(job, lines, false)]
}

fn of_length(maker: &mut Maker, length: usize) -> Vec<Line> {
    let mut lines: Vec<Line> = Vec::new();
    for digits in DIGITS {
        lines.push(record(maker, length, digits));
    }
    lines.extend(bad_by_form(maker, length));
    lines
}

/// As the first line, in the middle, and as the last with and without LF.
fn at_every_place(maker: &mut Maker, line: Line) -> Vec<Input> {
    let (job, record) = (maker.job, records::good(maker, 18));
    let first = Line::bad(line.text.clone());
    let lines = vec![record.clone(), line.clone()];
    let middle = vec![line.clone(), record.clone(), line, record.clone()];
    vec![
        Input::new(job, vec![first, record], true),
        Input::of(job, lines.clone(), true),
        Input::of(job, lines, false),
        Input::of(job, middle, true),
    ]
}

/// Of one character less than there may be, to two more.
pub fn about_the_longest(maker: &mut Maker) -> Vec<Input> {
    let (job, mut inputs) = (maker.job, Vec::new());
    let longest = job.longest_line;
    for length in longest - 1..=longest + 2 {
        for line in of_length(maker, length) {
            inputs.extend(at_every_place(maker, line));
        }
    }
    // The longest lines that are taken, and one of each length after the other.
    let mut lines = longer_records(maker);
    lines.push(records::good(maker, 256));
    for length in (longest - 3..=longest + 3).rev() {
        lines.push(record(maker, length, DIGITS[length % DIGITS.len()]));
        lines.push(records::good(maker, 18));
    }
    inputs.push(Input::of(job, lines.clone(), true));
    inputs.push(Input::of(job, lines, false));
    inputs
}

/// Far too long: of one character, and records that go on; also such that what comes after the
/// greatest length looks like a record.
fn far_too_long(maker: &mut Maker, length: usize) -> Vec<Line> {
    let mut texts: Vec<Vec<u8>> =
        [b'A', b'0', b'\t', b'\r', b' ', 0, 0xff].iter().map(|&fill| vec![fill; length]).collect();
    texts.push(record(maker, length, [9, 9, 9]).text);
    let (longest, good) = (maker.job.longest_line, records::good(maker, 18).text);
    for start in [longest, longest + 1, length - good.len()] {
        let mut text = vec![b'0'; start];
        text.extend_from_slice(&good);
        texts.push(text);
    }
    let mut text = maker.job.header();
    text.resize(length, b'0');
    texts.push(text);
    texts.into_iter().map(Line::bad).collect()
}

pub fn far(maker: &mut Maker) -> Vec<Input> {
    let (job, mut inputs) = (maker.job, Vec::new());
    for line in far_too_long(maker, 1_000_000) {
        let record = records::good(maker, 18);
        let lines = vec![line.clone(), line.clone(), line.clone(), record.clone()];
        inputs.push(Input::of(job, lines, true));
        inputs.push(Input::of(job, vec![record, line], false));
    }
    inputs
}

/// Not so long that single bytes would take long.
pub fn too_long(maker: &mut Maker) -> Vec<Input> {
    let mut lines = Vec::new();
    for line in far_too_long(maker, 20_000) {
        lines.push(line);
        lines.push(records::good(maker, 18));
    }
    vec![Input::of(maker.job, lines, true)]
}

/// One line of up to 60,000 characters, most of them too long.
pub fn any(maker: &mut Maker) -> Line {
    let length = maker.random.within(maker.job.longest_line - 20, 60_000);
    let digits = DIGITS[maker.random.below(DIGITS.len())];
    record(maker, length, digits)
}
