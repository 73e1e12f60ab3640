//! The kinds of damage. Each changes a frame of n rows in place, and mostly its code bits alone.

use crate::bits::{bytes_for, flip_at, on_spare_bits, row, row_mut};
use crate::random::Random;
use crate::written::add_crossings;

/// Flips `count` different bits.
pub fn wrong_bits(random: &mut Random, n: usize, frame: &mut [u8], count: usize) {
    for place in random.distinct(count, n * n) {
        flip_at(n, frame, place / n, place % n);
    }
}

/// Up to two wrong bits in each row, or fewer.
pub fn few_in_each_row(random: &mut Random, n: usize, frame: &mut [u8]) {
    let most = random.within(0, 2);
    for i in 0..n {
        let wrong = random.within(0, most);
        random.distinct(wrong, n).into_iter().for_each(|j| flip_at(n, frame, i, j));
    }
}

/// As many wrong bits as the promise allows, 4 n - 4: all of two rows, and two of each other row.
pub fn most_of_class(n: usize, frame: &mut [u8], lines: [usize; 2]) {
    for i in 0..n {
        let wrong = if lines.contains(&i) { 0..n } else { i % (n - 1)..i % (n - 1) + 2 };
        wrong.for_each(|j| flip_at(n, frame, i, j));
    }
}

/// What a lost row or column turns into.
#[derive(Clone, Copy)]
pub enum Loss {
    Zeros,
    Ones,
    Flipped,
    Noise,
}

pub fn loss(random: &mut Random) -> Loss {
    match random.below(4) {
        0 => Loss::Zeros,
        1 => Loss::Ones,
        2 => Loss::Flipped,
        _ => Loss::Noise,
    }
}

fn lost_byte(random: &mut Random, loss: Loss, byte: u8) -> u8 {
    match loss {
        Loss::Zeros => 0,
        Loss::Ones => 0xff,
        Loss::Flipped => !byte,
        Loss::Noise => random.byte(),
    }
}

/// Spare bits are lost with the row.
pub fn lose_row(random: &mut Random, n: usize, frame: &mut [u8], i: usize, loss: Loss) {
    for byte in row_mut(n, frame, i) {
        *byte = lost_byte(random, loss, *byte);
    }
}

pub fn lose_column(random: &mut Random, n: usize, frame: &mut [u8], j: usize, loss: Loss) {
    let mask = 0x80 >> (j % 8);
    for i in 0..n {
        let byte = &mut row_mut(n, frame, i)[j / 8];
        let lost = lost_byte(random, loss, *byte);
        *byte = *byte & !mask | lost & mask;
    }
}

/// Flips all crossings of so many rows and columns, or most of them.
pub fn crossing(random: &mut Random, n: usize, frame: &mut [u8], rows: usize, columns: usize) {
    let (rows, columns) = (random.distinct(rows, n), random.distinct(columns, n));
    add_crossings(n, frame, &rows, &columns);
    if random.once_in(4) {
        let (i, j) = (random.below(rows.len()), random.below(columns.len()));
        flip_at(n, frame, rows[i], columns[j]);
    }
}

/// All bytes from a random one on are what was there before the write: zeros, ones or noise.
pub fn tear(random: &mut Random, n: usize, frame: &mut [u8]) {
    let (len, width) = (frame.len(), bytes_for(n));
    let start = match random.below(4) {
        0 => random.below(len),
        1 => len - width * random.below(5),
        _ => len - random.within(1, 4 * width),
    };
    let loss = [Loss::Zeros, Loss::Ones, Loss::Noise][random.below(3)];
    for byte in &mut frame[start..] {
        *byte = lost_byte(random, loss, *byte);
    }
}

/// A run of bits, from row to row, flipped or half of them flipped.
pub fn burst(random: &mut Random, n: usize, frame: &mut [u8], length: usize) {
    let start = random.below(n * n);
    let solid = random.once_in(2);
    for place in start..(start + length).min(n * n) {
        if solid || random.once_in(2) {
            flip_at(n, frame, place / n, place % n);
        }
    }
}

/// Each bit is flipped `per_mille` times in a thousand.
pub fn noise(random: &mut Random, n: usize, frame: &mut [u8], per_mille: usize) {
    for i in 0..n {
        for j in 0..n {
            if random.below(1000) < per_mille {
                flip_at(n, frame, i, j);
            }
        }
    }
}

/// Wrong bits that hang together in a chain of `length` rows and columns in turn: each has four,
/// and only those at the ends can be mended before a neighbour is.
pub fn chain(random: &mut Random, n: usize, frame: &mut [u8], length: usize) {
    let rows = random.distinct((length + 1) / 2, n);
    let columns = random.distinct(length / 2, n);
    for link in 0..length {
        for next in [link + 1, link + 3] {
            if next < length {
                let (even, odd) = if link % 2 == 0 { (link, next) } else { (next, link) };
                flip_at(n, frame, rows[even / 2], columns[odd / 2]);
            }
        }
    }
}

/// Takes some rows from `other`: those from one row on, each with an even chance, or one to four.
pub fn mix_rows(random: &mut Random, n: usize, frame: &mut [u8], other: &[u8]) {
    let taken: Vec<usize> = match random.below(3) {
        0 => (random.below(n)..n).collect(),
        1 => (0..n).filter(|_| random.once_in(2)).collect(),
        _ => {
            let count = random.within(1, 4);
            random.distinct(count, n)
        }
    };
    for i in taken {
        row_mut(n, frame, i).copy_from_slice(row(n, other, i));
    }
}

/// Sets spare bits of some rows, or of all of them.
pub fn set_spare_bits(random: &mut Random, n: usize, frame: &mut [u8]) {
    let every = random.once_in(4);
    on_spare_bits(n, frame, |byte, mask| {
        *byte |= mask & if every { 0xff } else { random.byte() };
    });
}
