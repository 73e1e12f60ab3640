//! How the rules lay bits into bytes.

pub const SHORTEST: usize = 18;
pub const LONGEST: usize = 256;
pub const CHECK_BITS: usize = 17;

/// The most passes that decode may be allowed.
pub const MOST_ALLOWED: usize = 200;

/// The least n at which the word of n ones has a codeword within two places, places 2 and 21.
pub const NEAR_ONES: usize = 80;

/// The fewest whole bytes for `bits` bits.
pub fn bytes_for(bits: usize) -> usize {
    (bits + 7) / 8
}

/// The bytes of `size` rows of `size` bits.
pub fn square_bytes(size: usize) -> usize {
    size * bytes_for(size)
}

/// The bits of a row's last byte that lie past the row's end.
pub fn spare_mask(bits: usize) -> u8 {
    match bits % 8 {
        0 => 0,
        used => 0xff >> used,
    }
}

pub fn bit(bytes: &[u8], place: usize) -> bool {
    bytes[place / 8] >> (7 - place % 8) & 1 == 1
}

pub fn flip(bytes: &mut [u8], place: usize) {
    bytes[place / 8] ^= 0x80 >> (place % 8);
}

pub fn row(n: usize, frame: &[u8], i: usize) -> &[u8] {
    let width = bytes_for(n);
    &frame[i * width..(i + 1) * width]
}

pub fn row_mut(n: usize, frame: &mut [u8], i: usize) -> &mut [u8] {
    let width = bytes_for(n);
    &mut frame[i * width..(i + 1) * width]
}

/// Flips bit j of row i of a frame.
pub fn flip_at(n: usize, frame: &mut [u8], i: usize, j: usize) {
    flip(row_mut(n, frame, i), j);
}

/// Applies `change` to the last byte of every row, with the mask of its spare bits.
pub fn on_spare_bits(bits: usize, rows: &mut [u8], mut change: impl FnMut(&mut u8, u8)) {
    let width = bytes_for(bits);
    for row in rows.chunks_exact_mut(width) {
        change(&mut row[width - 1], spare_mask(bits));
    }
}

pub fn clear_spare_bits(bits: usize, rows: &mut [u8]) {
    on_spare_bits(bits, rows, |byte, mask| *byte &= !mask);
}

pub fn has_spare_bits(bits: usize, rows: &[u8]) -> bool {
    let width = bytes_for(bits);
    let mut rows = rows.chunks_exact(width);
    rows.any(|row| row[width - 1] & spare_mask(bits) != 0)
}

pub fn ones(bytes: &[u8]) -> usize {
    bytes.iter().map(|byte| byte.count_ones() as usize).sum()
}

pub fn xor(bytes: &mut [u8], other: &[u8]) {
    for (byte, with) in bytes.iter_mut().zip(other) {
        *byte ^= with;
    }
}

/// Whether all bits are ones, of rows that have so many bits each; spare bits do not matter.
pub fn all_ones(bits: usize, rows: &[u8]) -> bool {
    let mut rows = rows.chunks_exact(bytes_for(bits));
    rows.all(|row| (0..bits).all(|place| bit(row, place)))
}

/// How many code bits of each row differ between two frames.
pub fn wrong_bits(n: usize, written: &[u8], received: &[u8]) -> Vec<usize> {
    let mut damage = written.to_vec();
    xor(&mut damage, received);
    clear_spare_bits(n, &mut damage);
    damage.chunks_exact(bytes_for(n)).map(ones).collect()
}

/// What follows for decode from what was received, and from the rows' numbers of wrong bits.
pub enum Follows {
    /// All code bits are ones, whatever was written.
    Erased,
    Clean,
    /// So many wrong bits, all mended in one pass over rows.
    OnePass(usize),
    /// So many wrong bits, three or more of them in one row or in each of two: two passes mend them.
    TwoPasses(usize),
    Nothing,
}

pub fn follows(n: usize, allowance: usize, written: &[u8], received: &[u8]) -> Follows {
    if all_ones(n, received) {
        return Follows::Erased;
    }
    let rows = wrong_bits(n, written, received);
    let wrong: usize = rows.iter().sum();
    match rows.iter().filter(|&&count| count > 2).count() {
        0 if wrong == 0 => Follows::Clean,
        0 => Follows::OnePass(wrong),
        1 | 2 if allowance >= 2 => Follows::TwoPasses(wrong),
        _ => Follows::Nothing,
    }
}
