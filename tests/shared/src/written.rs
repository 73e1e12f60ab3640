//! Data, codewords and frames as they were before any damage.

use crate::bits::{bytes_for, clear_spare_bits, flip, flip_at, square_bytes, xor, CHECK_BITS, LONGEST};
use crate::division::Places;
use crate::random::Random;
use second::Code;

pub struct Written {
    pub data: Vec<u8>,
    pub frame: Vec<u8>,
}

/// k rows of k ones; but one is zero at n = 256, where the frame of all ones would be erased.
pub fn full(random: &mut Random, n: usize) -> Vec<u8> {
    let k = n - CHECK_BITS;
    let mut data = vec![0xff; square_bytes(k)];
    clear_spare_bits(k, &mut data);
    if n == LONGEST {
        flip_at(k, &mut data, random.below(k), random.below(k));
    }
    data
}

/// k rows of k bits: random, sometimes empty, full, or nearly empty.
pub fn data(random: &mut Random, n: usize) -> Vec<u8> {
    let k = n - CHECK_BITS;
    let mut data = match random.below(8) {
        0 => vec![0; square_bytes(k)],
        1 => full(random, n),
        2 => {
            let mut data = vec![0; square_bytes(k)];
            for _ in 0..random.within(1, 4) {
                flip_at(k, &mut data, random.below(k), random.below(k));
            }
            data
        }
        _ => random.bytes(square_bytes(k)),
    };
    clear_spare_bits(k, &mut data);
    data
}

pub fn frame_of(code: &Code, n: usize, data: Vec<u8>) -> Written {
    let mut frame = vec![0; square_bytes(n)];
    let encoded = code.encode(n, &data, &mut frame);
    assert!(encoded.is_ok(), "good data of n = {} was not encoded", n);
    Written { data, frame }
}

/// A frame of random data.
pub fn full_frame(code: &Code, random: &mut Random, n: usize) -> Written {
    let k = n - CHECK_BITS;
    let mut data = random.bytes(square_bytes(k));
    clear_spare_bits(k, &mut data);
    frame_of(code, n, data)
}

pub fn frame(code: &Code, random: &mut Random, n: usize) -> Written {
    let data = data(random, n);
    frame_of(code, n, data)
}

/// The codeword that begins with `data`, whose spare bits count for nothing.
pub fn codeword_of(code: &Code, n: usize, mut data: Vec<u8>) -> Vec<u8> {
    clear_spare_bits(n - CHECK_BITS, &mut data);
    let mut word = vec![0; bytes_for(n)];
    let encoded = code.encode_word(n, &data, &mut word);
    assert!(encoded.is_ok(), "good data of a word of {} was not encoded", n);
    word
}

pub fn codeword(code: &Code, random: &mut Random, n: usize) -> Vec<u8> {
    let data = random.bytes(bytes_for(n - CHECK_BITS));
    codeword_of(code, n, data)
}

/// The places of the ones of a codeword with just six, or nothing if none was met.
pub fn six_places(places: &Places, random: &mut Random, n: usize) -> Option<[usize; 6]> {
    for _ in 0..100_000 {
        let four = random.distinct(4, n);
        if let Some((fifth, sixth)) = places.other_two(&four) {
            return Some([four[0], four[1], four[2], four[3], fifth, sixth]);
        }
    }
    None
}

/// Adds to `frame` the frame whose ones are the crossings of `rows` and `columns`.
pub fn add_crossings(n: usize, frame: &mut [u8], rows: &[usize], columns: &[usize]) {
    let mut line = vec![0; bytes_for(n)];
    columns.iter().for_each(|&place| flip(&mut line, place));
    for &i in rows {
        xor(crate::bits::row_mut(n, frame, i), &line);
    }
}
