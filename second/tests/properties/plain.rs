//! Words as lists of bits, division one bit at a time.

use second::{Answer, Code};

/// Numbers that look random and are the same in every run.
pub struct Random(pub u64);

impl Random {
    pub fn next(&mut self) -> u64 {
        self.0 ^= self.0 << 13;
        self.0 ^= self.0 >> 7;
        self.0 ^= self.0 << 17;
        self.0 >> 11
    }

    pub fn below(&mut self, end: usize) -> usize {
        self.next() as usize % end
    }

    pub fn bits(&mut self, count: usize) -> Vec<bool> {
        (0..count).map(|_| self.next() & 1 == 1).collect()
    }
}

pub fn pack(bits: &[bool]) -> Vec<u8> {
    let byte =
        |chunk: &[bool]| (0..8).fold(0, |b, i| b << 1 | u8::from(chunk.get(i) == Some(&true)));
    bits.chunks(8).map(byte).collect()
}

pub fn unpack(n: usize, bytes: &[u8]) -> Vec<bool> {
    (0..n)
        .map(|j| bytes[j / 8] >> (7 - j % 8) & 1 == 1)
        .collect()
}

pub fn unpack_square(n: usize, bytes: &[u8]) -> Vec<Vec<bool>> {
    bytes
        .chunks((n + 7) / 8)
        .map(|row| unpack(n, row))
        .collect()
}

pub fn pack_square(rows: &[Vec<bool>]) -> Vec<u8> {
    rows.iter().flat_map(|row| pack(row)).collect()
}

pub fn turned(rows: &[Vec<bool>]) -> Vec<Vec<bool>> {
    let columns = 0..rows[0].len();
    columns
        .map(|j| rows.iter().map(|row| row[j]).collect())
        .collect()
}

/// Long division by g, and an even number of ones.
pub fn is_codeword(word: &[bool]) -> bool {
    let mut left = word[..word.len() - 1].to_vec();
    for top in 0..left.len() - 16 {
        if left[top] {
            for power in [16, 14, 13, 11, 10, 9, 8, 6, 5, 1, 0] {
                left[top + 16 - power] ^= true;
            }
        }
    }
    !left.contains(&true) && word.iter().filter(|&&bit| bit).count() % 2 == 0
}

pub fn encode_word(code: &Code, n: usize, data: &[bool]) -> Vec<bool> {
    let mut word = vec![0xff; (n + 7) / 8];
    assert_eq!(code.encode_word(n, &pack(data), &mut word), Ok(()));
    let bits = unpack(n, &word);
    assert_eq!(pack(&bits), word, "spare bits are zero");
    bits
}

pub fn decode_word(code: &Code, received: &[bool]) -> (Answer, Vec<bool>) {
    let n = received.len();
    let mut word = vec![0xff; (n + 7) / 8];
    let answer = code.decode_word(n, &pack(received), &mut word).unwrap();
    (answer, unpack(n, &word))
}

pub fn differences(a: &[bool], b: &[bool]) -> Vec<usize> {
    (0..a.len()).filter(|&j| a[j] != b[j]).collect()
}

pub fn expected_answer(received: &[bool], codeword: &[bool]) -> Answer {
    match differences(received, codeword)[..] {
        [] => Answer::Codeword,
        [place] => Answer::OnePlace(place),
        [lower, higher] => Answer::TwoPlaces(lower, higher),
        _ => Answer::NoCodeword,
    }
}
