use crate::plain::{
    decode_word, differences, is_codeword, pack_square, turned, unpack_square, Random,
};
use second::{Answer, Code, Refusal, Report};

type Rows = Vec<Vec<bool>>;

/// The rows of the frame of this data.
fn written(code: &Code, n: usize, data: &[Vec<bool>]) -> Rows {
    let mut frame = vec![0; n * ((n + 7) / 8)];
    assert_eq!(code.encode(n, &pack_square(data), &mut frame), Ok(()));
    unpack_square(n, &frame)
}

fn decode(code: &Code, allowance: usize, rows: &[Vec<bool>]) -> (Result<Report, Refusal>, Rows) {
    let (n, received) = (rows.len(), pack_square(rows));
    let mut frame = vec![0; received.len()];
    let said = code.decode(n, allowance, &received, &mut frame);
    (said, unpack_square(n, &frame))
}

/// Decodes a spoiled frame that is not all ones: it must be the written one.
fn assert_comes_back(code: &Code, written: &[Vec<bool>], received: &[Vec<bool>]) {
    let pairs = written.iter().zip(received);
    let wrong: usize = pairs.map(|(a, b)| differences(a, b).len()).sum();
    let (said, last) = decode(code, 2, received);
    let said = said.unwrap();
    assert_eq!((said.number(), said.bits), (0, wrong));
    assert_eq!(last, written);
}

/// Up to two wrong bits in each row, and up to two rows lost.
fn spoil(random: &mut Random, rows: &mut [Vec<bool>]) {
    let n = rows.len();
    for row in rows.iter_mut() {
        for _ in 0..random.below(3) {
            row[random.below(n)] ^= true;
        }
    }
    for _ in 0..random.below(3) {
        rows[random.below(n)] = match random.below(3) {
            0 => vec![true; n],
            1 => vec![false; n],
            _ => random.bits(n),
        };
    }
}

#[test]
fn spoiled_frames_come_back() {
    let code = Code::new();
    let mut random = Random(6);
    for round in 0..600 {
        let widest = if round % 8 == 0 { 256 } else { 48 };
        let n = 18 + random.below(widest - 17);
        let data: Rows = (0..n - 17).map(|_| random.bits(n - 17)).collect();
        let written = written(&code, n, &data);
        let mut received = written.clone();
        spoil(&mut random, &mut received);
        assert_comes_back(&code, &written, &received);
    }
}

/// Where the word of ones has a codeword within two, the frame of that one's
/// crossings with itself can be spoiled to ones, and is erased then. With a
/// zero among them that leaves it a spoiled frame, it comes back.
#[test]
fn spoiled_to_ones_is_erased() {
    let code = Code::new();
    let mut random = Random(7);
    let mut lengths = Vec::new();
    for n in 18..256 {
        let (answer, word) = decode_word(&code, &vec![true; n]);
        assert!(!is_codeword(&vec![true; n]));
        if answer == Answer::NoCodeword {
            continue;
        }
        lengths.push(n);
        let none = vec![false; n];
        let rows = word.iter().map(|&bit| if bit { &word } else { &none });
        let frame: Rows = rows.cloned().collect();
        let data: Rows = frame[..n - 17]
            .iter()
            .map(|row| row[..n - 17].to_vec())
            .collect();
        assert_eq!(written(&code, n, &data), frame);
        let ones = vec![vec![true; n]; n];
        let untouched = vec![none; n];
        assert_eq!(decode(&code, 2, &ones), (Err(Refusal::Erased), untouched));
        let zeros: Vec<usize> = (0..n).filter(|&place| !word[place]).collect();
        for &zero in &zeros {
            let mut received = ones.clone();
            received[zero][random.below(n)] = false;
            assert_comes_back(&code, &frame, &received);
            let mut received = ones.clone();
            received[random.below(n)][zero] = false;
            assert_comes_back(&code, &frame, &received);
        }
    }
    assert_eq!(lengths[0], 80);
    assert_eq!(lengths.len(), 16);
}

/// The premise holds if a row or a column has no wrong bit: no word of ones is
/// a codeword, but for that of 256; and there no other frame can be spoiled to
/// ones, since six rows differ from it or more.
#[test]
fn ones_are_a_frame_at_256_alone() {
    let code = Code::new();
    for n in 18..=256 {
        assert_eq!(is_codeword(&vec![true; n]), n == 256);
    }
    let mut random = Random(8);
    for _ in 0..40 {
        let mut data = vec![vec![true; 239]; 239];
        for _ in 0..1 + random.below(4) {
            data[random.below(239)][random.below(239)] = false;
        }
        let written = written(&code, 256, &data);
        for rows in [&written, &turned(&written)] {
            let zeros = |row: &&Vec<bool>| row.iter().filter(|&&bit| !bit).count() > 2;
            assert!(rows.iter().filter(zeros).count() > 2);
        }
    }
}

/// All data but one message: random, full, and full but for one bit.
#[test]
fn data_come_back() {
    let code = Code::new();
    let mut random = Random(9);
    for n in 18..=256 {
        let k = n - 17;
        let full = vec![vec![true; k]; k];
        let mut nearly = full.clone();
        nearly[random.below(k)][random.below(k)] = false;
        let data: Rows = (0..k).map(|_| random.bits(k)).collect();
        for data in [data, full, nearly] {
            let (bytes, mut frame) = (pack_square(&data), vec![0xff; n * ((n + 7) / 8)]);
            let said = code.encode(n, &bytes, &mut frame);
            if n == 256 && !data.iter().flatten().any(|&bit| !bit) {
                assert_eq!(said, Err(Refusal::Erased));
                continue;
            }
            assert_eq!(said, Ok(()));
            let mut read = vec![0xff; bytes.len()];
            assert_eq!(code.read(n, &frame, &mut read), Ok(()));
            assert_eq!(read, bytes);
        }
    }
}
