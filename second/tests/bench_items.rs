//! The bench items, each with the whole answer and every byte of the output.

use second::{row, Answer, Code, Ending, Refusal, Report};

/// What stands in an output before a call, to see whether it was touched.
const OLD: u8 = 0xa5;

/// The codeword of 18 bits other than zero.
const TWELVE: [u8; 3] = [0xb7, 0xb1, 0xc0];

fn decode(n: usize, allowance: usize, received: &[u8]) -> (Report, Vec<u8>) {
    let mut frame = vec![OLD; received.len()];
    let report = Code::new().decode(n, allowance, received, &mut frame);
    (report.unwrap(), frame)
}

fn decode_word(n: usize, received: &[u8]) -> (Answer, Vec<u8>) {
    let mut word = vec![OLD; received.len()];
    let answer = Code::new().decode_word(n, received, &mut word);
    (answer.unwrap(), word)
}

fn report(ending: Ending, passes: usize, bits: usize, bad: (usize, usize)) -> Report {
    Report {
        ending,
        passes,
        bits,
        bad_rows: bad.0,
        bad_columns: bad.1,
    }
}

/// Item A with its first rows replaced.
fn item(rows: &[[u8; 3]]) -> Vec<u8> {
    let mut frame = rows.concat();
    frame.resize(54, 0);
    frame
}

fn item_c() -> Vec<u8> {
    item(&[[0xff, 0xff, 0xc0]; 2])
}

#[test]
fn item_a_is_clean() {
    let clean = report(Ending::Clean, 0, 0, (0, 0));
    assert_eq!(decode(18, 2, &item(&[])), (clean, item(&[])));
    assert_eq!(clean.number(), 0);
}

#[test]
fn item_b_is_repaired_by_the_rows() {
    let repaired = report(Ending::Repaired, 1, 2, (0, 0));
    let received = item(&[[0xc0, 0, 0]]);
    assert_eq!(decode(18, 2, &received), (repaired, item(&[])));
    assert_eq!(decode(18, 1, &received), (repaired, item(&[])));
    assert_eq!(repaired.number(), 0);
}

#[test]
fn item_c_is_repaired_by_the_columns() {
    let repaired = report(Ending::Repaired, 2, 36, (0, 0));
    assert_eq!(decode(18, 2, &item_c()), (repaired, item(&[])));
}

#[test]
fn item_c_with_allowance_1_is_spent() {
    let spent = report(Ending::Spent, 1, 0, (2, 18));
    assert_eq!(decode(18, 1, &item_c()), (spent, item_c()));
    assert_eq!(spent.number(), 8);
}

#[test]
fn item_d_is_stuck() {
    let stuck = report(Ending::Stuck, 2, 0, (3, 3));
    // A spare bit, too, comes back as it was received.
    let received = item(&[[0xe0, 0, 0x01], [0xe0, 0, 0], [0xe0, 0, 0]]);
    assert_eq!(decode(18, 200, &received), (stuck, received.clone()));
    assert_eq!(decode(18, 2, &received), (stuck, received));
    assert_eq!(stuck.number(), 7);
}

/// Row i of 254 rows has the wrong bits i, i + 1 and i + 2. Pass 2 mends the outer two columns on
/// either side, pass 3 the outer two rows: after pass 2 p + 1 a band of 254 − 4 p rows is left.
#[test]
fn a_band_of_254_rows_takes_128_passes() {
    let mut received = vec![0; 256 * 32];
    for (i, j) in (0..254).flat_map(|i| (i..i + 3).map(move |j| (i, j))) {
        received[32 * i + j / 8] ^= 0x80 >> (j % 8);
    }
    let repaired = report(Ending::Repaired, 128, 3 * 254, (0, 0));
    for allowance in [128, 200] {
        assert_eq!(decode(256, allowance, &received), (repaired, vec![0; 8192]));
    }
    // Two rows are left, and in four columns.
    let spent = report(Ending::Spent, 127, 3 * 252, (2, 4));
    assert_eq!(decode(256, 127, &received), (spent, received));
}

#[test]
fn bits_that_are_flipped_and_flipped_back_are_not_counted() {
    // Ten of the twelve ones of a codeword: pass 1 sets the two others, pass 2 clears all twelve.
    let received = item(&[[0x17, 0xb1, 0xc0]]);
    let repaired = report(Ending::Repaired, 2, 10, (0, 0));
    let spent = report(Ending::Spent, 1, 2, (0, 12));
    assert_eq!(decode(18, 2, &received), (repaired, item(&[])));
    assert_eq!(decode(18, 1, &received), (spent, received.clone()));
}

#[test]
fn codewords_in_the_rows_alone_are_no_frame() {
    let repaired = report(Ending::Repaired, 2, 12, (0, 0));
    let spent = report(Ending::Spent, 1, 0, (0, 12));
    let received = item(&[TWELVE]);
    assert_eq!(decode(18, 2, &received), (repaired, item(&[])));
    assert_eq!(decode(18, 1, &received), (spent, received.clone()));
    let mut data = [OLD];
    let refused = Code::new().read(18, &received, &mut data);
    assert_eq!((refused, data), (Err(Refusal::NotCodewords), [OLD]));
}

#[test]
fn data_bit_1_makes_144_ones() {
    let code = Code::new();
    let mut frame = [OLD; 54];
    assert_eq!(code.encode(18, &[0x80], &mut frame), Ok(()));
    for i in 0..18 {
        let set = TWELVE[i / 8] >> (7 - i % 8) & 1 == 1;
        assert_eq!(row(18, &frame, i), if set { TWELVE } else { [0; 3] });
    }
    assert_eq!(frame.iter().map(|b| b.count_ones()).sum::<u32>(), 144);
    let mut data = [OLD];
    assert_eq!(code.read(18, &frame, &mut data), Ok(()));
    assert_eq!(data, [0x80]);
}

#[test]
fn words_of_18() {
    let (answer, word) = decode_word(18, &[0, 0, 0x40]);
    assert_eq!((answer, word), (Answer::OnePlace(17), vec![0; 3]));
    assert_eq!(answer.number(), 0);
    let received = vec![0xe0, 0, 0x01];
    let (answer, word) = decode_word(18, &received);
    assert_eq!((answer, word), (Answer::NoCodeword, received));
    assert_eq!(answer.number(), 9);
}

#[test]
fn words_of_ones() {
    let ones = vec![0xff; 32];
    assert_eq!(decode_word(256, &ones), (Answer::Codeword, ones));
    for last in [0xfe, 0xfcu8] {
        let mut ones = vec![0xff; 32];
        ones[31] = last;
        let n = 248 + last.count_ones() as usize;
        assert_eq!(decode_word(n, &ones), (Answer::NoCodeword, ones));
    }
}

#[test]
fn a_spare_bit_is_not_an_error() {
    for spare in 0..6 {
        let clean = report(Ending::Clean, 0, 0, (0, 0));
        let received = item(&[[0, 0, 1 << spare]]);
        assert_eq!(decode(18, 2, &received), (clean, item(&[])));
    }
}

#[test]
fn word_length_is_checked_first() {
    let code = Code::new();
    for n in [
        0,
        1,
        16,
        17,
        257,
        4096,
        usize::MAX / 2,
        usize::MAX - 7,
        usize::MAX,
    ] {
        let refused = Refusal::WordLength;
        let mut out = [OLD; 7];
        assert_eq!(code.encode(n, &[1; 5], &mut out), Err(refused));
        assert_eq!(code.read(n, &[1; 5], &mut out), Err(refused));
        assert_eq!(code.decode(n, 0, &[1; 5], &mut out), Err(refused));
        assert_eq!(code.decode_word(n, &[1; 5], &mut out), Err(refused));
        assert_eq!(code.encode_word(n, &[1; 5], &mut out), Err(refused));
        assert_eq!(out, [OLD; 7]);
        assert!(row(n, &out, 0).is_empty());
        assert_eq!(refused.number(), 1);
    }
    let clean = report(Ending::Clean, 0, 0, (0, 0));
    assert_eq!(decode(18, 1, &[0; 54]).0, clean);
    assert_eq!(decode(256, 1, &[0; 8192]).0, clean);
}

#[test]
fn allowance_is_checked_after_the_lengths() {
    let code = Code::new();
    for allowance in [0, 201, 256, usize::MAX] {
        let mut out = [OLD; 54];
        let refused = code.decode(18, allowance, &[0; 54], &mut out);
        assert_eq!(refused, Err(Refusal::Allowance));
        assert_eq!(refused.unwrap_err().number(), 4);
        let refused = code.decode(18, allowance, &[0; 54], &mut out[1..]);
        assert_eq!(refused, Err(Refusal::OutputLength));
        assert_eq!(refused.unwrap_err().number(), 3);
        let refused = code.decode(18, allowance, &[0; 53], &mut out[1..]);
        assert_eq!(refused, Err(Refusal::InputLength));
        assert_eq!(refused.unwrap_err().number(), 2);
        assert_eq!(out, [OLD; 54]);
    }
    for allowance in [1, 32, 33, 200] {
        assert_eq!(decode(18, allowance, &[0; 54]).0.ending, Ending::Clean);
    }
}

#[test]
fn lengths_must_be_exact() {
    let code = Code::new();
    for wrong in [0, 53, 55] {
        let mut out = vec![OLD; 54];
        let refused = code.decode(18, 1, &vec![0; wrong], &mut out);
        assert_eq!(refused, Err(Refusal::InputLength));
        let refused = code.read(18, &vec![0; wrong], &mut out[..1]);
        assert_eq!(refused, Err(Refusal::InputLength));
        let refused = code.read(18, &[0; 54], &mut out[..wrong.min(54)]);
        assert_eq!(refused, Err(Refusal::OutputLength));
        assert_eq!(out, vec![OLD; 54]);
        let mut out = vec![OLD; wrong];
        let refused = code.encode(18, &[0x80], &mut out);
        assert_eq!(refused, Err(Refusal::OutputLength));
        let refused = code.encode(18, &[0x80; 2], &mut out);
        assert_eq!(refused, Err(Refusal::InputLength));
        assert_eq!(out, vec![OLD; wrong]);
        assert!(row(18, &out, 0).is_empty());
    }
}

#[test]
fn reading_asks_for_codewords_after_the_lengths() {
    let code = Code::new();
    let mut bad = [0; 54];
    bad[53] = 0x40;
    let mut data = [OLD; 2];
    let refused = code.read(18, &bad, &mut data[..1]);
    assert_eq!(refused, Err(Refusal::NotCodewords));
    assert_eq!(refused.unwrap_err().number(), 6);
    let refused = code.read(18, &bad, &mut data);
    assert_eq!(refused, Err(Refusal::OutputLength));
    assert_eq!(data, [OLD; 2]);
    bad[53] = 0x20;
    assert_eq!(code.read(18, &bad, &mut data[..1]), Ok(()));
    assert_eq!(data, [0, OLD]);
}

#[test]
fn encoding_refuses_spare_bits() {
    let code = Code::new();
    for spare in 0..7 {
        let mut out = [OLD; 54];
        let refused = code.encode(18, &[0x80 | 1 << spare], &mut out);
        assert_eq!(refused, Err(Refusal::SpareBits));
        assert_eq!(refused.unwrap_err().number(), 5);
        let refused = code.encode_word(18, &[1 << spare], &mut out[..3]);
        assert_eq!(refused, Err(Refusal::SpareBits));
        let refused = code.encode(18, &[1 << spare], &mut out[..53]);
        assert_eq!(refused, Err(Refusal::OutputLength));
        assert_eq!(out, [OLD; 54]);
    }
}
