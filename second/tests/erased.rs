//! Erased frames, all of whose code bits are ones: each call with its number
//! and every byte of the output.

use second::{Code, Ending, Refusal, Report};

/// What stands in an output before a call, to see whether it was touched.
const OLD: u8 = 0xa5;

const LENGTHS: [usize; 10] = [18, 19, 20, 24, 31, 80, 128, 195, 255, 256];

/// `size` rows of `size` ones, spare bits zero.
fn ones(size: usize) -> Vec<u8> {
    let width = (size + 7) / 8;
    let mut row = vec![0xff; width];
    row[width - 1] = 0xff << (8 * width - size);
    row.repeat(size)
}

/// The same, spare bits ones too.
fn filled(size: usize) -> Vec<u8> {
    vec![0xff; ones(size).len()]
}

/// The same, the spare bits of one row in three ones.
fn partly_filled(size: usize) -> Vec<u8> {
    let (mut rows, width) = (ones(size), (size + 7) / 8);
    rows.chunks_mut(width)
        .step_by(3)
        .for_each(|row| row.fill(0xff));
    rows
}

fn flip(size: usize, rows: &mut [u8], i: usize, j: usize) {
    rows[i * ((size + 7) / 8) + j / 8] ^= 0x80 >> (j % 8);
}

fn decode(n: usize, allowance: usize, received: &[u8]) -> (Result<Report, Refusal>, Vec<u8>) {
    let mut frame = vec![OLD; received.len()];
    let said = Code::new().decode(n, allowance, received, &mut frame);
    (said, frame)
}

fn read(n: usize, frame: &[u8]) -> (Result<(), Refusal>, Vec<u8>) {
    let mut data = vec![OLD; ones(n - 17).len()];
    let said = Code::new().read(n, frame, &mut data);
    (said, data)
}

fn encode(n: usize, data: &[u8]) -> (Result<(), Refusal>, Vec<u8>) {
    let mut frame = vec![OLD; ones(n).len()];
    let said = Code::new().encode(n, data, &mut frame);
    (said, frame)
}

/// The output is as it was before.
fn refused<T>(refusal: Refusal, bytes: usize) -> (Result<T, Refusal>, Vec<u8>) {
    (Err(refusal), vec![OLD; bytes])
}

fn ended(ending: Ending, passes: usize, bits: usize, bad: usize) -> Result<Report, Refusal> {
    let (bad_rows, bad_columns) = (bad, bad);
    Ok(Report {
        ending,
        passes,
        bits,
        bad_rows,
        bad_columns,
    })
}

#[test]
fn its_number_is_10() {
    assert_eq!(Refusal::Erased.number(), 10);
}

#[test]
fn ones_are_erased_whatever_the_spare_bits() {
    for n in LENGTHS {
        for frame in [ones(n), filled(n), partly_filled(n)] {
            for allowance in [1, 2, 200] {
                let said = decode(n, allowance, &frame);
                assert_eq!(said, refused(Refusal::Erased, frame.len()));
            }
            // Not 6, as at 18, and not 0, as at 256.
            let bytes = ones(n - 17).len();
            assert_eq!(read(n, &frame), refused(Refusal::Erased, bytes));
        }
    }
}

#[test]
fn of_18_one_zero_makes_it_stuck() {
    for place in 0..18 * 18 {
        for mut frame in [ones(18), filled(18)] {
            flip(18, &mut frame, place / 18, place % 18);
            let (stuck, spent) = (
                ended(Ending::Stuck, 2, 0, 18),
                ended(Ending::Spent, 1, 0, 18),
            );
            assert_eq!(decode(18, 2, &frame), (stuck, frame.clone()));
            assert_eq!(decode(18, 1, &frame), (spent, frame.clone()));
            assert_eq!(read(18, &frame), refused(Refusal::NotCodewords, 1));
        }
    }
}

#[test]
fn of_256_one_zero_makes_it_repaired() {
    for (i, j) in [(0, 0), (0, 255), (17, 100), (255, 0), (255, 255)] {
        let mut frame = ones(256);
        flip(256, &mut frame, i, j);
        let repaired = ended(Ending::Repaired, 1, 1, 0);
        assert_eq!(decode(256, 1, &frame), (repaired, ones(256)));
        let bytes = ones(239).len();
        assert_eq!(read(256, &frame), refused(Refusal::NotCodewords, bytes));
    }
}

#[test]
fn a_zero_in_the_last_column_is_no_spare_bit() {
    for n in LENGTHS {
        for mut frame in [ones(n), filled(n)] {
            flip(n, &mut frame, n / 2, n - 1);
            assert_ne!(decode(n, 2, &frame).0, Err(Refusal::Erased));
            assert_eq!(read(n, &frame).0, Err(Refusal::NotCodewords));
        }
    }
}

#[test]
fn numbers_1_to_4_come_before_it() {
    let code = Code::new();
    for n in LENGTHS {
        let (frame, bytes) = (ones(n), ones(n).len());
        for allowance in [0, 201, usize::MAX] {
            let said = decode(n, allowance, &frame);
            assert_eq!(said, refused(Refusal::Allowance, bytes));
            let mut out = vec![OLD; bytes];
            let said = code.decode(n, allowance, &frame, &mut out[1..]);
            assert_eq!(said, Err(Refusal::OutputLength));
            let said = code.decode(n, allowance, &frame[1..], &mut out[1..]);
            assert_eq!(said, Err(Refusal::InputLength));
            let said = code.decode(n + 256, allowance, &frame, &mut out);
            assert_eq!(said, Err(Refusal::WordLength));
            assert_eq!(out, vec![OLD; bytes]);
        }
        let mut data = vec![OLD; ones(n - 17).len() + 1];
        let said = code.read(n, &frame, &mut data);
        assert_eq!(said, Err(Refusal::OutputLength));
        let said = code.read(n, &frame[1..], &mut data);
        assert_eq!(said, Err(Refusal::InputLength));
        let said = code.read(n + 256, &frame, &mut data);
        assert_eq!(said, Err(Refusal::WordLength));
        assert!(data.iter().all(|&byte| byte == OLD));
    }
}

#[test]
fn data_of_ones_are_refused_at_256_alone() {
    for n in LENGTHS {
        let data = ones(n - 17);
        let (said, frame) = encode(n, &data);
        if n == 256 {
            assert_eq!((said, frame), refused(Refusal::Erased, 8192));
        } else {
            assert_eq!(said, Ok(()));
            assert_ne!(frame, ones(n));
            assert_eq!(read(n, &frame), (Ok(()), data));
        }
    }
}

#[test]
fn data_of_ones_but_one_bit_are_encoded() {
    for (i, j) in [(0, 0), (0, 238), (100, 17), (238, 0), (238, 238)] {
        let mut data = ones(239);
        flip(239, &mut data, i, j);
        let (said, frame) = encode(256, &data);
        assert_eq!(said, Ok(()));
        assert_eq!(read(256, &frame), (Ok(()), data));
    }
}

#[test]
fn numbers_1_to_5_come_before_data_of_ones() {
    let (code, mut out) = (Code::new(), vec![OLD; 8193]);
    for data in [filled(239), partly_filled(239)] {
        assert_eq!(encode(256, &data), refused(Refusal::SpareBits, 8192));
        let said = code.encode(256, &data, &mut out);
        assert_eq!(said, Err(Refusal::OutputLength));
    }
    let data = ones(239);
    let said = code.encode(256, &data, &mut out);
    assert_eq!(said, Err(Refusal::OutputLength));
    let said = code.encode(256, &data[1..], &mut out);
    assert_eq!(said, Err(Refusal::InputLength));
    let said = code.encode(257, &data, &mut out);
    assert_eq!(said, Err(Refusal::WordLength));
    assert_eq!(out, vec![OLD; 8193]);
}

/// At n = 80 the word of ones but for places 2 and 21 is a codeword. The frame
/// that has it in its rows, but for rows 2 and 21, can be spoiled to ones: then
/// it does not come back. With one zero among them it does.
#[test]
fn of_80_a_spoiled_frame_can_be_erased() {
    let mut data = ones(63);
    for i in 0..63 {
        flip(63, &mut data, i, 2);
        flip(63, &mut data, i, 21);
    }
    for row in [2, 21] {
        data[row * 8..(row + 1) * 8].fill(0);
    }
    let (said, written) = encode(80, &data);
    assert_eq!(said, Ok(()));
    let row = [&[0xdf, 0xff, 0xfb][..], &[0xff; 7]].concat();
    for (i, part) in written.chunks(10).enumerate() {
        assert_eq!(
            part,
            if [2, 21].contains(&i) {
                &[0; 10]
            } else {
                &row[..]
            }
        );
    }
    let bytes = written.len();
    assert_eq!(decode(80, 200, &ones(80)), refused(Refusal::Erased, bytes));
    // Two wrong bits in each of 78 rows, and two rows lost.
    let wrong = 2 * 78 + 2 * 80;
    for (i, j) in [(0, 2), (79, 21), (2, 0), (21, 79)] {
        let mut received = ones(80);
        flip(80, &mut received, i, j);
        let repaired = ended(Ending::Repaired, 2, wrong - 1, 0);
        assert_eq!(decode(80, 2, &received), (repaired, written.clone()));
    }
}
