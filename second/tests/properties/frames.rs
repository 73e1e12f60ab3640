use crate::plain::{
    decode_word, differences, encode_word, is_codeword, pack, pack_square, turned, unpack_square,
    Random,
};
use second::{row, Code, Ending, Report};

#[test]
fn rows_first_equals_columns_first() {
    let code = Code::new();
    let mut random = Random(3);
    for n in [18, 19, 24, 25, 26, 63, 81, 128, 195, 255, 256] {
        let k = n - 17;
        let data: Vec<Vec<bool>> = (0..k).map(|_| random.bits(k)).collect();
        let words = |rows: &[Vec<bool>]| -> Vec<Vec<bool>> {
            rows.iter().map(|row| encode_word(&code, n, row)).collect()
        };
        let rows_first = turned(&words(&turned(&words(&data))));
        let columns_first = words(&turned(&words(&turned(&data))));
        assert_eq!(rows_first, columns_first);
        let mut frame = vec![0xff; n * ((n + 7) / 8)];
        assert_eq!(code.encode(n, &pack_square(&data), &mut frame), Ok(()));
        assert_eq!(frame, pack_square(&rows_first));
        for (i, word) in rows_first.iter().enumerate() {
            assert_eq!(row(n, &frame, i), pack(word));
        }
        assert!(row(n, &frame, n).is_empty());
        let mut read = vec![0xff; k * ((k + 7) / 8)];
        assert_eq!(code.read(n, &frame, &mut read), Ok(()));
        assert_eq!(read, pack_square(&data));
    }
}

/// The passes, word by word: the report and the last frame.
fn plain_decode(code: &Code, allowance: usize, start: &[Vec<bool>]) -> (Report, Vec<Vec<bool>>) {
    let bad = |rows: &[Vec<bool>]| rows.iter().filter(|row| !is_codeword(row)).count();
    let mut rows = start.to_vec();
    let (mut passes, mut changed) = (0, 0);
    loop {
        let (bad_rows, bad_columns) = (bad(&rows), bad(&turned(&rows)));
        let ending = match (bad_rows + bad_columns, passes) {
            (0, 0) => Some(Ending::Clean),
            (0, _) => Some(Ending::Repaired),
            (_, 2..) if changed == 0 => Some(Ending::Stuck),
            _ if passes == allowance => Some(Ending::Spent),
            _ => None,
        };
        if let Some(ending) = ending {
            let pairs = rows.iter().zip(start);
            let bits = pairs
                .map(|(last, first)| differences(last, first).len())
                .sum();
            let report = Report {
                ending,
                passes,
                bits,
                bad_rows,
                bad_columns,
            };
            return (report, rows);
        }
        let columns = passes % 2 == 1;
        changed = plain_pass(code, columns, &mut rows);
        passes += 1;
    }
}

/// Mends every row, or every column; how many bits that changes.
fn plain_pass(code: &Code, columns: bool, rows: &mut Vec<Vec<bool>>) -> usize {
    let mut words = if columns { turned(rows) } else { rows.clone() };
    let mut changed = 0;
    for word in &mut words {
        let mended = decode_word(code, word).1;
        changed += differences(&mended, word).len();
        *word = mended;
    }
    *rows = if columns { turned(&words) } else { words };
    changed
}

/// Scattered bits, few or many; a crossing of rows and columns; both.
pub fn damage(random: &mut Random, kind: usize, rows: &mut [Vec<bool>]) {
    let n = rows.len();
    let scattered = [0, n / 2, 3 * n, 0, n / 2][kind];
    for _ in 0..random.below(scattered + 1) {
        rows[random.below(n)][random.below(n)] ^= true;
    }
    if kind >= 3 {
        let (tall, wide) = (1 + random.below(6), 1 + random.below(6));
        let (top, left) = (random.below(n - tall), random.below(n - wide));
        for row in &mut rows[top..top + tall] {
            for bit in &mut row[left..left + wide] {
                *bit ^= true;
            }
        }
    }
}

pub fn set_spare_bits(random: &mut Random, n: usize, frame: &mut [u8]) {
    let spare = (1u16 << ((8 - n % 8) % 8)) - 1;
    for row in frame.chunks_mut((n + 7) / 8) {
        *row.last_mut().unwrap() |= random.next() as u8 & spare as u8;
    }
}

#[test]
fn frames_agree_with_the_passes_made_word_by_word() {
    let code = Code::new();
    let mut random = Random(4);
    let mut seen = [0; 4];
    for round in 0..1000 {
        let widest = if round % 8 == 0 { 256 } else { 48 };
        let n = 18 + random.below(widest - 17);
        let k = n - 17;
        let data: Vec<Vec<bool>> = (0..k).map(|_| random.bits(k)).collect();
        let mut out = vec![0; n * ((n + 7) / 8)];
        code.encode(n, &pack_square(&data), &mut out).unwrap();
        let mut rows = unpack_square(n, &out);
        damage(&mut random, round % 5, &mut rows);
        let mut received = pack_square(&rows);
        set_spare_bits(&mut random, n, &mut received);
        let allowance = 1 + random.below(6);
        let report = code.decode(n, allowance, &received, &mut out).unwrap();
        let (expected, last) = plain_decode(&code, allowance, &rows);
        assert_eq!(report, expected);
        if report.number() == 0 {
            received = pack_square(&last);
        }
        assert_eq!(out, received);
        seen[report.ending as usize] += 1;
    }
    assert!(seen.iter().all(|&count| count >= 50), "{:?}", seen);
}
