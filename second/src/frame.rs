//! Whole frames: encoding, and the passes that mend one.

use crate::answer::{Ending, Report};
use crate::matrix::Matrix;
use crate::word::Tables;

/// The frame that has the data of `corner`, which is zero elsewhere.
pub fn encode(tables: &Tables, corner: &Matrix) -> Matrix {
    let encode_rows = |m: &Matrix| m.map_rows(|word| tables.encode(m.n(), word));
    // The rows below the data are zero still, and so are their codewords.
    let rows = encode_rows(corner);
    encode_rows(&rows.transposed()).transposed()
}

/// Whether every row and every column is a codeword.
pub fn is_frame(tables: &Tables, matrix: &Matrix) -> bool {
    let all = |m: &Matrix| m.rows().iter().all(|w| tables.is_codeword(m.n(), w));
    all(matrix) && all(&matrix.transposed())
}

/// Whether every code bit is one.
pub fn is_erased(matrix: &Matrix) -> bool {
    matrix.ones() == matrix.n() * matrix.n()
}

/// Makes passes over `start` until they end. Gives the last frame too.
pub fn mend(tables: &Tables, start: Matrix, allowance: usize) -> (Matrix, Report) {
    if is_frame(tables, &start) {
        let report = report(tables, &start, Ending::Clean, 0, 0);
        return (start, report);
    }
    let mut frame = start;
    let (mut passes, mut bits) = (0, 0);
    // The places that are not as they were received: flipped an odd number of times.
    let mut odd = Matrix::zero(frame.n());
    let ending = loop {
        passes += 1;
        let after = if passes % 2 == 1 {
            row_pass(tables, &frame)
        } else {
            column_pass(tables, &frame)
        };
        let flipped = frame.xor(&after);
        let changed = flipped.ones();
        // Those among the odd ones are flipped back.
        bits = bits + changed - 2 * flipped.and(&odd).ones();
        odd = odd.xor(&flipped);
        frame = after;
        if is_frame(tables, &frame) {
            break Ending::Repaired;
        }
        if passes >= 2 && changed == 0 {
            break Ending::Stuck;
        }
        if passes == allowance {
            break Ending::Spent;
        }
    };
    let report = report(tables, &frame, ending, passes, bits);
    (frame, report)
}

/// Replaces each row that has a codeword within two by it.
fn row_pass(tables: &Tables, matrix: &Matrix) -> Matrix {
    matrix.map_rows(|word| word.corrected(tables.answer(matrix.n(), word)))
}

fn column_pass(tables: &Tables, matrix: &Matrix) -> Matrix {
    row_pass(tables, &matrix.transposed()).transposed()
}

fn report(tables: &Tables, last: &Matrix, ending: Ending, passes: usize, bits: usize) -> Report {
    let (bad_rows, bad_columns) = match ending {
        Ending::Clean | Ending::Repaired => (0, 0),
        Ending::Stuck | Ending::Spent => {
            (bad_rows(tables, last), bad_rows(tables, &last.transposed()))
        }
    };
    Report {
        ending,
        passes,
        bits,
        bad_rows,
        bad_columns,
    }
}

/// The number of rows that are not codewords.
fn bad_rows(tables: &Tables, matrix: &Matrix) -> usize {
    let rows = matrix.rows().iter();
    rows.filter(|w| !tables.is_codeword(matrix.n(), w)).count()
}
