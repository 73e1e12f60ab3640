//! Data to be written as text, and the dump of the frames that have it.
//!
//! The first line is `data`, a tab and `1`. Each further line is a record of
//! three fields parted by tabs: its number, n, and the data in upper-case hex.
//! The dump has one line for each of them, and a first line of its own. Where
//! there is no frame, the line is none that a dump's reader takes for a record.

use crate::answer::Refusal;
use crate::lines::{answers, answers_to_part, bytes_of, decimal, fields, hex_of, Form};
use crate::{check_word_length, square_bytes, Code};

const DATA: Form = Form {
    header: b"data\t1",
    answer_header: "frames\t1\n",
    longest_line: 14_360,
};

/// The allowance of every record of the dump.
const ALLOWANCE: usize = 8;

struct Record {
    number: usize,
    n: usize,
    data: Vec<u8>,
}

/// The dump of the data that is `input`. Builds the tables for it.
pub fn dump(input: &[u8]) -> Vec<u8> {
    dump_with(&Code::new(), input)
}

/// The dump of the data that is `input`, made with the tables of `code`.
pub fn dump_with(code: &Code, input: &[u8]) -> Vec<u8> {
    answers(&DATA, input, |line| {
        record(line).map(|record| answer_line(code, &record))
    })
}

/// The dump of data of which no more than `input` could be read, made likewise:
/// that of the lines which have their LF.
pub fn dump_of_part(code: &Code, input: &[u8]) -> Vec<u8> {
    answers_to_part(input, |lines| dump_with(code, lines))
}

/// The record that `line` holds, or none if it is bad.
fn record(line: &[u8]) -> Option<Record> {
    match fields(line)[..] {
        [number, n, data] => Some(Record {
            number: decimal(number)?,
            n: decimal(n)?,
            data: bytes_of(data)?,
        }),
        _ => None,
    }
}

fn answer_line(code: &Code, record: &Record) -> String {
    match frame_of(code, record) {
        Ok(frame) => frame_line(record, &frame),
        Err(refusal) => refused_line(record.number, refusal),
    }
}

fn frame_of(code: &Code, record: &Record) -> Result<Vec<u8>, Refusal> {
    // Before a frame of any size is made room for.
    check_word_length(record.n)?;
    let mut frame = vec![0; square_bytes(record.n)];
    code.encode(record.n, &record.data, &mut frame)?;
    Ok(frame)
}

fn frame_line(record: &Record, frame: &[u8]) -> String {
    let hex = hex_of(frame);
    format!("{}\t{}\t{}\t{}\n", record.number, record.n, ALLOWANCE, hex)
}

fn refused_line(number: usize, refusal: Refusal) -> String {
    format!("!\t{}\t{}\n", number, refusal.number())
}
