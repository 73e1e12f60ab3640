//! A dump of received frames as text, and the report on it.
//!
//! A dump's first line is `frames`, a tab and `1`. Each further line is a
//! record of four fields parted by tabs: its number, n, the allowance, and the
//! frame in upper-case hex. The report has one line for each of them, and a
//! first line of its own.

use crate::answer::{Ending, Refusal, Report};
use crate::lines::{answers, answers_to_part, bytes_of, decimal, fields, Form};
use crate::Code;

const DUMP: Form = Form {
    header: b"frames\t1",
    answer_header: "repair\t1\n",
    longest_line: 16_414,
};

struct Record {
    number: usize,
    n: usize,
    allowance: usize,
    frame: Vec<u8>,
}

/// The report on the dump that is `input`. Builds the tables for it.
pub fn report(input: &[u8]) -> Vec<u8> {
    report_with(&Code::new(), input)
}

/// The report on the dump that is `input`, made with the tables of `code`.
pub fn report_with(code: &Code, input: &[u8]) -> Vec<u8> {
    answers(&DUMP, input, |line| {
        record(line).map(|record| answer_line(code, &record))
    })
}

/// The report on a dump of which no more than `input` could be read, made
/// likewise: that on the lines which have their LF.
pub fn report_of_part(code: &Code, input: &[u8]) -> Vec<u8> {
    answers_to_part(input, |lines| report_with(code, lines))
}

/// The record that `line` holds, or none if it is bad.
fn record(line: &[u8]) -> Option<Record> {
    match fields(line)[..] {
        [number, n, allowance, frame] => Some(Record {
            number: decimal(number)?,
            n: decimal(n)?,
            allowance: decimal(allowance)?,
            frame: bytes_of(frame)?,
        }),
        _ => None,
    }
}

fn answer_line(code: &Code, record: &Record) -> String {
    // As long as the frame itself, so that number 3 is never given.
    let mut mended = vec![0; record.frame.len()];
    match code.decode(record.n, record.allowance, &record.frame, &mut mended) {
        Ok(report) => ended_line(record.number, &report),
        Err(Refusal::Erased) => erased_line(record.number),
        Err(refusal) => refused_line(record.number, refusal),
    }
}

fn ended_line(number: usize, report: &Report) -> String {
    format!(
        "{}\t{}\t{}\t{}\t{}\t{}\n",
        number,
        ending_name(report.ending),
        report.passes,
        report.bits,
        report.bad_rows,
        report.bad_columns
    )
}

fn ending_name(ending: Ending) -> &'static str {
    match ending {
        Ending::Clean => "clean",
        Ending::Repaired => "repaired",
        Ending::Stuck => "stuck",
        Ending::Spent => "spent",
    }
}

fn erased_line(number: usize) -> String {
    format!("{}\terased\t0\t0\t0\t0\n", number)
}

fn refused_line(number: usize, refusal: Refusal) -> String {
    format!("{}\trefused\t{}\t0\t0\t0\n", number, refusal.number())
}
