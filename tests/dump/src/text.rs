//! An input as lines, each with what the rules say of its line of the output by the way it was made, whatever the second
//! program says.

use crate::job::Job;
use crate::said::{self, unhex};
use shared::division::is_frame_of;
use std::ops::Range;

/// What a line of the input must give.
#[derive(Clone)]
pub enum Expect {
    /// It is the good first line.
    Header,
    /// `?` and the number of the line.
    Bad,
    /// Just this, without its LF.
    Exactly(String),
    /// One of the four endings, and no more passes than were allowed.
    Ended { number: usize, allowance: usize },
    /// The record of a dump with the frame of these data.
    Frame { number: usize, n: usize, data: Vec<u8> },
    /// `?` and the number of the line, or a record's line with the number that the line begins with.
    Either,
}

#[derive(Clone)]
pub struct Line {
    pub text: Vec<u8>,
    pub expect: Expect,
}

impl Line {
    pub fn header(job: &Job) -> Line {
        Line { text: job.header(), expect: Expect::Header }
    }

    pub fn bad(text: impl Into<Vec<u8>>) -> Line {
        Line { text: text.into(), expect: Expect::Bad }
    }

    /// Its line of the report is a number, and these words.
    pub fn says(text: Vec<u8>, number: usize, words: &str) -> Line {
        let said = format!("{} {}", number, words).replace(' ', "\t");
        Line { text, expect: Expect::Exactly(said) }
    }

    pub fn refused(job: &Job, text: Vec<u8>, number: usize, why: usize) -> Line {
        Line { text, expect: Expect::Exactly((job.refusal)(number, why)) }
    }
}

/// The texts of a list, which has bars between them.
pub fn texts(list: &'static [u8]) -> impl Iterator<Item = &'static [u8]> {
    list.split(|&byte| byte == b'|')
}

#[derive(Clone)]
pub struct Input {
    pub job: &'static Job,
    pub lines: Vec<Line>,
    /// The last line has its LF.
    closed: bool,
}

impl Input {
    /// An empty last line is one only with its LF.
    pub fn new(job: &'static Job, lines: Vec<Line>, closed: bool) -> Input {
        let empty = lines.last().map_or(false, |last| last.text.is_empty());
        let closed = closed || empty;
        Input { job, lines, closed }
    }

    /// The good first line, and `lines`.
    pub fn of(job: &'static Job, mut lines: Vec<Line>, closed: bool) -> Input {
        lines.insert(0, Line::header(job));
        Input::new(job, lines, closed)
    }

    /// Any bytes at all. Nothing but the form is known of the output's lines.
    pub fn raw(job: &'static Job, bytes: &[u8]) -> Input {
        let line = |text: &[u8]| Line { text: text.to_vec(), expect: Expect::Either };
        let mut lines: Vec<Line> = bytes.split(|&byte| byte == b'\n').map(line).collect();
        let closed = lines.last().map_or(false, |last| last.text.is_empty());
        if closed {
            lines.pop();
        }
        if let Some(first) = lines.first_mut() {
            first.expect = if first.text == job.header() { Expect::Header } else { Expect::Bad };
        }
        Input { job, lines, closed }
    }

    pub fn bytes(&self) -> Vec<u8> {
        let mut bytes = Vec::new();
        for (index, line) in self.lines.iter().enumerate() {
            bytes.extend_from_slice(&line.text);
            if self.closed || index + 1 < self.lines.len() {
                bytes.push(b'\n');
            }
        }
        bytes
    }

    /// The input without some lines.
    pub fn without(&self, run: Range<usize>) -> Input {
        let mut lines = self.lines.clone();
        lines.drain(run);
        Input::new(self.job, lines, self.closed)
    }

    pub fn good_header(&self) -> bool {
        let first = self.lines.first();
        first.map_or(false, |line| matches!(line.expect, Expect::Header))
    }

    /// What in `output` is not as the rules say, or nothing.
    pub fn broken(&self, output: &[u8]) -> Option<String> {
        if !self.good_header() {
            let kept = output == b"bad header\n";
            return (!kept).then(|| "the first line is bad, the output is another".to_string());
        }
        let lines = match said::lines(output) {
            Some(lines) => lines,
            None => return Some("the output's last line has no LF".to_string()),
        };
        if lines.len() != self.lines.len() {
            let (is, should) = (lines.len(), self.lines.len());
            return Some(format!("the output has {} lines, the input has {}", is, should));
        }
        for (index, (line, said)) in self.lines.iter().zip(lines).enumerate() {
            if !kept(self.job, line, index + 1, said) {
                return Some(format!("the output's line {} can't be right", index + 1));
            }
        }
        None
    }
}

fn kept(job: &Job, line: &Line, line_number: usize, said: &[u8]) -> bool {
    let bad = || said == format!("?\t{}", line_number).as_bytes();
    match (&line.expect, (job.parse)(said)) {
        (Expect::Header, _) => said == job.answer.as_bytes(),
        (Expect::Bad, _) => bad(),
        (Expect::Exactly(text), _) => said == text.as_bytes(),
        (Expect::Ended { number, allowance }, Some(record)) => {
            record.number == *number && record.taken && record.counts[0] <= *allowance
        }
        (Expect::Frame { number, n, data }, _) => has_frame(said, *number, *n, data),
        (Expect::Either, Some(record)) => {
            let number = line.text.split(|&byte| byte == b'\t').next();
            number == Some(record.number.to_string().as_bytes())
        }
        (Expect::Either, None) => bad(),
        (_, None) => false,
    }
}

/// A line of a dump that is the number, n, the allowance of all that is written, and the frame of these data.
fn has_frame(said: &[u8], number: usize, n: usize, data: &[u8]) -> bool {
    let front = format!("{}\t{}\t8\t", number, n);
    let hex = said.strip_prefix(front.as_bytes()).and_then(|hex| std::str::from_utf8(hex).ok());
    hex.and_then(unhex).map_or(false, |frame| is_frame_of(n, data, &frame))
}
