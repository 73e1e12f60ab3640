//! The two programs: what each reads and writes, which records it is tried with, and what the second program's library says in
//! its place.

use crate::records::Maker;
use crate::said::{self, Said};
use crate::text::{Input, Line};
use crate::{data, frames, items};
use second::data::{dump_of_part, dump_with};
use second::dump::{report_of_part, report_with};
use second::Code;
use shared::written::Written;

pub struct Job {
    pub name: &'static str,
    /// What is written, in the messages.
    pub output: &'static str,
    /// The word of the first line that is read; a tab and `1` follow.
    pub word: &'static str,
    /// The first line that is written.
    pub answer: &'static str,
    /// A record has so many decimal numbers; hex digits follow, for these bytes of a frame that was written.
    pub decimals: usize,
    pub bytes: fn(Written) -> Vec<u8>,
    /// Records of the other program, and so bad lines of this one.
    pub others: &'static [u8],
    /// The most characters of a line that is read, its LF not counted.
    pub longest_line: usize,
    /// What a line of the output can be: records' words, as `parse` gives them, and whole lines.
    pub words: &'static [&'static str],
    pub parse: fn(&[u8]) -> Option<Said>,
    /// The line that a refused record gives: its number, and the refusal's.
    pub refusal: fn(usize, usize) -> String,
    pub of_all: fn(&Code, &[u8]) -> Vec<u8>,
    /// Where no more than this could be read.
    pub of_part: fn(&Code, &[u8]) -> Vec<u8>,
    /// A record of an n that is taken, and one that may be; what it gives is known of the first.
    pub good: fn(&mut Maker, usize) -> Line,
    pub any: fn(&mut Maker, usize) -> Line,
    pub refused: fn(&mut Maker) -> Line,
    /// Of one n, one of each sort.
    pub each_sort: fn(&mut Maker, usize) -> Vec<Line>,
    pub items: fn() -> Vec<Input>,
    /// Of each record of which the time is taken.
    pub wrong_bits: usize,
    /// Of inputs that are many, one in so many is tried: an odd number, since in some lists each fourth is of a sort.
    pub thinned: usize,
}

/// A dump in, its report out.
pub static REPAIR: Job = Job {
    name: "repair",
    output: "report",
    word: "frames",
    answer: "repair\t1",
    decimals: 3,
    bytes: |written| written.frame,
    others: b"0\t18\t|0\t18\t80|0\t17\t",
    longest_line: 16_414,
    words: &[
        "clean",
        "repaired",
        "stuck",
        "spent",
        "refused 1",
        "refused 2",
        "refused 4",
        "erased",
        "?",
        "repair 1",
        "bad header",
    ],
    parse: said::report_line,
    refusal: |number, why| format!("{}\trefused\t{}\t0\t0\t0", number, why),
    of_all: report_with,
    of_part: report_of_part,
    good: frames::good,
    any: frames::any,
    refused: frames::refused,
    each_sort: frames::each_sort,
    items: items::decoded,
    wrong_bits: 40,
    thinned: 1,
};

/// Data in, the dump of its frames out.
pub static WRITE: Job = Job {
    name: "write",
    output: "dump",
    word: "data",
    answer: "frames\t1",
    decimals: 2,
    bytes: |written| written.data,
    others: b"0\t18\t2\t|0\t18\t2\t80|0\t17\t2\t",
    longest_line: 14_360,
    words: &["written", "refused 1", "refused 2", "refused 5", "refused 10", "?", "frames 1", "bad header"],
    parse: said::dump_line,
    refusal: |number, why| format!("!\t{}\t{}", number, why),
    of_all: dump_with,
    of_part: dump_of_part,
    good: data::good,
    any: data::any,
    refused: data::refused,
    each_sort: data::each_sort,
    items: items::encoded,
    wrong_bits: 0,
    thinned: 3,
};

impl Job {
    /// The first line that is read.
    pub fn header(&self) -> Vec<u8> {
        format!("{}\t1", self.word).into()
    }

    /// The name of a check of this program.
    pub fn check(&self, name: &str) -> String {
        format!("{}: {}", self.name, name)
    }

    /// What is said on standard error where a read failed, or a write.
    pub fn message(&self, failed: &str) -> String {
        let (name, output) = (self.name, self.output);
        match failed {
            "read" => format!("{name}: reading failed: the {output} ends with the last whole line\n"),
            _ => format!("{name}: writing failed: the {output} is not complete\n"),
        }
    }
}
