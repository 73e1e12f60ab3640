//! The work is done in batches, one for each kind of check, round and word length. A batch has its own seed, so that the cases
//! are the same on any number of threads.

use crate::case::{Case, Entry, Said};
use crate::found::Found;
use crate::packed::{more_of, number_of};
use crate::promise::Promise;
use second::Code;
use shared::bits::{square_bytes, CHECK_BITS, LONGEST, NEAR_ONES, SHORTEST};
use shared::division::{is_codeword, is_frame_of};
use shared::random::Random;
use shared::run::{on_all, Scale};
use shared::written::{self, Written};
use std::io::Write;
use std::ops::RangeInclusive;

pub type Tally = shared::tally::Tally<Found>;

/// One kind of check. It passes or fails as a whole.
pub struct Kind {
    pub name: &'static str,
    /// How many cases `make` is to make for one word length, where it is free to choose.
    pub count: usize,
    /// The cases of one round are at least so many.
    pub least: u64,
    /// Every n of these must be met.
    pub lengths: RangeInclusive<usize>,
    /// Each answer of these must be met.
    pub answers: &'static str,
    pub make: Box<dyn Fn(&mut Batch) + Sync>,
}

impl Kind {
    pub fn must_see(&self) -> impl Iterator<Item = &'static str> {
        self.answers.split_whitespace()
    }

    /// Writes a few cases of one word length, and the second program's answers, which keep their promises.
    pub fn write(&self, code: &Code, n: usize, count: usize, sink: &mut dyn Write) {
        let random = Scale { seed: 1, rounds: 1, quick: true }.random(self.name, &[n as u64]);
        let count = count.min(self.count);
        (self.make)(&mut Batch { code, random, n, count, quick: true, tally: Tally::default(), sink: Some(sink) });
    }

    /// Makes and checks all cases.
    pub fn run(&self, code: &Code, scale: Scale) -> Tally {
        // The long words first, since they take longest.
        let all = (SHORTEST..=LONGEST).rev();
        let lengths: Vec<usize> = all.filter(|n| !scale.quick || *n < 64 || n % 32 < 2 || *n == NEAR_ONES).collect();
        on_all(lengths.len() * scale.rounds, |index, tally| {
            let (n, round) = (lengths[index % lengths.len()], index / lengths.len());
            let random = scale.random(self.name, &[round as u64, n as u64]);
            let count = if scale.quick { (self.count + 15) / 16 } else { self.count };
            let mut batch = Batch { code, random, n, count, quick: scale.quick, tally: Tally::default(), sink: None };
            (self.make)(&mut batch);
            tally.add(batch.tally);
            true
        })
    }
}

pub struct Batch<'a> {
    pub code: &'a Code,
    pub random: Random,
    pub n: usize,
    pub count: usize,
    pub quick: bool,
    tally: Tally,
    /// Where the cases go, if they are not put to the proved engine here.
    pub sink: Option<&'a mut dyn Write>,
}

impl Batch<'_> {
    /// The frame of `data`, made by the second program and divided to see that it is one.
    pub fn write(&mut self, data: Vec<u8>) -> Written {
        let written = written::frame_of(self.code, self.n, data);
        self.divide(&written.data, &written.frame, true);
        written
    }

    pub fn write_random(&mut self) -> Written {
        let data = written::data(&mut self.random, self.n);
        self.write(data)
    }

    /// The codeword of n bits that begins with `data`, made and divided likewise.
    pub fn write_word(&mut self, n: usize, data: Vec<u8>) -> Vec<u8> {
        let word = written::codeword_of(self.code, n, data);
        self.judge(is_codeword(n, &word));
        word
    }

    /// By long division, `frame` must be the one of `data`, or (not expected) must not be.
    pub fn divide(&mut self, data: &[u8], frame: &[u8], expected: bool) {
        self.judge(is_frame_of(self.n, data, frame) == expected);
    }

    fn judge(&mut self, right: bool) {
        if !right {
            self.tally.count("judged otherwise by long division");
        }
    }

    pub fn case(&mut self, entry: Entry, input: Vec<u8>, output_len: usize) -> Case {
        Case::new(&mut self.random, entry, self.n, input, output_len)
    }

    pub fn encode_case(&mut self, data: Vec<u8>) -> Case {
        self.case(Entry::Encode, data, square_bytes(self.n))
    }

    pub fn read_case(&mut self, frame: Vec<u8>) -> Case {
        self.case(Entry::Read, frame, square_bytes(self.n - CHECK_BITS))
    }

    pub fn decode_case(&mut self, allowance: usize, received: Vec<u8>) -> Case {
        self.case(Entry::Decode, received, square_bytes(self.n)).with(allowance)
    }

    /// A call that leaves the output as it is, for this number.
    pub fn check_refused(&mut self, case: Case, number: u64) {
        let promise = Promise::refused(number, &case);
        self.check(case, promise, &[]);
    }

    /// Puts a case to both sides. `written` is what was there before the damage, or empty. Gives what the proved engine said.
    pub fn check(&mut self, case: Case, promise: Promise, written: &[u8]) -> Said {
        const DIFFERENCE: [&str; 7] = [
            "smallest difference of Decode",
            "smallest difference of Word",
            "smallest difference of Encode",
            "smallest difference of Read",
            "smallest difference of Row",
            "smallest difference of Locate",
            "smallest difference of Receive",
        ];
        if let Some(sink) = &mut self.sink {
            let said = case.second(self.code);
            assert!(promise.kept(&said), "the second program does not keep a promise: {:?}", case);
            case.write(&said, sink).expect("a case can be written");
            return said;
        }
        let (proved, second) = (case.proved(), case.second(self.code));
        self.note(&case, &proved, written);
        if !matches!(promise, Promise::None) {
            self.tally.count("promises");
        }
        let differ = proved != second;
        let broken = !promise.kept(&proved) || !promise.kept(&second);
        let entry = case.entry as usize;
        let found =
            || Found { case: case.clone(), written: written.to_vec(), proved: proved.clone(), second: second.clone() };
        if differ {
            self.tally.count("differences");
            self.tally.keep(DIFFERENCE[entry], found());
        }
        if broken {
            self.tally.count("promises not kept");
            self.tally.keep("smallest promise not kept", found());
        }
        proved
    }

    /// Counts something that must be met.
    pub fn met(&mut self, what: &'static str) {
        self.tally.count(what);
    }

    /// Counts a case by the answer it got.
    fn note(&mut self, case: &Case, said: &Said, written: &[u8]) {
        const REFUSED: [&str; 7] = ["", "Number1", "Number2", "Number3", "Number4", "Number5", "Number6"];
        const CHANGED: [&str; 3] = ["Codeword", "OnePlace", "TwoPlaces"];
        let tally = &mut self.tally;
        tally.count("cases");
        if case.n <= LONGEST {
            tally.meet("n", case.n);
        }
        tally.count(match (said.number, case.entry) {
            (packed, Entry::Receive) => answer_to_piece(case, packed),
            (0, Entry::Row) => "NoRow",
            (_, Entry::Row) => "Row",
            (0, Entry::Encode) => "Encoded",
            (0, Entry::Read) => "Read",
            (0, Entry::Word | Entry::Locate) => CHANGED[said.in_block()[0].min(2) as usize],
            (number @ 1..=6, _) => REFUSED[number as usize],
            (9, _) => "NoCodeword",
            (10, _) => "Number10",
            (11, _) => "Number11",
            _ => return self.note_frame(case, said, written),
        });
    }

    fn note_frame(&mut self, case: &Case, said: &Said, written: &[u8]) {
        let (tally, counts) = (&mut self.tally, said.in_block());
        let (passes, bits) = (counts[1], counts[2]);
        tally.reach("passes", passes.into());
        tally.reach("bits", bits.into());
        tally.meet("allowance", case.argument);
        if said.number == 0 {
            tally.meet("repaired after", passes as usize);
        }
        let (ending, special) = match (said.number, passes) {
            (0, 0) => ("Clean", ""),
            (0, 1) => ("Repaired", "RepairedInOne"),
            (0, 2) => ("Repaired", "RepairedInTwo"),
            (0, 10..) => ("Repaired", "RepairedLate"),
            (0, _) => ("Repaired", ""),
            (7, 2) => ("Stuck", "StuckInTwo"),
            (7, 10..) => ("Stuck", "StuckLate"),
            (7, _) => ("Stuck", ""),
            _ => ("Spent", ""),
        };
        tally.count(ending);
        if !special.is_empty() {
            tally.count(special);
        }
        if said.number == 0 && !written.is_empty() && said.output != written {
            tally.count("WronglyRepaired");
        }
    }
}

/// By the state that came back.
fn answer_to_piece(case: &Case, packed: u64) -> &'static str {
    match number_of(packed) {
        0 if more_of(packed) => "MoreWanted",
        0 if case.input.is_empty() => "NoMoreAfterEmpty",
        0 => "NoMore",
        1 => "Number1",
        2 => "Number2",
        14 if case.input.is_empty() => "Number14OfEmpty",
        14 => "Number14",
        _ => "OtherNumber",
    }
}
