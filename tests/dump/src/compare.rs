//! Puts inputs to a program and to the second program's library, and judges the outputs.

use crate::process::Program;
use crate::records::Maker;
use crate::said::{self, Said};
use crate::style::Style;
use crate::text::{Input, Line};
use crate::wrong;
use second::Code;
use shared::bits::LONGEST;
use shared::random::Random;
use shared::run::{on_all, shrink, Scale};
use shared::score::{grouped, Score};
use shared::tally::Fault;
use std::sync::atomic::{AtomicUsize, Ordering};
use std::time::{Duration, Instant};

/// An input on which something was wrong.
#[derive(Clone)]
pub struct Found {
    pub input: Input,
    pub style: Style,
    pub said: Vec<u8>,
    pub second: Vec<u8>,
    pub why: String,
}

impl Fault for Found {
    fn smaller(&self, other: &Found) -> bool {
        let (new, old) = (self.input.bytes(), other.input.bytes());
        (new.len(), new) < (old.len(), old)
    }
}

pub type Tally = shared::tally::Tally<Found>;

/// The two sides.
pub struct Sides<'a> {
    pub code: &'a Code,
    pub program: &'a Program,
}

impl<'a> Sides<'a> {
    fn maker(&self, seed: &[u64]) -> Maker<'a> {
        Maker { job: self.program.job, code: self.code, random: Random::new(seed) }
    }

    /// What is wrong on this input, or nothing; and what the library says to it.
    pub fn judge(&self, input: &Input, style: Style) -> (Option<Found>, Vec<u8>) {
        let bytes = input.bytes();
        let second = (self.program.job.of_all)(self.code, &bytes);
        let outcome = self.program.run(&bytes, style);
        let why = match outcome.fault(&second) {
            "" => input.broken(&outcome.said),
            fault => Some(fault.to_string()),
        };
        let found = |why| Found { input: input.clone(), style, said: outcome.said, second: second.clone(), why };
        (why.map(found), second)
    }

    /// Judges so many inputs in one style. Each has its own seed, so that they are the same on any number of processors.
    fn judge_all(
        &self,
        count: usize,
        style: Style,
        seed: u64,
        make: impl Fn(&mut Maker, usize) -> Input + Sync,
    ) -> Tally {
        let faults = AtomicUsize::new(0);
        on_all(count, |index, tally: &mut Tally| {
            let mut maker = self.maker(&[seed, index as u64]);
            let input = make(&mut maker, index);
            let (found, second) = self.judge(&input, style.seeded(maker.random.number()));
            note(tally, &input, &second);
            if let Some(found) = found {
                faults.fetch_add(1, Ordering::Relaxed);
                tally.keep("faults", found);
            }
            faults.load(Ordering::Relaxed) < MOST_FAULTS && !self.program.watch.gave_up()
        })
    }

    /// Drops runs of lines as long as something stays wrong. A first line that is good stays, since without it no other line
    /// would be read.
    pub fn shrink(&self, found: Found) -> Found {
        const MOST_TIME: Duration = Duration::from_secs(20);
        const MOST_TRIES: usize = 400;
        let (began, mut tries) = (Instant::now(), 0);
        let lines = |found: &Found| usize::from(found.input.good_header())..found.input.lines.len();
        shrink(found, lines, |found, run| {
            tries += 1;
            let enough = tries > MOST_TRIES || began.elapsed() > MOST_TIME;
            (!enough).then(|| self.judge(&found.input.without(run), found.style).0).flatten()
        })
    }
}

pub fn maker<'a>(sides: &Sides<'a>, scale: Scale, name: &str) -> Maker<'a> {
    sides.maker(&[scale.random(name, &[]).number()])
}

/// Where the inputs of a kind come from.
pub enum Source {
    /// As many as are wanted: the input of a number, which may take from a list of bad lines.
    Drawn(fn(&mut Maker, &[Line], usize) -> Input),
    /// All that there are.
    Listed(fn(&mut Maker) -> Vec<Input>),
}

/// One kind of inputs, and what is done with it.
pub struct Kind {
    pub name: &'static str,
    pub source: Source,
    /// In which styles they are read: so many for each round if they are drawn, and one in so many if they are listed.
    pub styles: Vec<(Style, usize)>,
    /// The styles that a quick run takes, from the first on.
    pub quick: usize,
}

/// More than so many inputs of a list are many.
const MANY: usize = 300;

/// A style stops at so many faults: they tend to be the same, and each may take a while.
const MOST_FAULTS: usize = 5;

impl Kind {
    /// Judges the inputs in each style, and counts each style as a check.
    pub fn run(&self, sides: &Sides, scale: Scale, score: &mut Score, all: &mut Vec<(String, Found)>) -> Tally {
        let styles = if scale.quick { &self.styles[..self.quick] } else { &self.styles[..] };
        let mut total = Tally::default();
        if styles.is_empty() {
            return total;
        }
        let mut maker = maker(sides, scale, self.name);
        let (bad, inputs) = match self.source {
            Source::Drawn(_) => (wrong::all(&mut maker), Vec::new()),
            Source::Listed(all) => (Vec::new(), all(&mut maker)),
        };
        let step = if inputs.len() > MANY { sides.program.job.thinned } else { 1 };
        for &(style, number) in styles {
            let step = step * number;
            let count = match self.source {
                Source::Drawn(_) if scale.quick => number / 4,
                Source::Drawn(_) => number * scale.rounds,
                Source::Listed(_) => (inputs.len() + step - 1) / step,
            };
            let name = sides.program.job.check(&format!("{}, {}", self.name, style.name()));
            let seed = scale.random(&name, &[]).number();
            let mut tally = sides.judge_all(count, style, seed, |maker, index| match self.source {
                Source::Drawn(draw) => draw(maker, &bad, index),
                Source::Listed(_) => inputs[index * step].clone(),
            });
            if let Source::Drawn(_) = self.source {
                tally.count_many("drawn", tally.of("inputs"));
            }
            count_style(score, &name, &tally);
            all.extend(tally.smallest().into_values().map(|found| (name.clone(), found)));
            total.add(tally);
        }
        total
    }
}

fn count_style(score: &mut Score, name: &str, tally: &Tally) {
    let fault = match tally.of("faults") {
        0 if tally.of("inputs") == 0 => "nothing was compared".to_string(),
        0 => String::new(),
        faults => format!("something is wrong on {} of them", faults),
    };
    let [inputs, lines] = ["inputs", "lines"].map(|what| grouped(tally.of(what)));
    score.count(name, &fault, &format!("{:>6} inputs {:>10} lines", inputs, lines));
}

/// Counts an input by the output for it.
fn note(tally: &mut Tally, input: &Input, output: &[u8]) {
    tally.count("inputs");
    tally.count_many("lines", input.lines.len() as u64);
    for (index, line) in said::lines(output).unwrap_or_default().iter().enumerate() {
        let record = (input.job.parse)(line);
        let word = match &record {
            Some(said) => said.word.clone(),
            None if line.starts_with(b"?") => "?".to_string(),
            None => String::from_utf8_lossy(line).replace('\t', " "),
        };
        if let Some(known) = input.job.words.iter().find(|&&known| known == word) {
            tally.count(known);
        }
        if let (Some(said), Some(line)) = (record, input.lines.get(index)) {
            note_record(tally, &line.text, &said);
        } else if word == "?" {
            tally.reach("bad line", index as u64 + 1);
        }
    }
}

fn note_record(tally: &mut Tally, text: &[u8], said: &Said) {
    tally.meet("digits", said.number.to_string().len());
    if said.taken {
        let n = text.split(|&byte| byte == b'\t').nth(1).and_then(|n| std::str::from_utf8(n).ok()?.parse().ok());
        tally.meet("n", n.unwrap_or(0).min(LONGEST));
        tally.reach("passes", said.counts[0] as u64);
        tally.reach("bits", said.counts[1] as u64);
    }
}
