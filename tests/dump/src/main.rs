//! Runs the programs that REPAIR and WRITE name, or one of them, on every kind of input, and counts each kind and style as
//! passed or failed. The flags are those of `Scale`.

mod chain;
mod compare;
mod data;
mod ends;
#[cfg(feature = "engine")]
mod engine;
mod failing;
mod frames;
mod headers;
mod items;
mod job;
mod kinds;
mod long;
mod memory;
mod mixed;
mod output;
mod places;
mod print;
mod process;
mod records;
mod said;
mod speed;
mod style;
mod system;
mod text;
mod watch;
mod wrong;

use compare::{maker, Found, Sides, Tally};
use job::{Job, REPAIR, WRITE};
use process::Program;
use second::Code;
use shared::bits::{LONGEST, SHORTEST};
use shared::run::Scale;
use shared::score::{grouped, Score};
use watch::Watch;

fn main() {
    let (scale, code) = (Scale::asked(), Code::new());
    let (mut score, watch) = (Score::default(), Watch::start());
    let [repair, write] = [(&REPAIR, "REPAIR"), (&WRITE, "WRITE")].map(|(job, name)| {
        let path = std::env::var_os(name)?;
        Some(Program { job, path, limits: Vec::new(), watch: watch.clone() })
    });
    let mut found: Vec<(String, &Program, Found)> = Vec::new();
    for program in [&repair, &write].into_iter().flatten() {
        let sides = Sides { code: &code, program };
        let here = each_kind(&sides, scale, &mut score);
        found.extend(here.into_iter().map(|(name, found)| (name, program, found)));
        whole_runs(&sides, scale, &mut score);
    }
    if let (Some(repair), Some(program), false) = (&repair, &write, scale.quick) {
        both(&Sides { code: &code, program }, repair, scale, &mut score);
    }
    // The smallest, and few of them: making one smaller may take a while.
    found.sort_by_key(|(_, _, found)| found.input.bytes().len());
    for (name, program, found) in found.into_iter().take(3) {
        println!("{}", print::found(&name, &Sides { code: &code, program }.shrink(found)));
    }
    score.end()
}

/// The inputs on which something was wrong, each with the name of its check.
fn each_kind(sides: &Sides, scale: Scale, score: &mut Score) -> Vec<(String, Found)> {
    let (mut total, mut found) = (Tally::default(), Vec::new());
    for kind in kinds::all(sides.program.job) {
        total.add(kind.run(sides, scale, score, &mut found));
    }
    if !scale.quick {
        coverage(sides.program.job, score, &total, scale);
    }
    found
}

/// What the writer writes, against other programs than the second.
fn both(writes: &Sides, repair: &Program, scale: Scale, score: &mut Score) {
    chain::checks(writes, repair, scale, score);
    #[cfg(feature = "engine")]
    engine::check(writes, scale, score);
}

/// What must have been met somewhere in all inputs together.
fn coverage(job: &Job, score: &mut Score, total: &Tally, scale: Scale) {
    let (drawn, inputs) = ((4000 / job.thinned * scale.rounds) as u64, total.of("drawn"));
    let mut met = |name: &str, met, counts: &str| score.met(&job.check(name), met, counts);
    met("inputs drawn at random", inputs >= drawn, &format!("{} inputs", grouped(inputs)));
    let words: Vec<String> = job.words.iter().map(|word| format!("{} {}", word, grouped(total.of(word)))).collect();
    let often = job.words.iter().all(|word| total.of(word) >= 20);
    met("each sort of line", often, &words.join(", "));
    let mut every = |name: &str, what: &str, low, high| {
        let missing = total.missing(what, low..=high);
        met(name, missing.is_none(), &missing.map_or(String::new(), |value| format!("{} was not met", value)));
    };
    every("records of every n", "n", SHORTEST, LONGEST);
    every("record numbers of 1 to 9 digits", "digits", 1, 9);
    let most = total.most("bad line");
    met("bad lines of 7 digits", most >= 1_000_000, &grouped(most));
    if job.wrong_bits > 0 {
        let most = ["passes", "bits"].map(|what| total.most(what));
        met("passes of 3 digits, bits of 4", most[0] >= 100 && most[1] >= 1000, &most.map(grouped).join(", "));
    }
}

/// What is not about single inputs.
fn whole_runs(sides: &Sides, scale: Scale, score: &mut Score) {
    if sides.program.watch.gave_up() {
        let name = sides.program.job.check("whole runs");
        return score.count(&name, "not tried, since a program had to be stopped too often", "");
    }
    let mut maker = maker(sides, scale, "whole runs");
    failing::checks(sides, scale, score);
    if !scale.quick {
        output::checks(sides, &mut maker, score);
        memory::checks(sides, &mut maker, score);
        speed::check(sides, &mut maker, score);
    }
}
