//! The output gets whole to a slow reader and to a file; and the styles do what they say.

use crate::compare::Sides;
use crate::mixed;
use crate::process::{file_of, Outcome, Program};
use crate::records::Maker;
use crate::style::Style;
use shared::score::{grouped, Score};
use std::io::Read;
use std::thread;
use std::time::Duration;

/// Reads nothing at first, so that the pipe gets full; then a few bytes at a time, with pauses.
fn read_slowly(program: &Program, input: &[u8], maker: &mut Maker) -> Outcome {
    let mut running = program.start(file_of(input), input.len());
    let mut said = Vec::new();
    let mut steps = 0;
    thread::sleep(Duration::from_millis(200));
    loop {
        let mut part = vec![0; maker.random.within(1, 100)];
        let count = running.output.read(&mut part).expect("a pipe can be read");
        if count == 0 {
            break;
        }
        said.extend_from_slice(&part[..count]);
        steps += 1;
        if steps % 500 == 0 {
            thread::sleep(Duration::from_millis(5));
        }
    }
    program.outcome(&running, said)
}

/// Each style makes as many reads as it must, if the system counts them.
fn reads(sides: &Sides, maker: &mut Maker, score: &mut Score) -> Option<()> {
    let input = mixed::short_lines(maker, 60).bytes();
    // The calls to read on an input of one byte, beside the one that gets it. It could be the first of a good line, so that the
    // program must ask for more.
    let others = sides.program.run(&maker.job.header()[..1], Style::File).reads?.saturating_sub(1);
    for (name, style) in [
        ("reads of single bytes", Style::Bytes),
        ("reads that end at cuts anywhere", Style::Anywhere(3)),
        ("reads that end at cuts about line ends", Style::LineEnds(3)),
    ] {
        let reads = sides.program.run(&input, style).reads?;
        let least = others + if style == Style::Bytes { input.len() } else { style.cuts(&input).len() + 1 };
        let fault = if reads < least { "there are too few" } else { "" };
        score.count(&maker.job.check(name), fault, &format!("{} reads, {} or more wanted", reads, least));
    }
    Some(())
}

pub fn checks(sides: &Sides, maker: &mut Maker, score: &mut Score) {
    let short_lines = mixed::short_lines(maker, 40_000).bytes();
    let long = [&short_lines[..], b"\n", &[b'\n'; 40_000]].concat();
    let expected = (maker.job.of_all)(sides.code, &long);
    let slowly = read_slowly(sides.program, &long, maker);
    let to_file = sides.program.run_from_file_to_file(&long);
    for (name, outcome) in [("an output that is read slowly", slowly), ("an output that is a file", to_file)] {
        let bytes = grouped(outcome.said.len() as u64);
        score.count(&maker.job.check(name), outcome.fault(&expected), &format!("{} bytes", bytes));
    }
    reads(sides, maker, score);
}
