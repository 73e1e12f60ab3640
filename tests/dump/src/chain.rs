//! What the writer writes, read by the repair program through a pipe: a frame that was written is clean, and a line that has
//! none is bad, by its own number.

use crate::compare::{maker, Found, Sides, Tally};
use crate::process::{file_of, read_all, Program, Running};
use crate::records::Maker;
use crate::style::Style;
use crate::text::{Expect, Input};
use crate::{ends, headers, mixed, print, wrong};
use shared::bits::{LONGEST, SHORTEST};
use shared::run::{on_all, Scale};
use shared::score::Score;

/// `write | repair`, on this input.
fn report(write: &Program, repair: &Program, input: &[u8]) -> Vec<u8> {
    let Running { child, output, .. } = write.start(file_of(input), input.len());
    // What is read is longer than what was to be written, but not by much.
    let mut reader = repair.start(output, 2 * input.len());
    let report = read_all(&mut reader.output);
    write.watch.end(&child);
    repair.watch.end(&reader.child);
    report
}

/// What must come out, by the way the lines were made.
fn expected(input: &Input) -> String {
    if !input.good_header() {
        return "bad header\n".to_string();
    }
    let line = |(index, expect): (usize, &Expect)| match expect {
        Expect::Header => "repair\t1\n".to_string(),
        Expect::Frame { number, .. } => format!("{}\tclean\t0\t0\t0\t0\n", number),
        _ => format!("?\t{}\n", index + 1),
    };
    input.lines.iter().map(|line| &line.expect).enumerate().map(line).collect()
}

fn inputs(maker: &mut Maker, scale: Scale) -> [(&'static str, Vec<Input>); 4] {
    let bad = wrong::all(maker);
    let every_n = (0..=LONGEST - SHORTEST).map(|index| mixed::every_length(maker, index)).collect();
    let mixed = (0..200 * scale.rounds).map(|_| mixed::mixed(maker, &bad)).collect();
    [
        ("data of every n", every_n),
        ("mixed lines", mixed),
        ("ends of the input", ends::all(maker)),
        ("first lines wrong in some way", headers::wrong(maker).into_iter().step_by(3).collect()),
    ]
}

/// What is wrong with the report on an input.
fn judge(sides: &Sides, repair: &Program, input: &Input) -> Option<Found> {
    let (said, second) = (report(sides.program, repair, &input.bytes()), expected(input).into_bytes());
    let why = "the report is another".to_string();
    (said != second).then(|| Found { input: input.clone(), style: Style::File, said, second, why })
}

/// `sides` is that of the writer.
pub fn checks(sides: &Sides, repair: &Program, scale: Scale, score: &mut Score) {
    for (name, inputs) in inputs(&mut maker(sides, scale, "write and repair"), scale) {
        let name = format!("write | repair: {}", name);
        let mut tally = on_all(inputs.len(), |index, tally: &mut Tally| {
            let found = judge(sides, repair, &inputs[index]);
            found.into_iter().for_each(|found| tally.keep("faults", found));
            tally.of("faults") == 0
        });
        let fault = if tally.of("faults") == 0 { "" } else { "something is wrong" };
        score.count(&name, fault, &format!("{:>6} inputs", inputs.len()));
        tally.smallest().into_values().for_each(|found| println!("{}", print::found(&name, &found)));
    }
}
