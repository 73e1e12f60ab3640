//! How an input begins and ends: with and without a last LF, with many, with nothing.

use crate::records::{self, Maker};
use crate::text::{Input, Line};

fn last_lines(maker: &mut Maker) -> Vec<Vec<Line>> {
    let bad = |text: &[u8]| vec![Line::bad(text)];
    let mut endings = vec![
        Vec::new(),
        bad(b"\r"),
        bad(b"\0"),
        bad(b"x"),
        bad(b"0\t18"),
        bad(b"0\t18\t\r"),
        bad(b"0\t18\t0"),
        bad(b"0\t18\t2"),
        bad(b"0\t18\t2\t\r"),
        bad(b"0\t18\t2\t0"),
        bad(b" "),
        bad(b"\t"),
        vec![Line::bad("x"), Line::bad("")],
        vec![Line::bad("\r"), Line::bad("\r")],
    ];
    endings.push(vec![records::good(maker, 18)]);
    endings.push(vec![records::good(maker, 31)]);
    endings.push(vec![records::refused(maker)]);
    endings.push(vec![records::good(maker, 18), Line::bad("")]);
    endings.push(vec![Line::bad(""), records::good(maker, 18)]);
    for empty in 1..=5 {
        endings.push(vec![Line::bad(""); empty]);
        let mut lines = vec![records::good(maker, 19)];
        lines.extend(vec![Line::bad(""); empty]);
        endings.push(lines);
    }
    endings
}

pub fn all(maker: &mut Maker) -> Vec<Input> {
    // No first line at all, and an empty one.
    let job = maker.job;
    let mut inputs = vec![Input::new(job, Vec::new(), false)];
    for empty in 1..=3 {
        inputs.push(Input::new(job, vec![Line::bad(""); empty], true));
    }
    let late = vec![Line::bad(""), Line::header(job), records::good(maker, 18)];
    inputs.push(Input::new(job, late, true));
    for lines in last_lines(maker) {
        let mut after = vec![records::good(maker, 20), Line::bad("")];
        after.extend(lines.clone());
        for lines in [lines, after] {
            for closed in [true, false] {
                inputs.push(Input::of(job, lines.clone(), closed));
            }
        }
    }
    inputs
}
