//! A program's memory does not grow with its input.

use crate::compare::Sides;
use crate::process::{read_all, Outcome, Program};
use crate::records::{self, most_bytes, Maker};
use crate::system;
use crate::watch::pause;
use shared::score::Score;
use std::io::Write;
use std::process::{ChildStdin, Stdio};
use std::thread;

const LARGE: usize = 64 << 20;

/// In KiB.
const MOST_GROWTH: usize = 256;

/// Stack and address space in KiB. The buffers are to take less than 64, and all are on the stack.
const LIMITS: [&str; 2] = ["-s 72", "-v 16384"];

/// An input that is made while it is written: one part, and then another many times.
struct Parts<'a> {
    head: &'a [u8],
    piece: &'a [u8],
    times: usize,
}

struct Measured {
    outcome: Outcome,
    /// The most memory that it had, resident and mapped, if it did not end before its input.
    peaks: Option<(usize, usize)>,
}

impl Parts<'_> {
    fn write(&self, pipe: &mut ChildStdin) {
        let mut parts = std::iter::once(self.head).chain((0..self.times).map(|_| self.piece));
        // A program that has said `bad header` need not read on.
        let _ = parts.try_for_each(|part| pipe.write_all(part));
    }

    fn len(&self) -> usize {
        self.head.len() + self.times * self.piece.len()
    }
}

fn measure(program: &Program, parts: &Parts) -> Measured {
    let mut running = program.start(Stdio::piped(), parts.len());
    let mut pipe = running.input.take().unwrap();
    let process = running.process;
    let output = &mut running.output;
    let (said, peaks) = thread::scope(|scope| {
        let said = scope.spawn(move || read_all(output));
        parts.write(&mut pipe);
        let mut tries = 0;
        // Until it has read all and asks for more.
        while tries < 20_000 && (system::waiting(&pipe) > 0 || !system::sleeps(process)) {
            pause(&mut tries);
        }
        let peaks = system::peaks(process);
        drop(pipe);
        (said.join().unwrap(), peaks)
    });
    Measured { outcome: program.outcome(&running, said), peaks }
}

/// With the most of a few peaks: what the system counts may lag behind by some pages.
fn measure_small(program: &Program, parts: &Parts) -> Measured {
    let mut small = measure(program, parts);
    for _ in 0..4 {
        let next = measure(program, parts).peaks;
        small.peaks = small.peaks.max(next);
    }
    small
}

/// Lines of all sorts, of which some hundreds fill the large input.
fn lines(maker: &mut Maker) -> Vec<u8> {
    let (job, longest) = (maker.job, maker.job.longest_line);
    let mut texts = vec![
        records::good(maker, 256).text,
        records::good(maker, 195).text,
        vec![b'0'; 20_000],
        vec![b'\t'; longest + 1],
        Vec::new(),
    ];
    for n in 18..28 {
        texts.push(records::any(maker, n).text);
        texts.push(vec![b'x'; longest]);
        texts.push(records::text(job, n, n, &vec![0xc7; most_bytes(job)]));
    }
    texts.push(Vec::new());
    texts.join(&b'\n')
}

/// A large run against a small one.
fn check(score: &mut Score, name: &str, small: &Measured, large: &Measured, expected: &[u8]) {
    let grown = |large: usize, small: usize| large > small + MOST_GROWTH;
    let ((before, mapped_before), (after, mapped_after)) =
        (small.peaks.unwrap_or_default(), large.peaks.unwrap_or_default());
    let fault = match large.outcome.fault(expected) {
        "" if small.peaks.and(large.peaks).is_none() => "its memory could not be measured",
        "" if grown(after, before) || grown(mapped_after, mapped_before) => "its memory has grown",
        fault => fault,
    };
    let counts = format!("resident {before} -> {after} KiB, mapped {mapped_before} -> {mapped_after} KiB");
    score.count(name, fault, &counts);
}

pub fn checks(sides: &Sides, maker: &mut Maker, score: &mut Score) {
    let (program, job) = (sides.program, maker.job);
    let (lines, header) = (lines(maker), [job.header(), b"\n".to_vec()].concat());
    let [once, many] = [1, LARGE / lines.len() + 1].map(|times| Parts { head: &header, piece: &lines, times });
    let small = measure_small(program, &once);
    let expected = (job.of_all)(sides.code, &[&header[..], &lines.repeat(many.times)].concat());
    check(score, &job.check("64 MiB of lines of all sorts"), &small, &measure(program, &many), &expected);
    let limited = Program { limits: LIMITS.to_vec(), ..program.clone() };
    let little = "64 MiB with a stack of 72 KiB, and 16 MiB in all";
    check(score, &job.check(little), &small, &measure(&limited, &many), &expected);
    let piece = vec![b'A'; 1 << 16];
    let endless = |head| measure(program, &Parts { head, piece: &piece, times: LARGE / piece.len() });
    let bad = format!("{}\n?\t2\n", job.answer);
    check(score, &job.check("a line of 64 MiB"), &small, &endless(&header), bad.as_bytes());
    let mut first = endless(b"");
    // It may end before its input does, as soon as the first line is too long.
    first.peaks = first.peaks.or(small.peaks);
    check(score, &job.check("a first line of 64 MiB"), &small, &first, b"bad header\n");
}
