//! How long a program and the second program's library take. Nothing fails by it.

use crate::compare::Sides;
use crate::records::{self, Maker};
use crate::style::Style;
use shared::damage;
use shared::score::{grouped, Score};
use std::time::Instant;

const RECORDS: usize = 1000;
const N: usize = 195;
const TIMES: usize = 3;

fn input(maker: &mut Maker) -> Vec<u8> {
    let job = maker.job;
    let mut texts = vec![job.header()];
    for number in 0..RECORDS {
        let mut bytes = records::bytes(maker, N);
        damage::wrong_bits(&mut maker.random, N, &mut bytes, job.wrong_bits);
        texts.push(records::text(job, number, N, &bytes));
    }
    texts.join(&b'\n')
}

/// The least time of a few, in seconds, and what came out.
fn best<T>(mut call: impl FnMut() -> T) -> (f64, T) {
    let timed = |_| {
        let start = Instant::now();
        let result = call();
        (start.elapsed().as_secs_f64(), result)
    };
    (0..TIMES).map(timed).min_by(|a, b| a.0.total_cmp(&b.0)).unwrap()
}

/// Whether the outputs are the same, and the times.
pub fn check(sides: &Sides, maker: &mut Maker, score: &mut Score) {
    let (job, input) = (maker.job, input(maker));
    let (program, said) = best(|| sides.program.run(&input, Style::File));
    let (second, expected) = best(|| (job.of_all)(sides.code, &input));
    let mut name = format!("{} records at n = {}", grouped(RECORDS as u64), N);
    if job.wrong_bits > 0 {
        name += &format!(", {} wrong bits in each", job.wrong_bits);
    }
    score.count(&job.check(&name), said.fault(&expected), &format!("{} bytes", grouped(input.len() as u64)));
    let [ours, theirs] = [program, second]
        .map(|seconds: f64| format!("{:.3} s ({:.0} us a record)", seconds, seconds * 1e6 / RECORDS as f64));
    let ratio = program / second;
    println!("time   {}, best of {}: program {}, second {}, ratio {:.1}", job.name, TIMES, ours, theirs, ratio);
}
