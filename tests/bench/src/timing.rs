//! The time of single calls.

use crate::items::Item;
use second::Code;
use shared::random::Random;
use std::time::Instant;

/// The times of one side, in microseconds, in ascending order.
pub struct Times(Vec<f64>);

impl Times {
    pub fn of(mut times: Vec<f64>) -> Times {
        times.sort_by(f64::total_cmp);
        Times(times)
    }

    pub fn median(&self) -> f64 {
        self.0[self.0.len() / 2]
    }

    pub fn span(&self, digits: usize) -> String {
        format!("{:.*}..{:.*}", digits, self.0[0], digits, self.0[self.0.len() - 1])
    }
}

/// Times both sides on the same frames, each of them first in turn. Nothing is given if an answer
/// is wrong.
pub fn time(code: &Code, item: &Item, warm_up: usize, frames: usize) -> Option<(Times, Times)> {
    let mut random = Random::new(&[item.seed]);
    let (mut proved, mut second) = (Vec::new(), Vec::new());
    for index in 0..warm_up + frames {
        let (case, promise) = (item.make)(code, &mut random);
        let said = case.proved();
        if said != case.second(code) || !promise.kept(&said) {
            return None;
        }
        let mut a = (case.output.clone(), case.block.clone());
        let mut b = a.clone();
        let mut of_proved = || microseconds(|| case.call_proved(&case.input, &mut a.0, &mut a.1));
        let mut of_second = || microseconds(|| case.call_second(code, &mut b.0, &mut b.1));
        let (proved_time, second_time) = if index % 2 == 0 {
            let first = of_proved();
            (first, of_second())
        } else {
            let first = of_second();
            (of_proved(), first)
        };
        // The calls that were timed did their work.
        if a != b || a != (said.output, said.block) {
            return None;
        }
        if index >= warm_up {
            proved.push(proved_time);
            second.push(second_time);
        }
    }
    Some((Times::of(proved), Times::of(second)))
}

fn microseconds(call: impl FnOnce() -> u64) -> f64 {
    let start = Instant::now();
    call();
    start.elapsed().as_secs_f64() * 1e6
}
