//! Which cases are made, on all processors, and how one that failed is made smaller.

use crate::random::Random;
use crate::tally::{Fault, Tally};
use std::ops::Range;
use std::process::exit;
use std::sync::atomic::{AtomicUsize, Ordering};
use std::thread;

#[derive(Clone, Copy)]
pub struct Scale {
    pub seed: u64,
    pub rounds: usize,
    /// Few cases, for the errors that are planted: too few to meet all that there is.
    pub quick: bool,
}

impl Scale {
    /// As the command's words ask for.
    pub fn asked() -> Scale {
        Scale::parse(std::env::args().skip(1)).unwrap_or_else(|wrong| {
            eprintln!("{}: --seed N and --rounds N are for other and more cases, --quick for few", wrong);
            println!("0 passed, 1 failed");
            exit(1)
        })
    }

    fn parse(mut words: impl Iterator<Item = String>) -> Result<Scale, String> {
        let mut scale = Scale { seed: 1, rounds: 1, quick: false };
        while let Some(flag) = words.next() {
            let mut number = || {
                let text = words.next().ok_or(format!("{} has no number", flag))?;
                text.parse().map_err(|_| format!("{} {}", flag, text))
            };
            match flag.as_str() {
                "--seed" => scale.seed = number()?,
                "--rounds" => scale.rounds = number()? as usize,
                "--quick" => scale.quick = true,
                _ => return Err(flag),
            }
        }
        match scale.rounds {
            1..=1_000_000 => Ok(scale),
            rounds => Err(format!("--rounds {}", rounds)),
        }
    }

    /// Random numbers that depend on the seed, the name and the other numbers.
    pub fn random(&self, name: &str, numbers: &[u64]) -> Random {
        let name = name.bytes().fold(0, |sum: u64, byte| sum.wrapping_mul(257).wrapping_add(byte.into()));
        Random::new(&[&[self.seed, name], numbers].concat())
    }
}

/// What `work` notes of the numbers below `count`, on all processors, until one of them says that it is enough.
pub fn on_all<F: Fault>(count: usize, work: impl Fn(usize, &mut Tally<F>) -> bool + Sync) -> Tally<F> {
    let next = AtomicUsize::new(0);
    let some = || {
        let mut tally = Tally::default();
        loop {
            let index = next.fetch_add(1, Ordering::Relaxed);
            if index >= count || !work(index, &mut tally) {
                next.fetch_max(count, Ordering::Relaxed);
                return tally;
            }
        }
    };
    let threads = thread::available_parallelism().map_or(2, |count| count.get());
    let mut total = Tally::default();
    thread::scope(|scope| {
        let running: Vec<_> = (0..threads).map(|_| scope.spawn(some)).collect();
        for thread in running {
            total.add(thread.join().expect("the cases can be made and judged"));
        }
    });
    total
}

/// Takes what `smaller` makes of `best` and a run of its places, for runs ever shorter, from the last to the first.
pub fn shrink<T>(
    mut best: T,
    places: impl Fn(&T) -> Range<usize>,
    mut smaller: impl FnMut(&T, Range<usize>) -> Option<T>,
) -> T {
    let mut run = places(&best).len();
    while run > 0 {
        let Range { start, mut end } = places(&best);
        while end > start {
            let from = end.saturating_sub(run).max(start);
            best = smaller(&best, from..end).unwrap_or(best);
            end = from;
        }
        run /= 2;
    }
    best
}
