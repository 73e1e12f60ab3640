//! Prints how long the proved engine and the second program take, and the ratio. A check passes where the answers are right.

mod items;
mod located;
mod timing;

use items::{FEW, FRAMES, ITEMS};
use second::Code;
use shared::score::Score;
use std::{env, fs};
use timing::{time, Times};

const WARM_UP: usize = 30;

fn main() {
    let (code, mut score) = (Code::new(), Score::default());
    println!("{:<73} {:>29}  {:>29}", "", "proved engine", "second program");
    println!("{:<73} {}", "", columns(["median us", "min..max", "median us", "min..max", "ratio"].map(String::from)));
    for item in &ITEMS {
        print(&mut score, item.name, time(&code, item, WARM_UP * item.frames / FRAMES, item.frames), 1);
    }
    for (wrong, name) in located::ITEMS {
        print(&mut score, name, located::time(&code, wrong, WARM_UP, FRAMES), 3);
    }
    println!("{}, {}", processor(), env!("COMPILER"));
    println!("{} frames for each line, {} for that of 195 passes", FRAMES, FEW);
    println!("for those of locate {} times {} checks", FRAMES, located::TOGETHER);
    score.end()
}

fn print(score: &mut Score, name: &str, times: Option<(Times, Times)>, digits: usize) {
    match times {
        Some((proved, second)) => {
            let (ours, theirs) = (proved.median(), second.median());
            let [proved_span, second_span] = [proved.span(digits), second.span(digits)];
            let [ratio, ours, theirs] = [(ours / theirs, 1), (ours, digits), (theirs, digits)]
                .map(|(value, digits)| format!("{:.*}", digits, value));
            score.count(name, "", &columns([ours, proved_span, theirs, second_span, ratio]));
        }
        None => score.count(name, "an answer is wrong", ""),
    }
}

fn columns([a, b, c, d, ratio]: [String; 5]) -> String {
    format!("{:>10} {:>18}  {:>10} {:>18} {:>7}", a, b, c, d, ratio)
}

/// The name that the system has for the processor, or what else it knows of it.
fn processor() -> String {
    let known = fs::read_to_string("/proc/cpuinfo").unwrap_or_default();
    let value = |name: &str| {
        let line = known.lines().find(|line| line.starts_with(name))?;
        Some(line.split_once(':')?.1.trim().to_string())
    };
    let parts = (value("CPU implementer"), value("CPU part"));
    match (value("model name"), parts) {
        (Some(name), _) => name,
        (None, (Some(maker), Some(part))) => {
            format!("{}, maker {}, part {}", env::consts::ARCH, maker, part)
        }
        _ => env::consts::ARCH.to_string(),
    }
}
