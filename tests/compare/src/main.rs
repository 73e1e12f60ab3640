//! Runs every kind of check and counts each as passed or failed. The flags are those of `Scale`.

use compare::batch::{Kind, Tally};
use compare::kinds;
use second::Code;
use shared::bits::{LONGEST, MOST_ALLOWED};
use shared::run::Scale;
use shared::score::{grouped, Score};

fn main() {
    let (scale, code) = (Scale::asked(), Code::new());
    let (mut score, mut total) = (Score::default(), Tally::default());
    for kind in kinds::all() {
        let tally = kind.run(&code, scale);
        let cases = format!("{:>10} cases", grouped(tally.of("cases")));
        score.count(kind.name, &fault(&kind, &tally, scale), &cases);
        total.add(tally);
    }
    coverage(&mut score, &total, scale);
    for (what, found) in total.smallest() {
        let found = if what.contains("difference") { found.shrink(&code) } else { found };
        println!("{}", found.print(what));
    }
    score.end()
}

/// Why a kind fails, or nothing.
fn fault(kind: &Kind, tally: &Tally, scale: Scale) -> String {
    let mut faults = Vec::new();
    for what in ["differences", "promises not kept", "judged otherwise by long division"] {
        if tally.of(what) > 0 {
            faults.push(format!("{} {}", grouped(tally.of(what)), what));
        }
    }
    let least = if scale.quick { 1 } else { kind.least * scale.rounds as u64 };
    if tally.of("cases") < least {
        faults.push(format!("there should be {} cases", grouped(least)));
    }
    if !scale.quick {
        let missing = tally.missing("n", kind.lengths.clone());
        faults.extend(missing.map(|n| format!("n = {} was not met", n)));
        let unmet = kind.must_see().filter(|&seen| tally.of(seen) == 0);
        faults.extend(unmet.map(|seen| format!("{} was not met", seen)));
    }
    faults.join(", ")
}

/// What all cases together must have met, so that agreement means something.
fn coverage(score: &mut Score, total: &Tally, scale: Scale) {
    let words = ["Codeword", "OnePlace", "TwoPlaces", "NoCodeword"];
    let frames = ["Clean", "Repaired", "Stuck", "Spent"];
    let special = ["WronglyRepaired", "RepairedLate", "StuckInTwo", "StuckLate"];
    let refused = ["Number1", "Number2", "Number3", "Number4", "Number5", "Number6", "Number10", "Number11"];
    let mut met = |name, kinds: &[&str]| {
        let counts: Vec<String> = kinds.iter().map(|kind| format!("{} {}", kind, grouped(total.of(kind)))).collect();
        score.met(name, kinds.iter().all(|kind| total.of(kind) > 0), &counts.join(", "));
    };
    met("the four answers for words", &words);
    met("the four endings for frames", &frames);
    met("frames that test the endings", &special);
    met("the refusals 1 to 6, erased, and the block's", &refused);
    met("pieces, more wanted and not", &["MoreWanted", "NoMore", "NoMoreAfterEmpty"]);
    met("the refusals of pieces", &["Number14", "Number14OfEmpty"]);
    met("two reasons to refuse a piece, the first before the other", &["1Before2", "1Before14", "2Before14"]);
    let (passes, bits) = (total.most("passes"), total.most("bits"));
    let all = total.missing("allowance", 1..=MOST_ALLOWED).is_none() && passes == MOST_ALLOWED as u64;
    score.met("every allowance, up to all passes of the greatest", all, &format!("most passes {}", passes));
    let missing = total.missing("repaired after", 0..=MOST_ALLOWED).filter(|_| !scale.quick);
    let counts = missing.map_or(String::new(), |passes| format!("not after {}", passes));
    score.met("frames that are good after each number of passes", missing.is_none(), &counts);
    let many = scale.quick || bits >= 4 * LONGEST as u64 - 4;
    score.met("as many bits as the promise allows", many, &format!("most bits {}", grouped(bits)));
    let sum = |kinds: &[&str]| kinds.iter().map(|kind| total.of(kind)).sum::<u64>();
    let counts = [sum(&words), sum(&frames), total.of("cases"), total.of("promises")];
    let least = if scale.quick { [20_000, 2_000] } else { [1_000_000, 100_000] };
    let enough = counts[0] >= least[0] && counts[1] >= least[1] && counts[3] * 2 > counts[2];
    let [words, frames, all, promises] = counts.map(grouped);
    let counts = format!("words {}, frames {}, all {}, with a promise {}", words, frames, all, promises);
    score.met("enough cases, and enough promises", enough, &counts);
}
