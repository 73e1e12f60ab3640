//! A case in which something was wrong: made smaller, and printed so that it can be tried again.

use crate::case::{Case, Entry, Said};
use crate::packed::{given, shown, state_of};
use second::receiver::State;
use second::Code;
use shared::bits::{bit, flip, ones, xor, MOST_ALLOWED};
use shared::run::shrink;
use shared::score::hex;
use shared::tally::Fault;

#[derive(Clone)]
pub struct Found {
    pub case: Case,
    /// What was written, if it is known.
    pub written: Vec<u8>,
    pub proved: Said,
    pub second: Said,
}

impl Fault for Found {
    fn smaller(&self, other: &Found) -> bool {
        self.case.size() < other.case.size()
    }
}

/// Bounds the effort: the bytes of all cases tried.
const EFFORT: usize = 3_000_000;

impl Found {
    /// As much of the input undone as leaves a difference: down to zero if the damage alone makes one, else down to what was
    /// written.
    pub fn shrink(self, code: &Code) -> Found {
        let mut left = EFFORT;
        let mut differs = |best: &Found, case: Case| {
            left = left.checked_sub(case.input.len() + case.output.len() + 1)?;
            let (proved, second) = (case.proved(), case.second(code));
            (proved != second).then(|| Found { case, written: best.written.clone(), proved, second })
        };
        let mut best = self;
        let mut target = vec![0; best.case.input.len()];
        if best.written.len() == target.len() {
            let mut input = best.case.input.clone();
            xor(&mut input, &best.written);
            let case = Case { input, ..best.case.clone() };
            match ones(&case.input) <= ones(&best.case.input) {
                true => match differs(&best, case) {
                    Some(found) => best = found,
                    None => target = best.written.clone(),
                },
                false => target = best.written.clone(),
            }
        }
        best = shrink(
            best,
            |found| 0..8 * found.case.input.len(),
            |found, places| {
                let wrong = |place: &usize| bit(&found.case.input, *place) != bit(&target, *place);
                let mut case = found.case.clone();
                places.filter(wrong).for_each(|place| flip(&mut case.input, place));
                if case.input == found.case.input {
                    return None;
                }
                differs(found, case)
            },
        );
        simplest(best, differs)
    }

    /// A frame is a record of a dump.
    pub fn print(&self, what: &str) -> String {
        let case = &self.case;
        let (n, input) = (case.n, hex(&case.input));
        let record = match case.entry {
            Entry::Decode => format!("# frames\t1\n0\t{}\t{}\t{}", n, case.argument, input),
            Entry::Encode => format!("encode\tn {}\tdata {}", n, input),
            Entry::Read => format!("read\tn {}\tframe {}", n, input),
            Entry::Word => format!("word\tn {}\treceived {}", n, input),
            Entry::Locate => format!("locate\tn {}\tchecks {}", n, case.argument),
            Entry::Row => format!("row\tn {}\ti {}\tframe {}", n, case.argument, input),
            Entry::Receive => {
                format!("receive\tstate 0x{:016X}\tpiece {}\tframe {}", case.state, input, hex(&case.output))
            }
        };
        let (proved, second) = (said(case, &self.proved), said(case, &self.second));
        let lent = match case.entry.block_bytes() {
            0 => format!("an output of {} bytes", case.output.len()),
            _ => format!("an output of {} bytes and a block of {}", case.output.len(), case.block.len()),
        };
        format!("# {}, with {}:\n{}\n#   proved: {}\n#   second: {}", what, lent, record, proved, second)
    }
}

/// By other arguments, of which the first that leaves a difference is taken.
fn simplest(mut best: Found, mut differs: impl FnMut(&Found, Case) -> Option<Found>) -> Found {
    for simpler in [lower_arguments, shorter_pieces, fewer_so_far] {
        let found = simpler(&best.case).find_map(|case| differs(&best, case));
        best = found.unwrap_or(best);
    }
    best
}

/// Calls in the place of one, the simplest first.
type Calls<'a> = Box<dyn Iterator<Item = Case> + 'a>;

fn lower_arguments(case: &Case) -> Calls<'_> {
    Box::new((0..case.argument.min(MOST_ALLOWED + 1)).map(move |argument| case.clone().with(argument)))
}

fn shorter_pieces(case: &Case) -> Calls<'_> {
    let bytes = if case.entry == Entry::Receive { case.input.len() } else { 0 };
    Box::new((0..bytes).map(move |bytes| Case { input: case.input[..bytes].to_vec(), ..case.clone() }))
}

/// With fewer bytes so far, or with as many, and with no bit that is not looked at.
fn fewer_so_far(case: &Case) -> Calls<'_> {
    let State { n, bytes } = state_of(case.state);
    let fewer = (0..bytes.min(case.output.len() + 2)).chain([bytes]);
    let of_receive = fewer.filter(move |_| case.entry == Entry::Receive);
    Box::new(of_receive.map(move |bytes| Case { state: given(State { n, bytes }, 0), ..case.clone() }))
}

fn said(case: &Case, said: &Said) -> String {
    let returned = match case.entry {
        Entry::Row => format!("{} bytes", said.number),
        Entry::Receive => shown(said.number),
        _ => format!("number {}", said.number),
    };
    let block = match case.entry.block_bytes() {
        0 => String::new(),
        _ if said.block == case.block => ", block untouched".to_string(),
        bytes if said.block.len() != bytes => format!(", block {}", hex(&said.block)),
        _ => format!(", block {}", in_block(case.entry, said)),
    };
    let output = match &said.output {
        output if *output == case.output => "untouched".to_string(),
        output if *output == case.input => "as received".to_string(),
        output => hex(output),
    };
    let stray = if said.stray { ", and other bytes were written" } else { "" };
    format!("{}{}, output {}{}", returned, block, output, stray)
}

/// The numbers of a block, each with its name.
fn in_block(entry: Entry, said: &Said) -> String {
    let names: &[&str] = match entry {
        Entry::Decode => &["number", "passes", "bits", "bad rows", "bad columns"],
        _ => &["places changed", "first", "second"],
    };
    let numbers: Vec<String> =
        names.iter().zip(said.in_block()).map(|(name, number)| format!("{} {}", name, number)).collect();
    numbers.join(", ")
}
