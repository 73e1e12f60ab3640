//! Inputs of all sorts of lines.

use crate::job::Job;
use crate::long;
use crate::records::{self, Maker};
use crate::text::{Input, Line};
use crate::wrong;
use shared::bits::{LONGEST, SHORTEST};

/// Up to 24 lines, good and bad, and `bad` of the bad ones drawn from.
pub fn mixed(maker: &mut Maker, bad: &[Line]) -> Input {
    let count = match maker.random.below(20) {
        0 => 0,
        1..=4 => maker.random.within(1, 3),
        _ => maker.random.within(1, 24),
    };
    let mut lines = Vec::new();
    for _ in 0..count {
        lines.push(match maker.random.below(100) {
            0..=44 => {
                let n = records::length(&mut maker.random);
                records::any(maker, n)
            }
            45..=64 => records::refused(maker),
            65 if maker.random.once_in(4) => long::any(maker),
            65..=94 => bad[maker.random.below(bad.len())].clone(),
            _ => Line::bad(""),
        });
    }
    Input::of(maker.job, lines, maker.random.once_in(2))
}

/// A mixed input in which a few bytes are changed, put in or left out.
pub fn damaged(maker: &mut Maker, bad: &[Line]) -> Input {
    let mut bytes = mixed(maker, bad).bytes();
    let (random, first) = (&mut maker.random, maker.job.header().len() + 1);
    for _ in 0..random.within(1, 6) {
        const LIKELY: &[u8] = b"\t\n\r 0123456789ABCDEFabcdefG@`/:";
        let byte = match random.below(4) {
            0 => random.byte(),
            _ => LIKELY[random.below(LIKELY.len())],
        };
        // The first line mostly stays good.
        let low = if random.once_in(20) { 0 } else { first };
        if bytes.len() <= low {
            continue;
        }
        let place = random.within(low, bytes.len() - 1);
        match random.below(3) {
            0 => bytes[place] = byte,
            1 => bytes.insert(place, byte),
            _ => drop(bytes.remove(place)),
        }
    }
    Input::raw(maker.job, &bytes)
}

/// One of each sort, for every n.
pub fn every_length(maker: &mut Maker, index: usize) -> Input {
    let n = SHORTEST + index % (LONGEST - SHORTEST + 1);
    let lines = (maker.job.each_sort)(maker, n);
    Input::of(maker.job, lines, maker.random.once_in(2))
}

pub fn refused(maker: &mut Maker) -> Input {
    let lines = (0..20).map(|_| records::refused(maker)).collect();
    Input::of(maker.job, lines, maker.random.once_in(2))
}

/// Some of the bad lines, each followed by a record.
pub fn some_bad(maker: &mut Maker, bad: &[Line]) -> Input {
    let mut lines = Vec::new();
    for line in bad {
        lines.push(line.clone());
        if maker.random.once_in(2) {
            lines.push(records::any(maker, 18));
        }
    }
    Input::of(maker.job, lines, maker.random.once_in(2))
}

/// Bad in every way, in inputs of a few of them.
pub fn bad_in_every_way(maker: &mut Maker) -> Vec<Input> {
    let all = wrong::all(maker);
    all.chunks(10).map(|some| some_bad(maker, some)).collect()
}

/// Every byte at each place of a line, in inputs of a few hundred lines.
pub fn every_byte(maker: &mut Maker) -> Vec<Input> {
    let mut inputs = Vec::new();
    while let Some(lines) = wrong::every_byte_at(maker, inputs.len()) {
        inputs.push(some_bad(maker, &lines));
    }
    inputs
}

/// So many empty lines.
pub fn empty_lines(job: &'static Job, count: usize) -> Input {
    Input::of(job, vec![Line::bad(""); count], true)
}

/// So many short lines: records and bad ones.
pub fn short_lines(maker: &mut Maker, count: usize) -> Input {
    let mut some: Vec<Line> = (0..100).map(|_| records::any(maker, 18)).collect();
    some.extend((0..50).map(|_| records::refused(maker)));
    some.retain(|line| line.text.len() < 200);
    some.push(Line::bad("x"));
    let pick = |_| some[maker.random.below(some.len())].clone();
    let lines = (0..count).map(pick).collect();
    Input::of(maker.job, lines, false)
}
