//! Inputs in which a place of a line lies just at, before or after a multiple of a buffer's size.

use crate::records::{self, Maker};
use crate::text::{Input, Line};

/// What lies there.
#[derive(Clone, Copy)]
enum Place {
    Start,
    FirstTab,
    LastTab,
    Hex,
    /// The line's LF.
    End,
    /// The end of the input, without LF and with it.
    Last,
    LastClosed,
    /// The beginning of a record that is the tail of a too long line.
    Tail,
}

const PLACES: [Place; 8] = [
    Place::Start,
    Place::FirstTab,
    Place::LastTab,
    Place::Hex,
    Place::End,
    Place::Last,
    Place::LastClosed,
    Place::Tail,
];

/// Of records that are some hundred characters long.
const N: usize = 36;

/// Lines of just `bytes` bytes, their LF counted.
fn filler(maker: &mut Maker, mut bytes: usize) -> Vec<Line> {
    let mut lines = Vec::new();
    while bytes > 0 {
        let length = maker.random.below(bytes.min(6000));
        let front = records::text(maker.job, 7, 0, &[]);
        let hex = length.saturating_sub(front.len());
        lines.push(match maker.random.below(3) {
            0 if length >= front.len() && hex % 2 == 0 => {
                Line::refused(maker.job, [front, vec![b'C'; hex]].concat(), 7, 1)
            }
            1 => Line::bad(vec![b'x'; length]),
            _ => Line::bad(vec![b'\t'; length]),
        });
        bytes -= length + 1;
    }
    lines
}

/// The bytes of a line and its LF before the place. Its tail begins where it is too long.
fn offset(text: &[u8], place: Place, tail: usize) -> usize {
    let is_tab = |&byte: &u8| byte == b'\t';
    let first_tab = text.iter().position(is_tab).unwrap();
    let last_tab = text.iter().rposition(is_tab).unwrap();
    match place {
        Place::Start => 0,
        Place::FirstTab => first_tab,
        Place::LastTab => last_tab,
        Place::Hex => (last_tab + text.len()) / 2,
        Place::End | Place::Last => text.len(),
        Place::LastClosed => text.len() + 1,
        Place::Tail => tail,
    }
}

fn input(maker: &mut Maker, at: usize, place: Place) -> Input {
    let (job, mut line) = (maker.job, records::any(maker, N));
    let tail = job.longest_line + 1;
    if let Place::Tail = place {
        line = Line::bad([vec![b'1'; tail], line.text].concat());
    }
    let before = at - offset(&line.text, place, tail) - job.header().len() - 1;
    let mut lines = filler(maker, before);
    lines.push(line);
    if !matches!(place, Place::Last | Place::LastClosed) {
        lines.push(records::any(maker, N + 1));
        lines.push(Line::bad("\r"));
        lines.push(records::refused(maker));
    }
    if let Place::Tail = place {
        // So that what begins there fills a buffer.
        lines.extend(filler(maker, 20_000));
    }
    Input::of(job, lines, !matches!(place, Place::Last))
}

/// For one size: at its first multiples, and up to two bytes before and after them.
pub fn about(maker: &mut Maker, size: usize) -> Vec<Input> {
    let mut inputs = Vec::new();
    for times in 1..=3 {
        for at in times * size - 2..=times * size + 2 {
            for place in PLACES {
                let tail = matches!(place, Place::Tail);
                // A multiple of every size, past the greatest length.
                let at = if tail { at + 2 * 16_384 } else { at };
                inputs.push(input(maker, at, place));
            }
        }
    }
    inputs
}
