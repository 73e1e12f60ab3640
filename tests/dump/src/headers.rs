//! First lines, good and bad.

use crate::job::Job;
use crate::records::{self, Maker};
use crate::text::{texts, Expect, Input, Line};

/// With `@` for the word of a good one, and the good ones of both programs.
const WRONG: &[u8] =
    b"|\t| |\r|\0|@|@\t|@\t2|@\t0|@\t11|@\t1\t|@\t1\r|@\t1 |@\t1\0|@\t1x|@\t1.0|@\t01|@\t+1|@\t 1|@ \t1|@\t\t1|@ 1|\
    @  1|@,1|@1|@\\t1|@\t1@\t1|@\tI|@\t\xb9|@\x0b1|@\r\t1| @\t1|\t@\t1|\0@\t1|\xef\xbb\xbf@\t1|#@\t1|1\t@|\"@\t1\"|\
    @\t1\t0\t18|s@\t1|@s\t1|\xff\xfef\0r\0a\0|\xff\xfed\0a\0t\0|Frames\t1|FRAMES\t1|frameS\t1|frame\t1|ffames\t1|Data\t1|\
    DATA\t1|datA\t1|dat\t1|ddta\t1|repair\t1|write\t1|frames\t1|data\t1|bad header|0\t18\t2\t|0\t18\t|?\t1|!\t1\t1";

fn wrong_texts(job: &Job) -> Vec<Vec<u8>> {
    let fill = |&byte: &u8| if byte == b'@' { job.word.into() } else { vec![byte] };
    let mut wrong: Vec<Vec<u8>> = texts(WRONG).map(|text| text.iter().flat_map(fill).collect()).collect();
    let header = job.header();
    wrong.retain(|text| *text != header);
    for length in 0..header.len() {
        wrong.push(header[..length].to_vec());
        wrong.push(header[length + 1..].to_vec());
    }
    let longest = job.longest_line;
    for length in [longest - 1, longest, longest + 1, 1_000_000] {
        for fill in [b'1', b'\t', b' ', 0] {
            let mut text = header.clone();
            text.resize(length, fill);
            wrong.push(text);
        }
    }
    wrong
}

/// With two good records after it, so that taking it for good shows.
fn with_records(maker: &mut Maker, first: Line, closed: bool) -> Input {
    Input::new(maker.job, vec![first, records::good(maker, 18), records::refused(maker)], closed)
}

/// Wrong in a way of its own, alone or before good records.
pub fn wrong(maker: &mut Maker) -> Vec<Input> {
    let (job, mut inputs) = (maker.job, Vec::new());
    for text in wrong_texts(job) {
        let first = Line::bad(text);
        inputs.push(Input::new(job, vec![first.clone()], true));
        inputs.push(Input::new(job, vec![first.clone()], false));
        inputs.push(with_records(maker, first.clone(), true));
        // A good first line does not count where it comes late.
        let late = vec![first, Line::header(maker.job), records::good(maker, 18)];
        inputs.push(Input::new(job, late, true));
    }
    inputs
}

/// Each byte of the first line, its LF too, replaced by each other one.
pub fn replaced(maker: &mut Maker) -> Vec<Input> {
    let good = with_records(maker, Line::header(maker.job), true).bytes();
    let (last, mut inputs) = (maker.job.header().len(), Vec::new());
    for place in 0..=last {
        for byte in (0..=255).filter(|&byte| byte != good[place]) {
            let mut bytes = good.clone();
            bytes[place] = byte;
            inputs.push(judged(maker.job, &bytes));
        }
    }
    inputs
}

/// Each byte put in before each of the first line, its LF too, and after that; and each left out.
pub fn inserted(maker: &mut Maker) -> Vec<Input> {
    let good = with_records(maker, Line::header(maker.job), true).bytes();
    let (last, mut inputs) = (maker.job.header().len(), Vec::new());
    for place in 0..=last + 1 {
        for byte in 0..=255 {
            let mut bytes = good.clone();
            bytes.insert(place, byte);
            inputs.push(judged(maker.job, &bytes));
        }
        let mut bytes = good.clone();
        bytes.remove(place.min(last));
        inputs.push(judged(maker.job, &bytes));
    }
    inputs
}

/// Past the first line only an empty line is certain here: it is bad.
fn judged(job: &'static Job, bytes: &[u8]) -> Input {
    let mut input = Input::raw(job, bytes);
    for line in input.lines.iter_mut().skip(1) {
        if line.text.is_empty() {
            line.expect = Expect::Bad;
        }
    }
    input
}
