//! What the writer writes against the C function of the proved engine: its frames, and its numbers.

use crate::compare::{maker, Sides};
use crate::mixed;
use crate::said::{decimal, fields, unhex};
use crate::style::Style;
use crate::text::{Input, Line};
use shared::bits::{square_bytes, LONGEST, SHORTEST};
use shared::run::Scale;
use shared::score::{grouped, hex, Score};

extern "C" {
    fn gazenohyri_encode(n: usize, data: *const u8, data_len: usize, frame: *mut u8, frame_len: usize) -> u32;
}

/// The line of the dump for a record of data, by the engine.
fn line(text: &[u8]) -> Option<String> {
    let fields = fields(text)?;
    let (number, n, data) = (fields[0], decimal(fields[1])?, unhex(fields[2])?);
    let room = if (SHORTEST..=LONGEST).contains(&n) { square_bytes(n) } else { 0 };
    let mut frame = vec![0; room];
    // SAFETY: both pointers are good for their lengths, and the buffers do not overlap.
    let said = unsafe { gazenohyri_encode(n, data.as_ptr(), data.len(), frame.as_mut_ptr(), room) };
    Some(match said {
        0 => format!("{}\t{}\t8\t{}", number, n, hex(&frame)),
        why => format!("!\t{}\t{}", number, why),
    })
}

pub fn check(sides: &Sides, scale: Scale, score: &mut Score) {
    let (job, mut maker) = (sides.program.job, maker(sides, scale, "engine"));
    let mut inputs: Vec<Input> = (0..=LONGEST - SHORTEST).map(|index| mixed::every_length(&mut maker, index)).collect();
    inputs.extend((0..5).map(|_| mixed::refused(&mut maker)));
    inputs.extend((job.items)());
    let records: Vec<Line> = inputs.into_iter().flat_map(|input| input.lines.into_iter().skip(1)).collect();
    let expected = records.iter().map(|record| line(&record.text).expect("a record that was made is one") + "\n");
    let expected: String = [job.answer.to_string() + "\n"].into_iter().chain(expected).collect();
    let (count, input) = (records.len(), Input::of(job, records, true));
    let outcome = sides.program.run(&input.bytes(), Style::File);
    let name = job.check("frames and numbers are those of gazenohyri_encode");
    score.count(&name, outcome.fault(expected.as_bytes()), &format!("{} records", grouped(count as u64)));
}
