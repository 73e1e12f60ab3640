//! All kinds of inputs, and in which styles how many of each are read.

use crate::compare::{
    Kind,
    Source::{self, Drawn, Listed},
};
use crate::job::Job;
use crate::style::Style::{self, Bytes, File, Multiples, Pipe};
use crate::{ends, headers, long, mixed, places};
use shared::bits::{LONGEST, SHORTEST};

const ANYWHERE: Style = Style::Anywhere(0);
const LINE_ENDS: Style = Style::LineEnds(0);
const EVERY: [(Style, usize); 5] = [(File, 1), (Pipe, 1), (Bytes, 1), (ANYWHERE, 1), (LINE_ENDS, 1)];

fn kind(name: &'static str, quick: usize, source: Source, styles: &[(Style, usize)]) -> Kind {
    Kind { name, source, styles: styles.to_vec(), quick }
}

/// Drawn so often, and half as often in the slow styles.
fn drawn(most: usize) -> [(Style, usize); 5] {
    [(File, most), (Pipe, most), (Bytes, most / 2), (ANYWHERE, most / 2), (LINE_ENDS, most / 2)]
}

/// Read whole, cut where the places are, and some of them as single bytes.
fn at_places(size: usize) -> [(Style, usize); 4] {
    [(File, 1), (Pipe, 1), (Multiples(size, 0), 1), (Bytes, size / 256)]
}

pub fn all(job: &Job) -> Vec<Kind> {
    const LENGTHS: usize = LONGEST - SHORTEST + 1;
    let each = [File, Pipe, ANYWHERE].map(|style| (style, LENGTHS));
    let bytes = [(File, 1), (Pipe, 1), (LINE_ENDS, 1)];
    let many = [(File, 1), (Pipe, 1), (Multiples(8192, 0), 1)];
    let wrong = [(File, 1), (Pipe, 1), (ANYWHERE, 1)];
    let about = [(File, 1), (Pipe, 1), (Bytes, 11), (ANYWHERE, 1), (LINE_ENDS, 2), (Multiples(4096, 0), 2)];
    let far = [(File, 1), (Pipe, 1), (ANYWHERE, 1), (Multiples(16_384, 0), 3)];
    let damaged = Drawn(|maker, bad, _| mixed::damaged(maker, bad));
    let lengths = Drawn(|maker, _, index| mixed::every_length(maker, index));
    let million = Listed(|maker| vec![mixed::empty_lines(maker.job, 1_000_100)]);
    vec![
        kind("mixed lines", 1, Drawn(|maker, bad, _| mixed::mixed(maker, bad)), &drawn(1200 / job.thinned)),
        kind("mixed lines, some bytes damaged", 1, damaged, &drawn(300 / job.thinned)),
        kind("refused records", 1, Drawn(|maker, _, _| mixed::refused(maker)), &drawn(50)),
        kind("records of every n", 0, lengths, &each),
        kind("bench items of the rules", 1, Listed(|maker| (maker.job.items)()), &EVERY),
        kind("lines bad in every way", 2, Listed(mixed::bad_in_every_way), &EVERY),
        kind("ends of the input", 2, Listed(ends::all), &EVERY),
        kind("lines with every byte at each place", 0, Listed(mixed::every_byte), &bytes),
        kind("200,000 empty lines", 0, Listed(|maker| vec![mixed::empty_lines(maker.job, 200_000)]), &many),
        kind("20,000 short lines", 0, Listed(|maker| vec![mixed::short_lines(maker, 20_000)]), &many),
        kind("1,000,100 empty lines", 0, million, &[(Pipe, 1)]),
        kind("first lines wrong in some way", 1, Listed(headers::wrong), &wrong),
        kind("first lines with a byte replaced", 0, Listed(headers::replaced), &[(File, 1), (Bytes, 8)]),
        kind("first lines with a byte more or less", 0, Listed(headers::inserted), &[(Pipe, 1), (Bytes, 8)]),
        kind("lines about the greatest length", 1, Listed(long::about_the_longest), &about),
        kind("too long lines that end in a record", 0, Listed(long::tails), &[(File, 1), (Pipe, 1)]),
        kind("lines of 20,000 characters", 0, Listed(long::too_long), &[(Bytes, 1), (LINE_ENDS, 1)]),
        kind("lines of 1,000,000 characters", 0, Listed(long::far), &far),
        kind("places about multiples of 4096", 0, Listed(|maker| places::about(maker, 4096)), &at_places(4096)),
        kind("places about multiples of 8192", 0, Listed(|maker| places::about(maker, 8192)), &at_places(8192)),
        kind("places about multiples of 16384", 0, Listed(|maker| places::about(maker, 16_384)), &at_places(16_384)),
    ]
}
