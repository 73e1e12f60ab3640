//! Writes cases of encode, decode and read for tests/host/replay.c, which calls the C functions with them. Each group of cases
//! begins with eleven numbers, the first of them 3 and the second the length of its name, the others zero, and the name.

use compare::kinds;
use second::Code;
use shared::bits::NEAR_ONES;
use std::io::{stdout, BufWriter, Write};

/// The lengths at which every kind of case is made; at the others, those which say most.
fn is_boundary(n: usize) -> bool {
    n <= 33 || n % 64 < 2 || n % 64 == 63 || n % 32 == 5 || [NEAR_ONES, 195, 247, 248, 249, 250, 254].contains(&n)
}

fn main() {
    let (code, mut sink) = (Code::new(), BufWriter::new(stdout().lock()));
    for kind in kinds::all() {
        let refusal = kind.name.starts_with("refusals");
        let everywhere = [
            "data encoded and read",
            "frames, within the class",
            "frames, just mended",
            "reading frames with one wrong bit",
        ];
        let skipped = [
            "words",
            "rows",
            "pieces",
            "refusals of words",
            "refusals of row",
            "refusals of receive",
            "refusals of decode by its block",
        ];
        if skipped.iter().any(|other| kind.name.starts_with(other)) {
            continue;
        }
        let mut numbers = [0; 11];
        (numbers[0], numbers[1]) = (3, kind.name.len());
        numbers.iter().for_each(|number| sink.write_all(&number.to_le_bytes()).expect("a group can be written"));
        sink.write_all(kind.name.as_bytes()).expect("a group can be written");
        for n in 18..=256 {
            let chosen =
                if refusal { [18, 19, 24, 25, 32, 33, 64, 195, 255, 256].contains(&n) } else { is_boundary(n) };
            if chosen || everywhere.contains(&kind.name) {
                kind.write(&code, n, if chosen { 2 } else { 1 }, &mut sink);
            }
        }
    }
    sink.flush().expect("the cases can be written");
}
