//! The lines of a report, and those of a dump that was written.

use shared::bits::{square_bytes, LONGEST, MOST_ALLOWED, SHORTEST};

/// What a line says of a record.
pub struct Said {
    pub number: usize,
    /// The ending, or `written`; `refused` goes with the number of the refusal.
    pub word: String,
    /// It was decoded, or written.
    pub taken: bool,
    /// Of a report's line: passes, bits, rows, columns; the number of a refusal and three zeros; of an erased one four zeros.
    pub counts: [usize; 4],
}

/// The record that a line of a report tells of, if the line is one that a record can give.
pub fn report_line(line: &[u8]) -> Option<Said> {
    let fields = fields(line)?;
    if fields.len() != 6 {
        return None;
    }
    let mut counts = [0; 4];
    for (count, field) in counts.iter_mut().zip(&fields[2..]) {
        *count = decimal(field)?;
    }
    let (number, ending) = (decimal(fields[0])?, fields[1]);
    let word = if ending == "refused" { format!("refused {}", counts[0]) } else { ending.to_string() };
    let taken = ["clean", "repaired", "stuck", "spent"].contains(&ending);
    possible(ending, counts).then_some(Said { number, word, taken, counts })
}

/// The counts agree with the ending.
fn possible(ending: &str, counts: [usize; 4]) -> bool {
    let [passes, bits, rows, columns] = counts;
    match ending {
        "clean" | "erased" => counts == [0; 4],
        "repaired" => (1..=MOST_ALLOWED).contains(&passes) && bits > 0 && rows == 0 && columns == 0,
        "stuck" => (2..=MOST_ALLOWED).contains(&passes) && rows + columns > 0,
        "spent" => (1..=MOST_ALLOWED).contains(&passes) && rows + columns > 0,
        "refused" => [1, 2, 4].contains(&passes) && counts[1..] == [0; 3],
        _ => false,
    }
}

/// The same of a line of a dump that was written.
pub fn dump_line(line: &[u8]) -> Option<Said> {
    let (number, word) = match fields(line)?[..] {
        ["!", number, why @ ("1" | "2" | "5" | "10")] => (number, format!("refused {}", why)),
        [number, n, "8", hex] => {
            let good = (SHORTEST..=LONGEST).contains(&decimal(n)?) && unhex(hex)?.len() == square_bytes(decimal(n)?);
            (number, good.then_some("written")?.to_string())
        }
        _ => return None,
    };
    Some(Said { number: decimal(number)?, taken: word == "written", word, counts: [0; 4] })
}

pub fn fields(line: &[u8]) -> Option<Vec<&str>> {
    Some(std::str::from_utf8(line).ok()?.split('\t').collect())
}

/// A number without sign or needless zero.
pub fn decimal(text: &str) -> Option<usize> {
    let digits = text.bytes().all(|byte| byte.is_ascii_digit());
    let plain = digits && (text == "0" || !text.starts_with('0'));
    if plain {
        text.parse().ok()
    } else {
        None
    }
}

/// The bytes of hex digits of upper case, two a byte.
pub fn unhex(text: &str) -> Option<Vec<u8>> {
    let upper = text.bytes().all(|byte| byte.is_ascii_digit() || (b'A'..=b'F').contains(&byte));
    let pair = |start| u8::from_str_radix(&text[start..start + 2], 16).ok();
    (upper && text.len() % 2 == 0).then(|| (0..text.len()).step_by(2).map(pair).collect())?
}

/// The lines of an output without their LF, if each has one.
pub fn lines(output: &[u8]) -> Option<Vec<&[u8]>> {
    let mut lines: Vec<&[u8]> = output.split(|&byte| byte == b'\n').collect();
    match lines.pop() {
        Some([]) => Some(lines),
        _ => None,
    }
}
