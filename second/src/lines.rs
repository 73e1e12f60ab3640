//! What the texts that are read have in common: a first line that is fixed,
//! further lines of which each is answered by one line, and the forms of the
//! fields that tabs part.

const BAD_HEADER: &str = "bad header\n";

/// The most digits of a decimal number.
const MOST_DIGITS: usize = 9;

const HEX_DIGITS: &[u8; 16] = b"0123456789ABCDEF";

/// What is fixed of a text that is read, and of the text that answers it.
pub struct Form {
    /// The first line that is read, without its LF.
    pub header: &'static [u8],
    /// The first line of the answer, with its LF.
    pub answer_header: &'static str,
    /// The most characters of a line that is read, its LF not counted.
    pub longest_line: usize,
}

/// The text that answers `input`. `answer` gives the line that answers a
/// record, or none to a line that is bad.
pub fn answers(form: &Form, input: &[u8], answer: impl Fn(&[u8]) -> Option<String>) -> Vec<u8> {
    let lines = lines(input);
    if lines.first() != Some(&form.header) {
        return BAD_HEADER.into();
    }
    let mut text = String::from(form.answer_header);
    for (line_number, line) in (2..).zip(&lines[1..]) {
        let too_long = line.len() > form.longest_line;
        let answered = if too_long { None } else { answer(line) };
        text += &answered.unwrap_or_else(|| bad_line(line_number));
    }
    text.into_bytes()
}

/// The text that answers an input of which no more than `input` could be read,
/// given how a whole one is answered: that to the lines which have their LF.
/// How another would have gone on is not known, and nothing is said of it; nor
/// is anything of a first line that has none.
pub fn answers_to_part(input: &[u8], answers: impl Fn(&[u8]) -> Vec<u8>) -> Vec<u8> {
    match input.iter().rposition(|&byte| byte == b'\n') {
        Some(last) => answers(&input[..=last]),
        None => Vec::new(),
    }
}

/// The lines of `input`, each without its LF.
fn lines(input: &[u8]) -> Vec<&[u8]> {
    let mut lines: Vec<&[u8]> = input.split(|&byte| byte == b'\n').collect();
    // What follows the last LF is a line only if there is something.
    if lines.last().map_or(false, |last| last.is_empty()) {
        lines.pop();
    }
    lines
}

fn bad_line(line_number: usize) -> String {
    format!("?\t{}\n", line_number)
}

/// The fields of `line`, one at the least.
pub fn fields(line: &[u8]) -> Vec<&[u8]> {
    line.split(|&byte| byte == b'\t').collect()
}

/// The number that `field` is, if it has no sign and no needless zero.
pub fn decimal(field: &[u8]) -> Option<usize> {
    if field.is_empty() || field.len() > MOST_DIGITS {
        return None;
    }
    if field[0] == b'0' && field.len() > 1 {
        return None;
    }
    let mut value = 0;
    for &digit in field {
        if !digit.is_ascii_digit() {
            return None;
        }
        value = 10 * value + usize::from(digit - b'0');
    }
    Some(value)
}

/// The bytes that `field` spells, the upper half of each first.
pub fn bytes_of(field: &[u8]) -> Option<Vec<u8>> {
    if field.len() % 2 != 0 {
        return None;
    }
    let mut bytes = Vec::new();
    for pair in field.chunks(2) {
        bytes.push(16 * hex_digit(pair[0])? + hex_digit(pair[1])?);
    }
    Some(bytes)
}

fn hex_digit(digit: u8) -> Option<u8> {
    match digit {
        b'0'..=b'9' => Some(digit - b'0'),
        b'A'..=b'F' => Some(digit - b'A' + 10),
        _ => None,
    }
}

/// The field that spells `bytes`.
pub fn hex_of(bytes: &[u8]) -> String {
    let mut field = String::with_capacity(2 * bytes.len());
    for &byte in bytes {
        for half in [byte >> 4, byte & 15] {
            field.push(HEX_DIGITS[usize::from(half)].into());
        }
    }
    field
}
