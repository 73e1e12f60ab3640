//! The lines that are printed.

use crate::compare::Found;
use shared::score::grouped;

/// From so many equal bytes on, they are printed as a count.
const LONG_RUN: usize = 80;

/// Bytes as a command of bash that writes them.
pub fn command(bytes: &[u8]) -> String {
    let mut parts: Vec<String> = Vec::new();
    let mut plain = String::new();
    let mut rest = bytes;
    while let Some(&byte) = rest.first() {
        let run = rest.iter().take_while(|&&other| other == byte).count();
        if run >= LONG_RUN {
            if !plain.is_empty() {
                parts.push(format!("printf '{}'", plain));
                plain.clear();
            }
            parts.push(format!("printf '{}%.0s' {{1..{}}}", escaped(byte), run));
        } else {
            (0..run).for_each(|_| plain.push_str(&escaped(byte)));
        }
        rest = &rest[run..];
    }
    if !plain.is_empty() || parts.is_empty() {
        parts.push(format!("printf '{}'", plain));
    }
    if parts.len() == 1 {
        return parts.remove(0);
    }
    format!("{{ {}; }}", parts.join("; "))
}

/// As it stands in a format of printf, between single quotes.
fn escaped(byte: u8) -> String {
    match byte {
        b'\t' => "\\t".to_string(),
        b'\n' => "\\n".to_string(),
        b'\r' => "\\r".to_string(),
        b'\\' => "\\\\".to_string(),
        b'%' => "%%".to_string(),
        b'\'' => "\\047".to_string(),
        b' '..=b'~' => char::from(byte).to_string(),
        _ => format!("\\{:03o}", byte),
    }
}

/// An output, or its beginning and where it first differs from the other.
fn output(bytes: &[u8], other: &[u8]) -> String {
    const MOST: usize = 2000;
    if bytes.len() <= MOST {
        return command(bytes);
    }
    let same = bytes.iter().zip(other).take_while(|(a, b)| a == b).count();
    let lines = bytes[..same].iter().filter(|&&byte| byte == b'\n').count();
    let begin = bytes[..same].iter().rposition(|&byte| byte == b'\n');
    let begin = begin.map_or(0, |end| end + 1);
    let part = &bytes[begin..bytes.len().min(begin + 200)];
    let (size, part) = (grouped(bytes.len() as u64), command(part));
    format!("{} bytes, from line {} on: {}", size, lines + 1, part)
}

/// An input as it can be tried again, and what each side said.
pub fn found(name: &str, found: &Found) -> String {
    let bytes = found.input.bytes();
    let cuts = match found.style.cuts(&bytes) {
        cuts if cuts.is_empty() => String::new(),
        cuts => format!("# reads end at the bytes {:?}\n", cuts),
    };
    let (said, second) = (output(&found.said, &found.second), output(&found.second, &found.said));
    let (why, again) = (&found.why, command(&bytes));
    format!("# smallest difference of {name}: {why}\n{cuts}{again}\n#   program: {said}\n#   second:  {second}")
}
