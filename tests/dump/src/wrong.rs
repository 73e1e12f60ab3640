//! Lines that are bad by their form, each in one way.

use crate::records::{self, Maker};
use crate::text::{texts, Line};

/// A field that should be a decimal number of 1 to 9 digits.
const DECIMALS: &[u8] =
    b"|00|01|02|007|018|000000000|000000001|0000000018|1000000000|1234567890|0000000000|9999999999|4294967296|\
    4294967314|18446744073709551616|18446744073709551634|+1|-1|-0|+0| 1|1 | |1 8|1.|1.0|.1|1e1|1,0|1_8|0x12|12h|A|\
    1A|a|F|/|:|1/|1:|/1|:1|\0|18\0|\xb2|1\xff|\xef\xbc\x91\xef\xbc\x98";

/// A field that should be an even number of hex digits, all of them of upper case.
const HEXES: &[u8] =
    b"A|0|ABC|000|ab|aB|Ab|0a|f0|0x00|0X|G0|0G|@0|0@|`0|0`|g0|0g|/0|0/|:0|0:| 0|0 |00 | 00|0 0|00  |-0|+0|\0\0|0\0|\
    \r0|00\r|\x800|0\xc1|\xb00|\xef\xbc\xa10|00,00";

/// Whole lines, bad for both programs.
const LINES: &[u8] =
    b"| |\t|\t\t|\t\t\t|\t\t\t\t|\r|\r\r|\0|\x0b|\x0c|\x1a|\x7f|?|?\t2|!|!\t0\t5|0|0\t|0\t18|0\t18\t2|0 18 2 |\
    0\t18\t2\t\t|0\t18\t2\t\r|0\t18\t2\t\0|0\t18\t2 |0\t18\t\t|0\t18\t\r|0\t18\t\0|0\t18\t0|\t18\t2\t|\t18\t|0\t\t2\t|\
    0\t\t|frames|frames\t1|frames\t2|data|data\t1|data\t2|repair\t1|bad header|\xef\xbb\xbf|\xef\xbb\xbf0\t18\t2\t|\
    \xef\xbb\xbf0\t18\t";

fn join(fields: &[&[u8]]) -> Vec<u8> {
    fields.join(&b'\t')
}

/// The fields of a record that would end well, with letters among its hex digits.
fn good_fields(maker: &mut Maker) -> Vec<Vec<u8>> {
    const N: usize = 48;
    let bytes = records::bytes(maker, N);
    records::fields(maker.job, records::number(&mut maker.random), N, &bytes)
}

/// One field wrong, the others good.
fn in_a_field(maker: &mut Maker, lines: &mut Vec<Line>) {
    let good = good_fields(maker);
    let good: Vec<&[u8]> = good.iter().map(|field| &field[..]).collect();
    let last = maker.job.decimals;
    let mut push = |index: usize, wrong: &[u8]| {
        let mut fields = good.clone();
        fields[index] = wrong;
        lines.push(Line::bad(join(&fields)));
    };
    for (index, &number) in good[..last].iter().enumerate() {
        texts(DECIMALS).for_each(|wrong| push(index, wrong));
        // A zero before a number that would do without it.
        push(index, &[b"0", number].concat());
    }
    let digits = good[last];
    for wrong in texts(HEXES) {
        push(last, wrong);
        // The bytes but for their first digits, or but for their last.
        push(last, &[wrong, &digits[2..]].concat());
        push(last, &[&digits[..digits.len() - 2], wrong].concat());
    }
    push(last, &digits.to_ascii_lowercase());
}

/// Something more or less between good fields, or before or after them.
fn between_fields(maker: &mut Maker, lines: &mut Vec<Line>) {
    let good = good_fields(maker);
    let good: Vec<&[u8]> = good.iter().map(|field| &field[..]).collect();
    let whole = join(&good);
    for count in 0..good.len() {
        lines.push(Line::bad(join(&good[..count])));
        lines.push(Line::bad(join(&good[good.len() - count..])));
    }
    for more in ["\t", "\t0", "\t00", " ", "  ", "\r", "\0", "\u{feff}", "\u{a0}", "\u{85}", ";"] {
        lines.push(Line::bad([&whole[..], more.as_bytes()].concat()));
        lines.push(Line::bad([more.as_bytes(), &whole[..]].concat()));
    }
    for index in 1..good.len() {
        let (left, right) = (join(&good[..index]), join(&good[index..]));
        for part in ["", " ", "  ", "\t\t", "\t ", " \t", ",", ";", "\r", "\t\r", "\\t", "\x0b"] {
            lines.push(Line::bad([&left[..], part.as_bytes(), &right[..]].concat()));
        }
    }
}

/// All ways, each once.
pub fn all(maker: &mut Maker) -> Vec<Line> {
    let mut lines: Vec<Line> = texts(LINES).chain(texts(maker.job.others)).map(Line::bad).collect();
    in_a_field(maker, &mut lines);
    between_fields(maker, &mut lines);
    lines
}

/// Every byte but LF in the place of one of a good line, and before it, where that makes the line
/// bad. `place` counts over the line; those in the middle of the hex digits are left out.
pub fn every_byte_at(maker: &mut Maker, place: usize) -> Option<Vec<Line>> {
    let bytes = records::bytes(maker, 24);
    let good = records::text(maker.job, 120, 24, &bytes);
    let fields = good.len() - 2 * bytes.len();
    let places: Vec<usize> = (0..fields + 4).chain(good.len() - 3..good.len() + 1).collect();
    let &place = places.get(place)?;
    let in_hex = place >= fields;
    let mut lines = Vec::new();
    for byte in (0..=255).filter(|&byte| byte != b'\n') {
        let digit = byte.is_ascii_digit();
        let upper = digit || (b'A'..=b'F').contains(&byte);
        if place < good.len() && !(if in_hex { upper } else { digit && good[place] != b'\t' }) {
            let mut text = good.clone();
            text[place] = byte;
            if text != good {
                lines.push(Line::bad(text));
            }
        }
        if in_hex || !digit {
            let mut text = good.clone();
            text.insert(place, byte);
            lines.push(Line::bad(text));
        }
    }
    Some(lines)
}
