//! Data and the dump of it, each rule at its edges.

use second::data::{dump, dump_of_part, dump_with};
use second::dump::report_with;
use second::Code;

const LONGEST_LINE: usize = 14_360;

/// The codeword of 18 bits other than zero.
const TWELVE: [u8; 3] = [0xb7, 0xb1, 0xc0];

/// The dump of a good header and `rest`, less the dump's own first line.
fn answers(rest: &str) -> String {
    let dump = dump(&[b"data\t1\n", rest.as_bytes()].concat());
    let dump = String::from_utf8(dump).unwrap();
    dump.strip_prefix("frames\t1\n").unwrap().to_string()
}

fn is_bad(line: &str) -> bool {
    let answer = answers(&format!("{}\n", line));
    assert_eq!(answer.lines().count(), 1);
    answer == "?\t2\n"
}

/// The bytes of `size` rows of `size` bits.
fn square_bytes(size: usize) -> usize {
    size * ((size + 7) / 8)
}

/// Hex of k rows of k ones, spare bits zero.
fn ones(n: usize) -> String {
    let k = n - 17;
    let width = (k + 7) / 8;
    let last = format!("{:02X}", 0xffu8 << (8 * width - k));
    ("FF".repeat(width - 1) + &last).repeat(k)
}

/// The frame of data bit 1 at n = 18, in hex.
fn frame_of_bit_1() -> String {
    let is_one = |i: usize| TWELVE[i / 8] >> (7 - i % 8) & 1 == 1;
    let row = |i| if is_one(i) { "B7B1C0" } else { "000000" };
    (0..18).map(row).collect()
}

#[test]
fn the_two_frames_of_18() {
    let zero = format!("0\t18\t8\t{}\n", "0".repeat(108));
    let one = format!("1\t18\t8\t{}\n", frame_of_bit_1());
    assert_eq!(answers("0\t18\t00\n1\t18\t80\n"), zero.clone() + &one);
    assert_eq!(answers("1\t18\t80\n0\t18\t00"), one + &zero);
}

#[test]
fn the_header_is_exact() {
    let lines = "; ;frames\t1;data;data\t;data\t2;data\t11;data\t01;data 1;data\t1\r;data\t1\t;Data\t1; data\t1";
    for line in lines.split(';') {
        for rest in ["", "\n", "\ndata\t1\n0\t18\t00\n\n"] {
            let input = line.to_string() + rest;
            assert_eq!(dump(input.as_bytes()), b"bad header\n", "{:?}", input);
        }
    }
    assert_eq!(dump(b"data\t1"), b"frames\t1\n");
    assert_eq!(dump(b"data\t1\n"), b"frames\t1\n");
    assert_eq!(dump(b"data\t1\n\n"), b"frames\t1\n?\t2\n");
}

#[test]
fn a_line_has_three_fields() {
    assert!(!is_bad("0\t18\t00"));
    assert!(!is_bad("0\t18\t"));
    for line in [
        "",
        "0",
        "0\t18",
        "0\t18 ",
        "\t\t",
        "data\t1",
        "0\t18\t8\t00",
        "0\t18\t\t",
    ] {
        assert!(is_bad(line), "{:?}", line);
    }
    for line in ["\t0\t18\t00", "0\t\t18\t00", "0\t18\t00\t", "0 18 00"] {
        assert!(is_bad(line), "{:?}", line);
    }
}

#[test]
fn fields_have_their_forms() {
    for field in ["", "00", "018", "1000000000", "+1", "-1", " 1", "1 ", "A"] {
        assert!(is_bad(&format!("{}\t18\t00", field)), "{:?}", field);
        assert!(is_bad(&format!("0\t{}\t00", field)), "{:?}", field);
    }
    for data in ["0", "000", "ff", "Ff", "0G", "00 ", " 00", "00\r", "\u{e9}"] {
        assert!(is_bad(&format!("0\t18\t{}", data)), "{:?}", data);
    }
    assert_eq!(answers("999999999\t999999999\t"), "!\t999999999\t1\n");
}

#[test]
fn refusals_go_in_order_of_number() {
    let cases = [
        (0, "", 1),
        (17, "00", 1),
        (17, "FF", 1),
        (257, "", 1),
        (18, "", 2),
        (18, "0000", 2),
        (18, "FFFF", 2),
        (26, &"FF".repeat(17), 2),
        (18, "40", 5),
        (18, "01", 5),
        (18, "FF", 5),
        (26, &"FF".repeat(18), 5),
        (256, &ones(256)[2..], 2),
        (256, &"FF".repeat(square_bytes(239)), 5),
        (256, &ones(256), 10),
    ];
    for (n, data, number) in cases {
        let line = format!("6\t{}\t{}", n, data);
        assert_eq!(
            answers(&line),
            format!("!\t6\t{}\n", number),
            "{:.40}",
            line
        );
    }
}

/// All ones are a frame of ones at 256 alone, and no longer with one zero.
#[test]
fn ones_that_are_written() {
    for (n, data) in [
        (255, ones(255)),
        (18, ones(18)),
        (256, "7".to_string() + &ones(256)[1..]),
    ] {
        let dump = answers(&format!("6\t{}\t{}", n, data));
        assert!(dump.starts_with(&format!("6\t{}\t8\t", n)));
        assert_eq!(
            dump.len(),
            format!("6\t{}\t8\t\n", n).len() + 2 * square_bytes(n)
        );
    }
}

#[test]
fn a_line_has_at_most_14360_characters() {
    let line = |front: &str, length: usize| {
        let digits = length - front.len();
        assert_eq!(digits % 2, 0, "nothing but the length is wrong");
        front.to_string() + &"0".repeat(digits)
    };
    // In each pair the second front is longer by one, with as many hex digits.
    for (front, longer, number) in [
        ("1\t256\t", "12\t256\t", 2),
        ("12\t17\t", "12\t257\t", 1),
        ("99999999\t99999999\t", "99999999\t999999999\t", 1),
    ] {
        let id = front.split('\t').next().unwrap();
        let refused = format!("!\t{}\t{}\n", id, number);
        let longest = line(front, LONGEST_LINE);
        assert_eq!(answers(&longest), refused);
        assert_eq!(answers(&(longest.clone() + "\n")), refused);
        assert_eq!(answers(&(longest + "00\n")), "?\t2\n");
        let too_long = line(longer, LONGEST_LINE + 1);
        assert_eq!(answers(&too_long), "?\t2\n");
        assert_eq!(answers(&(too_long + "\n1\t17\t\n")), "?\t2\n!\t1\t1\n");
    }
    let all_nines = line("999999999\t999999999\t", LONGEST_LINE);
    assert_eq!(answers(&all_nines), "!\t999999999\t1\n");
    let greatest = format!("999999999\t256\t{}", "0".repeat(2 * square_bytes(239)));
    assert!(!is_bad(&greatest));
}

/// A record of each n, refused ones and bad lines between them.
fn of_every_n(code: &Code) -> (String, String) {
    let mut input = String::from("data\t1\n");
    let mut report = String::from("repair\t1\n");
    for n in 18..=256 {
        let k = n - 17;
        let mut data = vec![0; square_bytes(k)];
        for (i, row) in data.chunks_mut((k + 7) / 8).enumerate() {
            row[i % k / 8] = 0x80 >> (i % k % 8);
        }
        let mut frame = vec![0; square_bytes(n)];
        assert_eq!(code.encode(n, &data, &mut frame), Ok(()));
        let hex: String = data.iter().map(|byte| format!("{:02X}", byte)).collect();
        input += &format!("{}\t{}\t{}\n{}\t{}\t\n\r\n", 1000 - n, n, hex, n, n);
        let line = 3 * (n - 18) + 2;
        report += &format!(
            "{}\tclean\t0\t0\t0\t0\n?\t{}\n?\t{}\n",
            1000 - n,
            line + 1,
            line + 2
        );
    }
    (input, report)
}

#[test]
fn a_written_dump_is_clean_when_it_is_reported() {
    let code = Code::new();
    let (input, report) = of_every_n(&code);
    let dump = dump_with(&code, input.as_bytes());
    assert_eq!(report_with(&code, &dump), report.into_bytes());
    assert_eq!(report_with(&code, &dump_with(&code, b"x")), b"bad header\n");
}

/// Cut after any byte: the lines before the cut that have their LF, each as in
/// the whole dump, and of the first line nothing before its LF.
#[test]
fn of_a_part_the_lines_with_their_lf_are_written() {
    let code = Code::new();
    let rest = "\n0\t18\t00\n1\t18\t40\n\r\n\n2\t18\t80\n3\t17\t";
    for header in ["data\t1", "data\t2"] {
        let input = header.to_string() + rest;
        let whole = String::from_utf8(dump_with(&code, input.as_bytes())).unwrap();
        for cut in 0..=input.len() {
            let ended = input[..cut].matches('\n').count();
            let expected: String = whole.split_inclusive('\n').take(ended).collect();
            let part = dump_of_part(&code, &input.as_bytes()[..cut]);
            assert_eq!(part, expected.into_bytes());
        }
    }
}
