//! The dump and its report, each rule at its edges.

use second::dump::{report, report_of_part, report_with};
use second::Code;

const LONGEST_LINE: usize = 16_414;

/// Item A in hex with its first rows replaced.
fn item(rows: &[&str]) -> String {
    format!("{:0<108}", rows.concat())
}

/// The report on a good header and `rest`, less the report's own first line.
fn answers_to_bytes(rest: &[u8]) -> String {
    let report = report(&[b"frames\t1\n", rest].concat());
    let report = String::from_utf8(report).unwrap();
    report.strip_prefix("repair\t1\n").unwrap().to_string()
}

fn answers(rest: &str) -> String {
    answers_to_bytes(rest.as_bytes())
}

fn is_bad(line: &str) -> bool {
    let answer = answers(&format!("{}\n", line));
    assert_eq!(answer.lines().count(), 1);
    answer == "?\t2\n"
}

/// The header, items A to D, a record with n = 17, and an empty line.
fn example() -> String {
    let (b, c, d) = ("C00000", "FFFFC0", "E00000");
    let mut dump = String::from("frames\t1\n");
    dump += &format!("0\t18\t2\t{}\n", item(&[]));
    dump += &format!("1\t18\t2\t{}\n", item(&[b]));
    dump += &format!("2\t18\t2\t{}\n", item(&[c, c]));
    dump += &format!("3\t18\t2\t{}\n", item(&[d, d, d]));
    dump += &format!("4\t17\t2\t{}\n", item(&[]));
    dump + "\n"
}

const EXAMPLE_REPORT: &str = "repair\t1\n\
    0\tclean\t0\t0\t0\t0\n\
    1\trepaired\t1\t2\t0\t0\n\
    2\trepaired\t2\t36\t0\t0\n\
    3\tstuck\t2\t0\t3\t3\n\
    4\trefused\t1\t0\t0\t0\n\
    ?\t7\n";

#[test]
fn the_example_has_its_report() {
    let dump = example();
    assert_eq!(report(dump.as_bytes()), EXAMPLE_REPORT.as_bytes());
    let reported = report_with(&Code::new(), dump.as_bytes());
    assert_eq!(reported, EXAMPLE_REPORT.as_bytes());
}

#[test]
fn item_c_with_allowance_1_is_spent() {
    let dump = format!("5\t18\t1\t{}\n", item(&["FFFFC0"; 2]));
    assert_eq!(answers(&dump), "5\tspent\t1\t0\t2\t18\n");
}

/// With spare bits zero and set; with one bit zero it is not erased.
#[test]
fn a_frame_of_ones_is_erased() {
    let erased = "7\terased\t0\t0\t0\t0\n";
    let frame = |n: usize, row: &str| row.repeat(n);
    let records = [
        (18, frame(18, "FFFFC0")),
        (18, frame(18, "FFFFFF")),
        (20, frame(20, "FFFFF0")),
        (20, frame(20, "FFFFFF")),
        (256, frame(256, &"FF".repeat(32))),
    ];
    for (n, frame) in records {
        for allowance in [1, 2, 32, 33, 200] {
            let line = format!("7\t{}\t{}\t{}\n", n, allowance, frame);
            assert_eq!(answers(&line), erased);
        }
        for allowance in [0, 201] {
            let line = format!("7\t{}\t{}\t{}\n", n, allowance, frame);
            assert_eq!(answers(&line), "7\trefused\t4\t0\t0\t0\n");
        }
        let short = format!("7\t{}\t2\t{}\n", n, &frame[2..]);
        assert_eq!(answers(&short), "7\trefused\t2\t0\t0\t0\n");
        // Bit 0 of row 0.
        let one_zero = format!("7\t{}\t2\t7{}\n", n, &frame[1..]);
        let said = match n {
            256 => "repaired\t1\t1\t0\t0".to_string(),
            _ => format!("stuck\t2\t0\t{}\t{}", n, n),
        };
        assert_eq!(answers(&one_zero), format!("7\t{}\n", said));
    }
}

#[test]
fn a_missing_header_is_bad() {
    for dump in ["", "\n", "\n\n", "\nframes\t1\n", "0\t17\t2\t\n"] {
        assert_eq!(report(dump.as_bytes()), b"bad header\n", "{:?}", dump);
    }
}

#[test]
fn the_header_is_exact() {
    let lines = [
        "frames",
        "frames\t",
        "frame\t1",
        "frames1",
        "frames 1",
        "frames\t1\r",
        "frames\t1\t",
        "frames\t1 ",
        "frames\t1\0",
        " frames\t1",
        "\tframes\t1",
        "\u{feff}frames\t1",
        "frames\t\t1",
        "frames\t2",
        "frames\t01",
        "frames\t11",
        "Frames\t1",
        "FRAMES\t1",
        "repair\t1",
    ];
    for line in lines {
        for rest in ["", "\n", "\nframes\t1\n0\t17\t2\t\n\n"] {
            let dump = line.to_string() + rest;
            assert_eq!(report(dump.as_bytes()), b"bad header\n", "{:?}", dump);
        }
    }
}

#[test]
fn the_header_may_be_all() {
    assert_eq!(report(b"frames\t1"), b"repair\t1\n");
    assert_eq!(report(b"frames\t1\n"), b"repair\t1\n");
    assert_eq!(report(b"frames\t1\n\n"), b"repair\t1\n?\t2\n");
}

#[test]
fn the_last_line_may_lack_its_lf() {
    let refused = "7\trefused\t1\t0\t0\t0\n";
    assert_eq!(answers("7\t17\t2\t"), refused);
    assert_eq!(answers("7\t17\t2\t\n"), refused);
    assert_eq!(answers("7\t17\t2\t\n\n"), format!("{}?\t3\n", refused));
    assert_eq!(answers("7\t17\t2\t\n7"), format!("{}?\t3\n", refused));
    assert_eq!(answers("7\t17\t2\t\n7\n"), format!("{}?\t3\n", refused));
    assert_eq!(answers("7"), "?\t2\n");
    assert_eq!(answers("\n7"), "?\t2\n?\t3\n");
}

/// Cut after any byte: the lines before the cut that have their LF, each as in
/// the whole report, and of the first line nothing before its LF.
#[test]
fn of_a_part_the_lines_with_their_lf_are_reported() {
    let code = Code::new();
    for dump in [example(), example().replacen('1', "2", 1)] {
        let whole = String::from_utf8(report_with(&code, dump.as_bytes())).unwrap();
        for cut in 0..=dump.len() {
            let ended = dump[..cut].matches('\n').count();
            let expected: String = whole.split_inclusive('\n').take(ended).collect();
            assert_eq!(
                report_of_part(&code, dump[..cut].as_bytes()),
                expected.into_bytes()
            );
        }
    }
}

#[test]
fn line_numbers_count_every_line() {
    let dump = "x\n9\t17\t2\t\n\n3\t17\t2\t\n9\t17\t2\t\ny\n";
    let refused = |number: u32| format!("{}\trefused\t1\t0\t0\t0\n", number);
    let expected = [
        "?\t2\n",
        &refused(9),
        "?\t4\n",
        &refused(3),
        &refused(9),
        "?\t7\n",
    ];
    assert_eq!(answers(dump), expected.concat());
    let expected: Vec<String> = (2..1202).map(|i| format!("?\t{}\n", i)).collect();
    assert_eq!(answers(&"\n".repeat(1200)), expected.concat());
}

#[test]
fn a_line_has_four_fields() {
    let good = "0\t17\t2\t00";
    assert!(!is_bad(good));
    for line in ["", "0", "0\t17", "0\t17\t2", "\t\t\t", "frames\t1"] {
        assert!(is_bad(line), "{:?}", line);
    }
    for line in ["0\t17\t2\t00\t", "\t0\t17\t2\t00", "0\t17\t\t2\t00"] {
        assert!(is_bad(line), "{:?}", line);
    }
    for line in ["0\t17\t2\t\t", "0\t17\t2\t\t00", "0\t17\t2\t00\t00"] {
        assert!(is_bad(line), "{:?}", line);
    }
    assert!(is_bad(&good.replace('\t', " ")));
    assert!(is_bad(&format!("{}\r", good)));
}

/// Three lines, each with `field` as another of its decimals.
fn lines_with(field: &str) -> [String; 3] {
    [
        format!("{}\t18\t1\t00", field),
        format!("0\t{}\t1\t00", field),
        format!("0\t18\t{}\t00", field),
    ]
}

#[test]
fn decimals_have_1_to_9_digits() {
    for field in ["0", "1", "9", "10", "100000000", "123456789", "999999999"] {
        for line in lines_with(field) {
            assert!(!is_bad(&line), "{:?}", line);
        }
        let line = format!("{}\t17\t1\t", field);
        assert_eq!(answers(&line), format!("{}\trefused\t1\t0\t0\t0\n", field));
    }
    for field in ["", "1000000000", "9999999999", "18446744073709551634"] {
        for line in lines_with(field) {
            assert!(is_bad(&line), "{:?}", line);
        }
    }
}

#[test]
fn decimals_have_no_leading_zero() {
    for field in ["00", "01", "018", "000000000", "000000001", "0999999999"] {
        for line in lines_with(field) {
            assert!(is_bad(&line), "{:?}", line);
        }
    }
}

#[test]
fn decimals_have_digits_alone() {
    let fields = "+1;-1;-0;1 ; 1;1.0;1_0;1,0;0x1;A;1A;1e1;\u{661};\u{ff11}";
    for field in fields.split(';') {
        for line in lines_with(field) {
            assert!(is_bad(&line), "{:?}", line);
        }
    }
}

#[test]
fn frames_are_upper_case_hex_of_whole_bytes() {
    for frame in ["", "00", "FF", "0123456789ABCDEF"] {
        assert!(!is_bad(&format!("0\t18\t1\t{}", frame)), "{:?}", frame);
    }
    let frames = "0;000;ff;fF;Ff;0G;0@;0/;0:;00 ; 00;0 0;0x00;-1;00\r;00\0;\u{e9};\u{ff10}0";
    for frame in frames.split(';') {
        assert!(is_bad(&format!("0\t18\t1\t{}", frame)), "{:?}", frame);
    }
}

/// A good line in which any one byte is replaced by any other than LF.
#[test]
fn each_byte_in_each_place() {
    let code = Code::new();
    let good = b"10\t17\t20\tAB";
    for place in 0..good.len() {
        for value in (0..256usize).filter(|&value| value != 10) {
            let byte = value as u8;
            let mut line = good.to_vec();
            line[place] = byte;
            let allowed: &[u8] = match place {
                0 | 3 | 6 => b"123456789",
                1 | 4 | 7 => b"0123456789",
                2 | 5 | 8 => b"\t",
                _ => b"0123456789ABCDEF",
            };
            let expected = if allowed.contains(&byte) {
                let text = std::str::from_utf8(&line).unwrap();
                let number = if &text[3..5] < "18" { 1 } else { 2 };
                format!("{}\trefused\t{}\t0\t0\t0\n", &text[..2], number)
            } else {
                "?\t2\n".to_string()
            };
            let reported = report_with(&code, &[b"frames\t1\n", &line[..]].concat());
            assert_eq!(reported, format!("repair\t1\n{}", expected).into_bytes());
        }
    }
}

#[test]
fn a_line_has_at_most_16414_characters() {
    let line = |front: &str, length: usize| {
        let digits = length - front.len();
        assert_eq!(digits % 2, 0, "nothing but the length is wrong");
        front.to_string() + &"0".repeat(digits)
    };
    // In each pair the second front is longer by one, with as many hex digits.
    let fronts = [
        ("99999999\t99999999\t9\t", "99999999\t99999999\t99\t", 1),
        ("1\t256\t1\t", "12\t256\t1\t", 2),
        ("12\t17\t1\t", "12\t17\t33\t", 1),
    ];
    for (front, longer, number) in fronts {
        let id = front.split('\t').next().unwrap();
        let refused = format!("{}\trefused\t{}\t0\t0\t0\n", id, number);
        let longest = line(front, LONGEST_LINE);
        assert_eq!(answers(&longest), refused);
        assert_eq!(answers(&(longest.clone() + "\n")), refused);
        let too_long = line(longer, LONGEST_LINE + 1);
        assert_eq!(answers(&too_long), "?\t2\n");
        assert_eq!(answers(&(too_long + "\n")), "?\t2\n");
        assert_eq!(answers(&(longest.clone() + "00\n")), "?\t2\n");
        assert_eq!(answers(&(longest + "\r\n")), "?\t2\n");
    }
    let all_nines = line("999999999\t999999999\t999999999\t", LONGEST_LINE);
    let refused = "999999999\trefused\t1\t0\t0\t0\n";
    assert_eq!(answers(&all_nines), refused);
}

#[test]
fn a_line_that_is_too_long_is_one_line() {
    let dump = "0".repeat(100_000) + "\n1\t17\t1\t\n";
    assert_eq!(answers(&dump), "?\t2\n1\trefused\t1\t0\t0\t0\n");
    let header = "frames\t1".to_string() + &"1".repeat(20_000) + "\n";
    assert_eq!(report(header.as_bytes()), b"bad header\n");
}

#[test]
fn bytes_that_are_no_text_make_a_line_bad() {
    let dump = b"\xff\xfe\n\0\n\r\n\x0b\n\x0c\n\xc2\x85\n\xe2\x80\xa8\n1\t17\t1\t\n";
    let bad: Vec<String> = (2..9).map(|i| format!("?\t{}\n", i)).collect();
    let expected = bad.concat() + "1\trefused\t1\t0\t0\t0\n";
    assert_eq!(answers_to_bytes(dump), expected);
}

#[test]
fn refusals_go_in_order_of_number() {
    let zeros = |bytes: usize| "00".repeat(bytes);
    let cases = [
        (17, 0, 0, 1),
        (17, 1, 54, 1),
        (0, 1, 0, 1),
        (257, 0, 8192, 1),
        (999_999_999, 1, 0, 1),
        (18, 1, 0, 2),
        (18, 0, 0, 2),
        (18, 201, 53, 2),
        (18, 1, 53, 2),
        (18, 1, 55, 2),
        (256, 1, 8191, 2),
        (18, 0, 54, 4),
        (18, 201, 54, 4),
        (18, 999_999_999, 54, 4),
        (256, 0, 8192, 4),
    ];
    for (n, allowance, bytes, number) in cases {
        let line = format!("6\t{}\t{}\t{}", n, allowance, zeros(bytes));
        let refused = format!("6\trefused\t{}\t0\t0\t0\n", number);
        assert_eq!(answers(&line), refused, "{:?}", (n, allowance, bytes));
    }
    for (n, bytes) in [(18, 54), (256, 8192)] {
        for allowance in [1, 32, 33, 200] {
            let line = format!("6\t{}\t{}\t{}", n, allowance, zeros(bytes));
            assert_eq!(answers(&line), "6\tclean\t0\t0\t0\t0\n");
        }
    }
}

#[test]
fn spare_bits_of_a_dumped_frame_do_not_matter() {
    let rows = ["00003F"; 18];
    let dump = format!("0\t18\t1\t{}\n", item(&rows));
    assert_eq!(answers(&dump), "0\tclean\t0\t0\t0\t0\n");
}
