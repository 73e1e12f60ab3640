//! The program as it is run: what it reads, writes and ends with.

use second::data::dump;
use second::dump::report;
use std::fs::File;
use std::io::Write;
use std::process::{Command, Output, Stdio};

fn program(words: &[&str]) -> Command {
    let mut command = Command::new(env!("CARGO_BIN_EXE_second"));
    command.args(words);
    command
}

fn run(words: &[&str], input: &[u8]) -> Output {
    let mut command = program(words);
    command.stdin(Stdio::piped()).stdout(Stdio::piped());
    let mut child = command.stderr(Stdio::piped()).spawn().unwrap();
    child.stdin.take().unwrap().write_all(input).unwrap();
    child.wait_with_output().unwrap()
}

fn assert_wrote(output: &Output, expected: &[u8]) {
    assert!(output.status.success());
    assert_eq!(output.stdout, expected);
    assert!(output.stderr.is_empty());
}

fn assert_failed(output: &Output, message: &str) {
    assert!(!output.status.success());
    assert!(output.stdout.is_empty());
    let error = String::from_utf8_lossy(&output.stderr);
    assert!(error.starts_with(message), "{:?}", error);
}

#[test]
fn the_report_goes_to_standard_output() {
    let record = "12\t18\t2\tC0".to_string() + &"00".repeat(53) + "\n";
    let many = "frames\t1\n".to_string() + &record.repeat(2000) + "\n?";
    let dumps = ["", "\n", "frames\t1", "frames\t1\n\r\n\0", &many];
    for dump in dumps {
        assert_wrote(&run(&[], dump.as_bytes()), &report(dump.as_bytes()));
    }
}

#[test]
fn as_write_it_writes_the_dump() {
    let many = "data\t1\n".to_string() + &"12\t18\t80\n".repeat(2000) + "\n?";
    for data in ["", "\n", "data\t1", "data\t1\n\r\n\0", &many] {
        let output = run(&["write"], data.as_bytes());
        assert_wrote(&output, &dump(data.as_bytes()));
    }
}

#[test]
fn other_words_are_refused() {
    for words in [&["report"][..], &[""], &["write", "write"]] {
        let output = program(words).stdin(Stdio::null()).output().unwrap();
        assert_failed(&output, "second: usage: ");
    }
}

#[cfg(unix)]
#[test]
fn failing_to_read_is_an_error() {
    for (words, what) in [(&[][..], "dump"), (&["write"], "data")] {
        let folder = File::open(env!("CARGO_MANIFEST_DIR")).unwrap();
        let output = program(words).stdin(folder).output().unwrap();
        assert_failed(&output, &format!("second: cannot read the {}: ", what));
    }
}

#[cfg(target_os = "linux")]
#[test]
fn failing_to_write_is_an_error() {
    for (words, what) in [(&[][..], "report"), (&["write"], "dump")] {
        let full = File::options().write(true).open("/dev/full").unwrap();
        let mut command = program(words);
        let output = command.stdin(Stdio::null()).stdout(full).output();
        assert_failed(
            &output.unwrap(),
            &format!("second: cannot write the {}: ", what),
        );
    }
}
