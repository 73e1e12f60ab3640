//! Reads a text from standard input and writes the text that answers it to
//! standard output: to a dump of frames the report on it, and as `second write`
//! to data the dump of its frames.

#![forbid(unsafe_code)]

use second::data::{dump_of_part, dump_with};
use second::dump::{report_of_part, report_with};
use second::Code;
use std::io::{self, Read, Write};
use std::process::ExitCode;

/// What is read, what is written, and how that is made of all that there was
/// to be read, and of a part.
struct Task {
    input: &'static str,
    output: &'static str,
    of_all: fn(&Code, &[u8]) -> Vec<u8>,
    of_part: fn(&Code, &[u8]) -> Vec<u8>,
}

const REPORT: Task = Task {
    input: "dump",
    output: "report",
    of_all: report_with,
    of_part: report_of_part,
};

const WRITE: Task = Task {
    input: "data",
    output: "dump",
    of_all: dump_with,
    of_part: dump_of_part,
};

fn main() -> ExitCode {
    match asked().and_then(run) {
        Ok(()) => ExitCode::SUCCESS,
        Err(message) => {
            eprintln!("second: {}", message);
            ExitCode::FAILURE
        }
    }
}

fn asked() -> Result<Task, String> {
    let words: Vec<_> = std::env::args_os().skip(1).collect();
    match &words[..] {
        [] => Ok(REPORT),
        [word] if word == "write" => Ok(WRITE),
        _ => Err("usage: second [write] < INPUT > OUTPUT".to_string()),
    }
}

fn run(task: Task) -> Result<(), String> {
    let (mut input, code) = (Vec::new(), Code::new());
    let read = io::stdin().lock().read_to_end(&mut input);
    let make = if read.is_ok() {
        task.of_all
    } else {
        task.of_part
    };
    write(&make(&code, &input))
        .map_err(|error| format!("cannot write the {}: {}", task.output, error))?;
    let whole = read.map_err(|error| format!("cannot read the {}: {}", task.input, error));
    whole.map(|_| ())
}

fn write(output: &[u8]) -> io::Result<()> {
    let mut stdout = io::stdout().lock();
    stdout.write_all(output)?;
    // At exit it would be done too, but no failure shown.
    stdout.flush()
}
