//! Reads and writes that fail. Of an input that could be read only in part the lines that have their LF are answered, and no
//! other; an output that could not be written is not. Each is said in a line on standard error, and is the status of ./repair,
//! or ./write.

use crate::compare::{maker, Sides};
use crate::job::Job;
use crate::process::{file_of, Program};
use crate::records::{self, Maker};
use shared::run::Scale;
use shared::score::Score;
use std::fs::File;
use std::io::Write;
use std::os::unix::io::OwnedFd;
use std::os::unix::net::UnixStream;
use std::path::Path;
use std::process::{Command, Output, Stdio};

fn run(mut command: Command, input: impl Into<Stdio>, output: impl Into<Stdio>) -> Output {
    let command = command.stdin(input).stdout(output).stderr(Stdio::piped());
    let child = command.spawn().expect("the program can be started");
    child.wait_with_output().expect("the program ends")
}

/// What is wrong, where this is the output and one line that has `says` in it, or none, is on standard error.
fn fault(ran: &Output, expected: &[u8], says: &str) -> &'static str {
    let said = String::from_utf8_lossy(&ran.stderr);
    let told = said.contains(says) && said.find('\n').map_or(false, |end| end + 1 == said.len());
    if ran.stdout != expected {
        "the output is another"
    } else if says.is_empty() && !said.is_empty() {
        "something was said on standard error"
    } else if !says.is_empty() && !told {
        "standard error has not just a line that says it"
    } else {
        ""
    }
}

/// A socket on which the bytes are waiting. After them a read fails: there is no more, nor an end.
fn with_no_end(bytes: &[u8]) -> (UnixStream, OwnedFd) {
    let (mut ours, theirs) = UnixStream::pair().expect("a socket can be made");
    ours.write_all(bytes).expect("a socket can be written");
    theirs.set_nonblocking(true).expect("a socket need not wait");
    (ours, theirs.into())
}

/// The read fails after each of these numbers of bytes.
fn cut(sides: &Sides, score: &mut Score, name: &str, input: &[u8], places: impl Iterator<Item = usize>) {
    let job = sides.program.job;
    let (mut count, mut faults) = (0, Vec::new());
    for place in places {
        let (_ours, theirs) = with_no_end(&input[..place]);
        let ran = run(sides.program.command(), theirs, Stdio::piped());
        let fault = fault(&ran, &(job.of_part)(sides.code, &input[..place]), "read");
        count += 1;
        if !fault.is_empty() {
            faults.push(format!("after {} bytes {}", place, fault));
        }
    }
    let first = faults.first().map_or(String::new(), |first| format!("{} times: {}", faults.len(), first));
    score.count(&job.check(name), &first, &format!("{} places", count));
}

fn cuts(sides: &Sides, maker: &mut Maker, score: &mut Score) {
    let (job, header) = (maker.job, maker.job.header());
    let lines = [
        records::good(maker, 24).text,
        b"x\r".to_vec(),
        Vec::new(),
        records::text(job, 7, 17, &[]),
        records::any(maker, 25).text,
        records::text(job, 0, 18, &[0]),
    ];
    let good = lines.join(&b'\n');
    let short = [&header[..], b"\n", &good].concat();
    cut(sides, score, "a read that fails, after each byte", &short, 0..=short.len());
    let bad = [format!("{}\t2\n", job.word).as_bytes(), &good[..good.len().min(40)]].concat();
    cut(sides, score, "likewise, the first line bad", &bad, 0..=bad.len());
    let first = header.len() + 1;
    let long = [&header[..], b"\n", &[b'A'; 17_000], b"\n", &[&good[..], b"\n"].concat().repeat(1000)].concat();
    let about = (1..=5).flat_map(|times| (8192 * times - 1)..=(8192 * times + 1));
    let ends = (0..long.len()).filter(|&place| long[place] == b'\n').skip(300).take(9).flat_map(|end| [end, end + 1]);
    let longest = first + job.longest_line;
    let places = about.chain(ends).chain([longest, longest + 1, first + 17_000, first + 17_001]);
    cut(sides, score, "likewise, a long input, about line ends and 8192's multiples", &long, places);
}

/// The same with ./repair, or ./write: its output, what it says, and its status.
fn with_command(job: &Job, score: &mut Score, name: &str, failed: &str, program: &Output, ran: Output) {
    let message = if failed.is_empty() { String::new() } else { job.message(failed) };
    let fault = match ran.status.code() {
        _ if ran.stdout != program.stdout => "its output is another",
        _ if ran.stderr != message.as_bytes() => "it says something else",
        Some(0) if failed.is_empty() => "",
        Some(1) if !failed.is_empty() => "",
        _ => "its status is wrong",
    };
    score.count(&format!("./{}: {}", job.name, name), fault, &format!("{:?}", ran.status.code()));
}

/// For standard output, that what is written gets lost.
fn unwritten(kind: &str) -> Stdio {
    let mut options = File::options();
    match kind {
        "closed" => options.read(true).open("/dev/null").expect("there is /dev/null").into(), // as good as closed
        _ => options.write(true).open("/dev/full").expect("there is a device that is always full").into(),
    }
}

/// COMMANDS names the folder of ./repair and ./write.
pub fn checks(sides: &Sides, scale: Scale, score: &mut Score) {
    cuts(sides, &mut maker(sides, scale, "failing reads"), score);
    let (code, program, job) = (sides.code, sides.program, sides.program.job);
    let example = &[&job.header()[..], b"\n", &records::text(job, 0, 17, &[]), b"\nx"].concat()[..];
    let (whole, part) = ((job.of_all)(code, example), (job.of_part)(code, example));
    type Call<'a> = dyn Fn(Command) -> Output + 'a;
    let folder = || File::open("/").expect("there is a folder");
    let broken_off = |command| {
        let (_ours, theirs) = with_no_end(example);
        run(command, theirs, Stdio::piped())
    };
    let lost = |kind| move |command| run(command, file_of(example), unwritten(kind));
    let calls: [(&str, &Call, &[u8], &str); 5] = [
        ("all is read and written", &|command| run(command, file_of(example), Stdio::piped()), &whole, ""),
        ("a read that fails at once", &|command| run(command, folder(), Stdio::piped()), b"", "read"),
        ("a read that fails after a part", &broken_off, &part, "read"),
        ("a full disk", &lost("full"), b"", "writ"),
        ("an output that can't be written", &lost("closed"), b"", "writ"),
    ];
    // A program in Rust, as a quick run has it, takes no notice of the last.
    for (name, call, expected, says) in calls.into_iter().take(if scale.quick { 4 } else { 5 }) {
        let ran = call(program.command());
        score.count(&job.check(name), fault(&ran, expected, says), &format!("{} bytes", ran.stdout.len()));
        if let Some(folder) = std::env::var_os("COMMANDS") {
            let path = Path::new(&folder).join(job.name).into();
            with_command(job, score, name, says, &ran, call(Program { path, ..program.clone() }.command()));
        }
    }
}
