//! Runs a program on an input.

use crate::job::Job;
use crate::style::Style;
use crate::system;
use crate::watch::{pause, Watch};
use std::ffi::OsString;
use std::fs::{self, File};
use std::io::{self, Read, Seek, SeekFrom, Write};
use std::os::unix::process::ExitStatusExt;
use std::process::{Child, ChildStdin, ChildStdout, Command, ExitStatus, Stdio};
use std::sync::atomic::{AtomicBool, AtomicUsize, Ordering};
use std::sync::{Arc, Mutex};
use std::thread;
use std::time::Duration;

#[derive(Clone)]
pub struct Program {
    pub job: &'static Job,
    pub path: OsString,
    /// What `ulimit` is called with before it is started.
    pub limits: Vec<&'static str>,
    pub watch: Arc<Watch>,
}

/// What a program wrote, and what is wrong with the way it ended.
pub struct Outcome {
    pub said: Vec<u8>,
    pub wrong: Option<String>,
    /// The calls to read, if the system counts them.
    pub reads: Option<usize>,
}

/// A program that was started: its standard input if that is a pipe, and its standard output.
pub struct Running {
    pub child: Arc<Mutex<Child>>,
    pub input: Option<ChildStdin>,
    pub output: ChildStdout,
    pub process: u32,
}

impl Program {
    pub fn command(&self) -> Command {
        if self.limits.is_empty() {
            return Command::new(&self.path);
        }
        // Its environment too would stand on the stack.
        let mut command = Command::new("/bin/sh");
        command.env_clear();
        let set = |limit: &&str| format!("ulimit {} && ", limit);
        let limits: String = self.limits.iter().map(set).collect();
        command.arg("-c").arg(limits + "exec \"$0\"").arg(&self.path);
        command
    }

    /// `size` is that of the input: a longer one may take longer.
    pub fn start(&self, input: impl Into<Stdio>, size: usize) -> Running {
        let mut command = self.command();
        let started = command.stdin(input).stdout(Stdio::piped()).spawn();
        let mut child = started.expect("the program can be started");
        let (input, output) = (child.stdin.take(), child.stdout.take().unwrap());
        let process = child.id();
        Running { child: self.watch.add(child, time_for(size)), input, output, process }
    }

    /// Standard input and standard output are files.
    pub fn run_from_file_to_file(&self, input: &[u8]) -> Outcome {
        let [file, mut output] = [input, b""].map(file_of);
        let theirs = output.try_clone().expect("a file can be handed on");
        let mut command = self.command();
        let started = command.stdin(file).stdout(theirs).spawn();
        let child = started.expect("the program can be started");
        let child = self.watch.add(child, time_for(input.len()));
        let status = self.watch.end(&child);
        let mut said = Vec::new();
        let begin = output.seek(SeekFrom::Start(0));
        let read = begin.and_then(|_| output.read_to_end(&mut said));
        read.expect("a temporary file can be read");
        Outcome::new(said, status)
    }

    pub fn run(&self, input: &[u8], style: Style) -> Outcome {
        match style {
            Style::File => self.run_on_file(input),
            Style::Bytes => self.run_on_bytes(input),
            _ => self.run_on_pipe(input, &style.cuts(input)),
        }
    }

    fn run_on_file(&self, input: &[u8]) -> Outcome {
        let mut running = self.start(file_of(input), input.len());
        let said = read_all(&mut running.output);
        self.outcome(&running, said)
    }

    fn run_on_bytes(&self, input: &[u8]) -> Outcome {
        let (ours, theirs) = system::packets().expect("a socket can be made");
        let mut running = self.start(theirs, input.len());
        let said = thread::scope(|scope| {
            scope.spawn(move || {
                let mut ours = File::from(ours);
                // A program that has said `bad header` need not read on.
                let _ = input.chunks(1).try_for_each(|byte| ours.write_all(byte));
            });
            read_all(&mut running.output)
        });
        self.outcome(&running, said)
    }

    fn run_on_pipe(&self, input: &[u8], cuts: &[usize]) -> Outcome {
        let mut running = self.start(Stdio::piped(), input.len());
        let pipe = running.input.take().unwrap();
        let ended = AtomicBool::new(false);
        let said = thread::scope(|scope| {
            scope.spawn(|| write_pieces(pipe, input, cuts, &ended));
            let said = read_all(&mut running.output);
            ended.store(true, Ordering::Relaxed);
            said
        });
        self.outcome(&running, said)
    }

    /// After all of the output was read. What the system counted is there until the end was
    /// waited for.
    pub fn outcome(&self, running: &Running, said: Vec<u8>) -> Outcome {
        let reads = system::reads(running.process);
        let status = self.watch.end(&running.child);
        Outcome { reads, ..Outcome::new(said, status) }
    }
}

impl Outcome {
    /// What is wrong, where this is the output that it should have written.
    pub fn fault(&self, expected: &[u8]) -> &str {
        match &self.wrong {
            Some(wrong) => wrong,
            None if self.said != expected => "the output is another",
            None => "",
        }
    }

    pub fn new(said: Vec<u8>, status: ExitStatus) -> Outcome {
        let wrong = wrong_end(status);
        Outcome { said, wrong, reads: None }
    }
}

fn time_for(size: usize) -> Duration {
    Duration::from_secs(20 + size as u64 / 1_000_000)
}

/// A bad input is no failure of the program: it has its output too.
fn wrong_end(status: ExitStatus) -> Option<String> {
    match (status.code(), status.signal()) {
        (Some(0), _) => None,
        (Some(code), _) => Some(format!("it ended with status {}", code)),
        (_, Some(9)) => Some("it was stopped, since it did not end".to_string()),
        (_, Some(signal)) => Some(format!("it ended by signal {}", signal)),
        _ => Some("it ended in a way not known".to_string()),
    }
}

pub fn read_all(output: &mut ChildStdout) -> Vec<u8> {
    let mut said = Vec::new();
    let read = output.read_to_end(&mut said);
    read.expect("a pipe can be read to its end");
    said
}

/// Writes the input up to each cut, and goes on only when the reader has taken all of it: its
/// read has then ended at the cut.
fn write_pieces(mut pipe: ChildStdin, input: &[u8], cuts: &[usize], ended: &AtomicBool) {
    let mut start = 0;
    for &cut in cuts {
        if pipe.write_all(&input[start..cut]).is_err() {
            return;
        }
        wait_until_taken(&pipe, ended);
        start = cut;
    }
    // A program that has said `bad header` need not read on.
    let _ = pipe.write_all(&input[start..]);
}

fn wait_until_taken(pipe: &ChildStdin, ended: &AtomicBool) {
    let mut tries = 0;
    while system::waiting(pipe) > 0 && !ended.load(Ordering::Relaxed) {
        pause(&mut tries);
    }
}

/// A file with these bytes, at its beginning.
pub fn file_of(bytes: &[u8]) -> File {
    let made = unnamed_file().and_then(|mut file| {
        file.write_all(bytes)?;
        file.seek(SeekFrom::Start(0))?;
        Ok(file)
    });
    made.expect("a temporary file can be written")
}

/// No folder lists it any more.
fn unnamed_file() -> io::Result<File> {
    static COUNT: AtomicUsize = AtomicUsize::new(0);
    let count = COUNT.fetch_add(1, Ordering::Relaxed);
    let name = format!("dump-{}-{}", std::process::id(), count);
    let path = std::env::temp_dir().join(name);
    let mut options = File::options();
    let file = options.read(true).write(true).create_new(true).open(&path)?;
    fs::remove_file(&path)?;
    Ok(file)
}
