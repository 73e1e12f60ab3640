//! What the standard library has no call for, and what /proc tells of a process.

use std::fs;
use std::io;
use std::os::raw::{c_int, c_ulong};
use std::os::unix::io::{AsRawFd, FromRawFd, OwnedFd};

const AF_UNIX: c_int = 1;
const SOCK_SEQPACKET: c_int = 5;
const SOCK_CLOEXEC: c_int = 0o2000000;
const FIONREAD: c_ulong = 0x541b;

extern "C" {
    fn socketpair(domain: c_int, kind: c_int, protocol: c_int, ends: *mut c_int) -> c_int;
    fn ioctl(file: c_int, request: c_ulong, ...) -> c_int;
}

/// Two ends of a line on which each write arrives as one read, however much room the reader has.
/// Neither end is handed on to other processes that are started meanwhile.
pub fn packets() -> io::Result<(OwnedFd, OwnedFd)> {
    let mut ends = [-1; 2];
    let kind = SOCK_SEQPACKET | SOCK_CLOEXEC;
    // SAFETY: `ends` has room for the two numbers that are written.
    let made = unsafe { socketpair(AF_UNIX, kind, 0, ends.as_mut_ptr()) };
    if made != 0 {
        return Err(io::Error::last_os_error());
    }
    // SAFETY: both were opened just now, and nothing else owns them.
    Ok(unsafe { (OwnedFd::from_raw_fd(ends[0]), OwnedFd::from_raw_fd(ends[1])) })
}

/// How many bytes lie in a pipe that its reader has not taken yet.
pub fn waiting(pipe: &impl AsRawFd) -> usize {
    let mut count: c_int = 0;
    // SAFETY: FIONREAD writes one number, to `count`.
    let asked = unsafe { ioctl(pipe.as_raw_fd(), FIONREAD, &mut count as *mut c_int) };
    assert_eq!(asked, 0, "a pipe does not say what it holds");
    count as usize
}

/// The value of a line `name: value` of a file of /proc/PID, its unit left off.
fn value(process: u32, file: &str, name: &str) -> Option<String> {
    let text = fs::read_to_string(format!("/proc/{}/{}", process, file)).ok()?;
    let line = text.lines().find_map(|line| line.strip_prefix(name))?;
    let value = line.strip_prefix(':')?.split_whitespace().next()?;
    Some(value.to_string())
}

/// The calls to read that a process has made, if the system counts them.
pub fn reads(process: u32) -> Option<usize> {
    value(process, "io", "syscr")?.parse().ok()
}

/// It waits for something.
pub fn sleeps(process: u32) -> bool {
    value(process, "status", "State").map_or(false, |state| state == "S")
}

/// In KiB, the most that a process ever had: resident memory, and all that was mapped.
pub fn peaks(process: u32) -> Option<(usize, usize)> {
    let peak = |name| value(process, "status", name)?.parse().ok();
    Some((peak("VmHWM")?, peak("VmPeak")?))
}
