//! Checks, counted and printed.

use std::process::exit;

#[derive(Default)]
pub struct Score {
    passed: usize,
    failed: usize,
}

impl Score {
    /// One check: it passes where there is no fault.
    pub fn count(&mut self, name: &str, fault: &str, counts: &str) {
        if fault.is_empty() {
            self.passed += 1;
            println!("ok     {:<66} {}", name, counts);
        } else {
            self.failed += 1;
            println!("FAILED {:<66} {}: {}", name, counts, fault);
        }
    }

    /// Something must have been met in all cases together.
    pub fn met(&mut self, name: &str, met: bool, counts: &str) {
        self.count(&format!("met: {}", name), if met { "" } else { "not all was met" }, counts);
    }

    /// The last line, and the status.
    pub fn end(self) -> ! {
        println!("{} passed, {} failed", self.passed, self.failed);
        exit(if self.failed == 0 && self.passed > 0 { 0 } else { 1 })
    }
}

/// With a comma after each third digit.
pub fn grouped(number: u64) -> String {
    let digits = number.to_string();
    let groups: Vec<&[u8]> = digits.as_bytes().rchunks(3).rev().collect();
    String::from_utf8(groups.join(&b',')).unwrap()
}

pub fn hex(bytes: &[u8]) -> String {
    const DIGITS: &[u8; 16] = b"0123456789ABCDEF";
    let pair = |&byte: &u8| [byte >> 4, byte & 15].map(|half| char::from(DIGITS[usize::from(half)]));
    bytes.iter().flat_map(pair).collect()
}
