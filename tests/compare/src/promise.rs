//! What the rules promise of a case by the way it was made, whatever the second program says.

use crate::case::{Case, Entry, Said, Told};
use crate::packed::{refused, returned};
use second::receiver::State;
use shared::bits::{follows, Follows};
use shared::division::is_frame_of;

pub enum Promise {
    None,
    /// This is returned, and this is in the block and in the output.
    Exactly(u64, Vec<u8>, Vec<u8>),
    /// Number 0, and the frame of this n that has this data, by long division.
    Encoded(usize, Vec<u8>),
    /// Any number but this one.
    Not(u64),
}

impl Promise {
    /// This is told, and this is in the output.
    pub fn told(entry: Entry, told: Told, output: Vec<u8>) -> Promise {
        Promise::Exactly(told.number, entry.block(told), output)
    }

    /// The number alone, and an output that stays as it is. At number 11 the block stays as well, and of receive the state.
    pub fn refused(number: u64, case: &Case) -> Promise {
        match (number, case.entry) {
            (11, _) => Promise::Exactly(number, case.block.clone(), case.output.clone()),
            (_, Entry::Receive) => Promise::Exactly(refused(case.state, number), Vec::new(), case.output.clone()),
            _ => Promise::told(case.entry, Told::number(number), case.output.clone()),
        }
    }

    /// For receive: number 0, so many bytes of a frame of n rows so far, and this in the lent frame.
    pub fn received(n: usize, bytes: usize, frame: Vec<u8>) -> Promise {
        let more = bytes < frame.len();
        Promise::Exactly(returned(State { n, bytes }, 0, more), Vec::new(), frame)
    }

    /// For decode: the number, passes, bits, rows and columns.
    pub fn frame(counts: [usize; 5], output: Vec<u8>) -> Promise {
        Promise::told(Entry::Decode, Told::frame(counts), output)
    }

    /// For read: number 0, and this data.
    pub fn data(data: Vec<u8>) -> Promise {
        Promise::told(Entry::Read, Told::number(0), data)
    }

    /// For encode, of data that is not refused.
    pub fn encoded(case: &Case) -> Promise {
        Promise::Encoded(case.n, case.input.clone())
    }

    pub fn kept(&self, said: &Said) -> bool {
        match self {
            Promise::None => true,
            Promise::Exactly(number, block, output) => {
                said.number == *number && said.block == *block && said.output == *output
            }
            Promise::Encoded(n, data) => said.number == 0 && is_frame_of(*n, data, &said.output),
            Promise::Not(number) => said.number != *number,
        }
    }

    /// What follows for decode, at a good allowance, from the rows' numbers of wrong bits, or since all bits are ones.
    pub fn of_frame(case: &Case, written: &[u8]) -> Promise {
        let mended = |passes, wrong| Promise::frame([0, passes, wrong, 0, 0], written.to_vec());
        match follows(case.n, case.argument, written, &case.input) {
            Follows::Erased => Promise::refused(10, case),
            Follows::Clean => mended(0, 0),
            Follows::OnePass(wrong) => mended(1, wrong),
            Follows::TwoPasses(wrong) => mended(2, wrong),
            Follows::Nothing => Promise::None,
        }
    }

    /// The same, of damage that must be mended: within the class, and not all ones.
    pub fn within_the_class(case: &Case, written: &[u8]) -> Promise {
        let promise = Promise::of_frame(case, written);
        assert!(matches!(promise, Promise::Exactly(0, ..)), "this damage is within the promise");
        promise
    }

    /// What follows for a word with `wrong` places, all different.
    pub fn of_word(case: &Case, written: &[u8], wrong: &[usize]) -> Promise {
        let mut places = wrong.to_vec();
        places.sort_unstable();
        match wrong.len() {
            0..=2 => Promise::told(case.entry, Told::places(&places), written.to_vec()),
            // Another codeword lies at least three away.
            3 => Promise::no_codeword(case),
            _ => Promise::None,
        }
    }

    /// No codeword within two.
    pub fn no_codeword(case: &Case) -> Promise {
        Promise::told(case.entry, Told::number(9), case.input.clone())
    }
}
