//! Encoding data and reading it back.

use crate::batch::Batch;
use crate::promise::Promise;
use shared::bits::{all_ones, clear_spare_bits, has_spare_bits, row_mut, square_bytes, wrong_bits, CHECK_BITS};
use shared::damage;
use shared::written::{self, Written};

/// The first data of each n is empty, the second full.
fn some_data(batch: &mut Batch, index: usize) -> Vec<u8> {
    let k = batch.n - CHECK_BITS;
    let mut data = match index {
        0 => vec![0; square_bytes(k)],
        1 => written::full(&mut batch.random, batch.n),
        _ => written::data(&mut batch.random, batch.n),
    };
    clear_spare_bits(k, &mut data);
    data
}

fn some_frame(batch: &mut Batch, index: usize) -> Written {
    let data = some_data(batch, index);
    batch.write(data)
}

/// Encodes data and reads the frame: both sides must give the same frame, and from it the data.
pub fn encode(batch: &mut Batch) {
    for index in 0..batch.count {
        let written = some_frame(batch, index);
        let case = batch.encode_case(written.data.clone());
        let promise = Promise::encoded(&case);
        batch.check(case, promise, &[]);
        let case = batch.read_case(written.frame.clone());
        batch.check(case, Promise::data(written.data), &written.frame);
    }
}

/// Where k is a multiple of eight there are no spare bits, and the data is good.
pub fn encode_spare_bits(batch: &mut Batch) {
    let k = batch.n - CHECK_BITS;
    for index in 0..batch.count {
        let mut data = some_data(batch, index);
        let i = batch.random.below(k);
        if batch.random.once_in(2) {
            damage::set_spare_bits(&mut batch.random, k, row_mut(k, &mut data, i));
        } else {
            damage::set_spare_bits(&mut batch.random, k, &mut data);
        }
        let refused = has_spare_bits(k, &data);
        let case = batch.encode_case(data);
        let promise = if refused { Promise::refused(5, &case) } else { Promise::encoded(&case) };
        batch.check(case, promise, &[]);
    }
}

pub fn read_spare_bits(batch: &mut Batch) {
    for index in 0..batch.count {
        let written = some_frame(batch, index);
        let mut frame = written.frame.clone();
        damage::set_spare_bits(&mut batch.random, batch.n, &mut frame);
        let case = batch.read_case(frame);
        batch.check(case, Promise::data(written.data), &written.frame);
    }
}

pub fn read_damaged(batch: &mut Batch) {
    for index in 0..batch.count {
        let written = some_frame(batch, index).frame;
        let mut frame = written.clone();
        spoil(batch, &mut frame);
        if batch.random.once_in(4) {
            damage::set_spare_bits(&mut batch.random, batch.n, &mut frame);
        }
        // Different frames differ in six rows or more, and in each of these in six bits or more.
        let wrong = wrong_bits(batch.n, &written, &frame);
        let rows = wrong.iter().filter(|&&count| count > 0).count();
        let total: usize = wrong.iter().sum();
        let case = batch.read_case(frame);
        let promise = if all_ones(batch.n, &case.input) {
            Promise::refused(10, &case)
        } else if total > 0 && (rows < 6 || total < 36) {
            Promise::refused(6, &case)
        } else {
            Promise::None
        };
        batch.check(case, promise, &written);
    }
}

/// Damage that leaves every row a codeword, or nearly every column, and other damage.
fn spoil(batch: &mut Batch, frame: &mut [u8]) {
    let (n, random) = (batch.n, &mut batch.random);
    match random.below(6) {
        0 => {
            let other = written::codeword(batch.code, random, n);
            row_mut(n, frame, random.below(n)).copy_from_slice(&other);
        }
        1 => {
            let (j, loss) = (random.below(n), damage::loss(random));
            damage::lose_column(random, n, frame, j, loss);
        }
        2 => {
            let other = written::frame(batch.code, random, n).frame;
            damage::mix_rows(random, n, frame, &other);
        }
        3 => damage::tear(random, n, frame),
        4 => damage::wrong_bits(random, n, frame, 1),
        _ => {
            let count = random.within(2, 40);
            damage::wrong_bits(random, n, frame, count);
        }
    }
}
