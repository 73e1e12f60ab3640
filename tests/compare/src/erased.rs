//! Erased frames, whose code bits are all ones: what comes before number 10, what after it, and what is next to such a frame.

use crate::batch::Batch;
use crate::case::{Case, Entry, Told};
use crate::promise::Promise;
use crate::refusals::{exact, refusal};
use shared::bits::{bytes_for, clear_spare_bits, flip_at, row_mut, square_bytes, CHECK_BITS, MOST_ALLOWED, SHORTEST};
use shared::damage;
use shared::division::Places;
use shared::random::Random;
use shared::written::add_crossings;

/// `size` rows of `size` ones: spare bits zero, set and at random; and, where there are any, one alone set and one alone zero.
fn of_ones(random: &mut Random, size: usize) -> Vec<Vec<u8>> {
    let set = vec![0xff; square_bytes(size)];
    let mut zero = set.clone();
    clear_spare_bits(size, &mut zero);
    let mut some = zero.clone();
    damage::set_spare_bits(random, size, &mut some);
    let mut forms = vec![zero, set, some];
    let spare = 8 * bytes_for(size) - size;
    if spare > 0 {
        for form in 0..2 {
            let mut one = forms[form].clone();
            flip_at(size, &mut one, random.below(size), size + random.below(spare));
            forms.push(one);
        }
    }
    forms
}

/// One of these forms, with the code bit j of row i zero.
fn with_zero(random: &mut Random, n: usize, (i, j): (usize, usize)) -> Vec<u8> {
    let mut forms = of_ones(random, n);
    let mut frame = forms.swap_remove(random.below(forms.len()));
    flip_at(n, &mut frame, i, j);
    frame
}

/// Whatever the spare bits and the allowance. Reading, it is 10 also where the ones are no frame.
pub fn frames(batch: &mut Batch) {
    for frame in of_ones(&mut batch.random, batch.n) {
        for allowance in [1, 2, batch.random.within(3, MOST_ALLOWED - 1), MOST_ALLOWED] {
            let case = batch.decode_case(allowance, frame.clone());
            batch.check_refused(case, 10);
        }
        let case = batch.read_case(frame);
        batch.check_refused(case, 10);
    }
}

/// At the corners, in the last column, next to the spare bits, and anywhere.
pub fn but_one_bit(batch: &mut Batch) {
    let (n, last) = (batch.n, batch.n - 1);
    let places = Places::new(n);
    let mut zeros = vec![(0, 0), (0, last), (last, 0), (last, last), (batch.random.below(n), last)];
    zeros.extend((0..4).map(|_| (batch.random.below(n), batch.random.below(n))));
    for zero in zeros {
        let frame = with_zero(&mut batch.random, n, zero);
        for allowance in [1, batch.random.within(2, MOST_ALLOWED)] {
            let case = batch.decode_case(allowance, frame.clone());
            let promise = of_one_zero(&places, &case, zero);
            batch.check(case, promise, &[]);
        }
        let case = batch.read_case(frame);
        batch.check_refused(case, 6);
    }
}

/// If all words are beyond, no pass flips a bit. If the word of ones is a codeword, pass 1 mends the one bit.
fn of_one_zero(places: &Places, case: &Case, (i, j): (usize, usize)) -> Promise {
    let n = case.n;
    let near = |zero| places.near(&(0..n).filter(|&place| place != zero).collect::<Vec<_>>());
    let words = [n, i, j].map(near);
    if words[0] == Some(Vec::new()) {
        let mut mended = vec![0xff; case.input.len()];
        clear_spare_bits(n, &mut mended);
        return Promise::frame([0, 1, 1, 0, 0], mended);
    }
    let beyond = words.iter().all(Option::is_none);
    match case.argument {
        _ if !beyond => Promise::Not(10),
        1 => Promise::frame([8, 1, 0, n, n], case.input.clone()),
        _ => Promise::frame([7, 2, 0, n, n], case.input.clone()),
    }
}

/// Where the word of ones has a codeword two places away, the crossings of that one with itself are a frame. Ones are this frame
/// with two rows lost and two wrong bits in each other row: within the class, and erased. With a zero among them it comes back.
pub fn within_the_class(batch: &mut Batch) {
    let (n, k) = (batch.n, batch.n - CHECK_BITS);
    let lost = match Places::new(n).near(&(0..n).collect::<Vec<_>>()) {
        Some(two) if two.len() == 2 => two,
        _ => return,
    };
    let ones: Vec<usize> = (0..n).filter(|place| !lost.contains(place)).collect();
    let in_data: Vec<usize> = ones.iter().copied().filter(|&place| place < k).collect();
    let (mut data, mut written) = (vec![0; square_bytes(k)], vec![0; square_bytes(n)]);
    add_crossings(k, &mut data, &in_data, &in_data);
    add_crossings(n, &mut written, &ones, &ones);
    batch.divide(&data, &written, true);
    let case = batch.encode_case(data);
    let promise = Promise::told(Entry::Encode, Told::number(0), written.clone());
    batch.check(case, promise, &[]);
    for frame in of_ones(&mut batch.random, n) {
        for allowance in [1, 2, MOST_ALLOWED] {
            let case = batch.decode_case(allowance, frame.clone());
            batch.check_refused(case, 10);
        }
    }
    spoiled(batch, &written, [lost[0], lost[1]]);
}

/// The frame was written with zeros in the two lost rows and at two places of each other row, and ones elsewhere. Received are
/// ones, but for some bits, and it comes back. Only of the last no more is asked than that it is not erased.
fn spoiled(batch: &mut Batch, written: &[u8], lost: [usize; 2]) {
    let n = batch.n;
    let (any, other) = (batch.random.below(n), (lost[0] + 1) % n);
    let zeros = [
        // In a lost row, where anything may be wrong.
        (lost[0], any),
        (lost[1], any),
        // Where a zero was written: if that row is not lost, it has one wrong bit left.
        (any, lost[0]),
        (any, lost[1]),
    ];
    let mut all = zeros.map(|zero| with_zero(&mut batch.random, n, zero)).to_vec();
    // The first lost row of noise, then the second, then both.
    for rows in [&lost[..1], &lost[1..], &lost[..]] {
        let mut noise = vec![0xff; written.len()];
        rows.iter().for_each(|&i| batch.random.fill(row_mut(n, &mut noise, i)));
        all.push(noise);
    }
    for received in all {
        let allowance = batch.random.within(2, MOST_ALLOWED);
        let case = batch.decode_case(allowance, received);
        let promise = Promise::within_the_class(&case, written);
        batch.check(case, promise, written);
    }
    // The last, with a zero where a one was written: a third row has three wrong bits, so it is not of the class.
    let received = with_zero(&mut batch.random, n, (other, other));
    let case = batch.decode_case(MOST_ALLOWED, received);
    batch.check(case, Promise::Not(10), written);
}

/// At n = 256 alone the frame of ones is erased; and a spare bit is seen before it.
pub fn data(batch: &mut Batch) {
    let k = batch.n - CHECK_BITS;
    let forms = of_ones(&mut batch.random, k);
    for place in [0, k * k - 1, batch.random.below(k * k), batch.random.below(k * k)] {
        let mut data = forms[0].clone();
        flip_at(k, &mut data, place / k, place % k);
        let case = batch.encode_case(data.clone());
        let promise = Promise::encoded(&case);
        batch.check(case, promise, &[]);
        let written = batch.write(data);
        let case = batch.read_case(written.frame.clone());
        batch.check(case, Promise::data(written.data), &written.frame);
    }
    for data in forms {
        let case = batch.encode_case(data);
        check_ones(batch, case);
    }
}

/// A case whose bits are all ones: refused, or encoded.
fn check_ones(batch: &mut Batch, case: Case) {
    match refusal(&case) {
        Some(number) => batch.check_refused(case, number),
        None => {
            let promise = Promise::encoded(&case);
            batch.check(case, promise, &[]);
        }
    }
}

/// Numbers 1 to 5 come before 10, whichever of them are there, and 6 after it.
pub fn refusals(batch: &mut Batch) {
    for entry in [Entry::Encode, Entry::Read, Entry::Decode] {
        let (input, output) = exact(entry, batch.n);
        for n in [batch.n, SHORTEST - 1, batch.n + 256] {
            for input in [input, input - 1] {
                for output in [output, output + 1] {
                    refusals_of(batch, entry, n, (input, output));
                }
            }
        }
    }
}

fn refusals_of(batch: &mut Batch, entry: Entry, n: usize, (input, output): (usize, usize)) {
    let size = if entry == Entry::Encode { batch.n - CHECK_BITS } else { batch.n };
    let allowances = if entry == Entry::Decode { &[0, 1, MOST_ALLOWED, MOST_ALLOWED + 1][..] } else { &[0] };
    for &allowance in allowances {
        for spare in [true, false] {
            let mut ones = vec![0xff; input];
            if !spare {
                clear_spare_bits(size, &mut ones);
            }
            let case = Case::new(&mut batch.random, entry, n, ones, output).with(allowance);
            check_ones(batch, case);
        }
    }
}
