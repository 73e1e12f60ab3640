//! What is timed.

use compare::case::{Case, Entry};
use compare::promise::Promise;
use second::Code;
use shared::bits::{flip_at, square_bytes, MOST_ALLOWED};
use shared::chain::Chain;
use shared::damage::{lose_row, wrong_bits, Loss};
use shared::division::Places;
use shared::random::Random;
use shared::written::full_frame;

pub const FRAMES: usize = 301;
/// Where a frame takes many passes.
pub const FEW: usize = 31;

pub struct Item {
    pub name: &'static str,
    /// Of the frames' random numbers.
    pub seed: u64,
    /// So many are timed.
    pub frames: usize,
    /// A new case, on another random frame each time, and the answer it must get.
    pub make: fn(&Code, &mut Random) -> (Case, Promise),
}

pub const ITEMS: [Item; 7] = [
    Item {
        name: "decode, n = 195, 40 wrong bits",
        seed: 1,
        frames: FRAMES,
        make: |code, random| {
            decode(code, random, 195, |random, frame| {
                wrong_bits(random, 195, frame, 40);
            })
        },
    },
    Item {
        name: "decode, n = 195, two wrong bits in every row",
        seed: 6,
        frames: FRAMES,
        make: |code, random| {
            decode(code, random, 195, |random, frame| {
                for i in 0..195 {
                    random.distinct(2, 195).into_iter().for_each(|j| flip_at(195, frame, i, j));
                }
            })
        },
    },
    Item {
        name: "decode, n = 195, clean",
        seed: 2,
        frames: FRAMES,
        make: |code, random| decode(code, random, 195, |_, _| {}),
    },
    Item {
        name: "decode, n = 256, two rows lost",
        seed: 3,
        frames: FRAMES,
        make: |code, random| {
            decode(code, random, 256, |random, frame| {
                for i in random.distinct(2, 256) {
                    lose_row(random, 256, frame, i, Loss::Noise);
                }
            })
        },
    },
    Item {
        name: "decode, n = 195, 195 passes",
        seed: 8,
        frames: FEW,
        make: |code, random| {
            let written = full_frame(code, random, 195).frame;
            let mut received = written.clone();
            let chain = Chain::new(random, &Places::new(195), 195, 200);
            chain.spoil(&mut received);
            let case = Case::new(random, Entry::Decode, 195, received, written.len()).with(MOST_ALLOWED);
            (case, Promise::frame([0, 195, 396, 0, 0], written))
        },
    },
    Item {
        name: "encode, n = 195",
        seed: 4,
        frames: FRAMES,
        make: |code, random| {
            let written = full_frame(code, random, 195);
            let case = Case::new(random, Entry::Encode, 195, written.data, square_bytes(195));
            let promise = Promise::encoded(&case);
            (case, promise)
        },
    },
    Item {
        name: "read, n = 195",
        seed: 5,
        frames: FRAMES,
        make: |code, random| {
            let written = full_frame(code, random, 195);
            let bytes = written.data.len();
            let case = Case::new(random, Entry::Read, 195, written.frame, bytes);
            (case, Promise::data(written.data))
        },
    },
];

fn decode(code: &Code, random: &mut Random, n: usize, damage: impl Fn(&mut Random, &mut [u8])) -> (Case, Promise) {
    let written = full_frame(code, random, n).frame;
    let mut received = written.clone();
    damage(random, &mut received);
    let case = Case::new(random, Entry::Decode, n, received, square_bytes(n)).with(8);
    let promise = Promise::of_frame(&case, &written);
    (case, promise)
}
