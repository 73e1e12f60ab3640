//! Writes demo/hard.dump: frames of which each pass frees one word, as many words as are named.

use second::Code;
use shared::bits::MOST_ALLOWED;
use shared::chain::Chain;
use shared::division::Places;
use shared::random::Random;
use shared::score::hex;
use shared::written::full_frame;

/// n, the words, and the allowances at which the frame is a record.
const FRAMES: [(usize, usize, &[usize]); 3] =
    [(64, 60, &[MOST_ALLOWED, 32]), (195, 200, &[MOST_ALLOWED, 32]), (195, 207, &[MOST_ALLOWED])];

fn main() {
    let (code, mut random, mut number) = (Code::new(), Random::new(&[1]), 0);
    println!("frames\t1");
    for (n, length, allowances) in FRAMES {
        let mut frame = full_frame(&code, &mut random, n).frame;
        Chain::new(&mut random, &Places::new(n), n, length).spoil(&mut frame);
        for allowance in allowances {
            println!("{}\t{}\t{}\t{}", number, n, allowance, hex(&frame));
            number += 1;
        }
    }
}
