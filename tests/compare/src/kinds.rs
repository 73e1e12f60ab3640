//! All kinds of checks, how many cases each has for every n, and which answers it must meet.

use crate::batch::{Batch, Kind};
use crate::{data, edges, erased, frames, items, knots, pieces, refusals, states, words};
use shared::bits::{square_bytes, LONGEST, NEAR_ONES, SHORTEST};

const LENGTHS: u64 = (LONGEST - SHORTEST + 1) as u64;

/// A kind that has `count` cases for every n.
pub fn kind(
    name: &'static str,
    count: usize,
    answers: &'static str,
    make: impl Fn(&mut Batch) + Sync + 'static,
) -> Kind {
    let make = Box::new(make);
    Kind { name, count, least: count as u64 * LENGTHS, lengths: SHORTEST..=LONGEST, answers, make }
}

/// A kind that makes as many cases as there are.
pub fn whole(name: &'static str, least: u64, answers: &'static str, make: fn(&mut Batch)) -> Kind {
    Kind { least, ..kind(name, 0, answers, make) }
}

fn sum_over_lengths(cases: fn(usize) -> usize) -> u64 {
    (SHORTEST..=LONGEST).map(cases).sum::<usize>() as u64
}

const FOUR: &str = "Codeword OnePlace TwoPlaces NoCodeword";

pub fn all() -> Vec<Kind> {
    let parts = [
        words_and_data,
        frames::whole_lines,
        frames::scattered,
        frames::made,
        frames::tied,
        of_ones,
        edges_and_refusals,
        in_pieces,
    ];
    parts.iter().flat_map(|part| part()).collect()
}

fn words_and_data() -> Vec<Kind> {
    let pairs = sum_over_lengths(|n| n + n * (n - 1) / 2);
    let rows = sum_over_lengths(|n| n);
    vec![
        // Words whose answer the rules settle.
        Kind { lengths: 18..=18, ..whole("words, all 2^18 words at n = 18", 1 << 18, FOUR, words::all_at_18) },
        whole("words, every one and two wrong places", pairs, "OnePlace TwoPlaces", words::every_place),
        Kind {
            lengths: 18..=255,
            least: 400 * 238,
            ..kind("words, wrong bits at places cut away", 400, "NoCodeword", words::cut_away)
        },
        kind("words, none to five wrong bits", 2400, FOUR, words::up_to_five),
        whole("words of ones, and of ones but one", 3 * (rows + LENGTHS), FOUR, words::of_ones),
        kind("words, random bytes and ones", 1200, "TwoPlaces NoCodeword", words::random),
        whole("words' checks, one in fifteen", words::CHECKS * LENGTHS, FOUR, words::checks),
        kind("words, spare bits set", 400, FOUR, words::spare_bits),
        kind("data encoded and read", 40, "Encoded Read", data::encode),
        kind("data with spare bits set", 20, "Encoded Number5", data::encode_spare_bits),
        kind("reading frames with spare bits set", 20, "Read", data::read_spare_bits),
        kind("reading damaged frames", 60, "Number6", data::read_damaged),
        whole("rows, every row of a frame", rows, "Row", refusals::every_row),
    ]
}

/// All code bits are ones, or all but a few.
fn of_ones() -> Vec<Kind> {
    let refused = "Number1 Number2 Number3 Number4 Number5 Number10 Encoded";
    let one_zero = "Repaired Stuck Spent Number6";
    vec![
        whole("frames, erased", 15 * LENGTHS, "Number10", erased::frames),
        whole("frames, erased but for one bit", 27 * LENGTHS, one_zero, erased::but_one_bit),
        Kind {
            lengths: NEAR_ONES..=NEAR_ONES,
            ..whole("frames, erased within the class", 354, "Number10 RepairedInTwo", erased::within_the_class)
        },
        whole("data of ones, and of ones but one bit", 11 * LENGTHS, "Encoded Number5 Number10 Read", erased::data),
        whole("refusals of ones, and erased after them", 144 * LENGTHS, refused, erased::refusals),
    ]
}

fn edges_and_refusals() -> Vec<Kind> {
    vec![
        Kind {
            lengths: knots::LENGTHS,
            least: 3 * 57,
            ..kind("frames, passes that undo one another", 3, "Spent", knots::knots)
        },
        // At the edges.
        whole("frames, every word bad", 7 * LENGTHS, "Stuck Spent", edges::all_words_bad),
        whole("frames, two wrong bits in every row", 2 * LENGTHS, "RepairedInOne", edges::two_in_every_row),
        whole("frames, bands of wrong bits", 4 * LENGTHS, "RepairedLate Spent", edges::bands),
        whole("frames, just mended", 5 * LENGTHS, "RepairedInOne RepairedInTwo", edges::just_mended),
        whole("reading frames with one wrong bit", 11 * LENGTHS, "Number6 Read", edges::unreadable),
        Kind { lengths: 255..=256, ..whole("data with one spare bit set", 1915, "Number5", edges::each_spare_bit) },
        whole("refusals of words", 100 * LENGTHS, "Number1 Number2 Number3", refusals::word),
        whole("refusals of encode", 100 * LENGTHS, "Number1 Number2 Number3 Number5", refusals::encode),
        whole("refusals of read", 100 * LENGTHS, "Number1 Number2 Number3 Number6", refusals::read),
        whole("refusals of decode", 500 * LENGTHS, "Number1 Number2 Number3 Number4", refusals::decode),
        whole("refusals of decode by its block", 192 * LENGTHS, "Number11", refusals::block_of_decode),
        whole("refusals of words by their block", 126 * LENGTHS, "Number11", refusals::block_of_probes),
        whole("refusals of row", 70 * LENGTHS, "Row NoRow", refusals::row),
        Kind { lengths: 18..=18, ..whole("bench items of the rules", 3701, "", items::items) },
    ]
}

/// Frames in pieces, decoded then; and the refusals of pieces.
fn in_pieces() -> Vec<Kind> {
    // Of 54 bytes there are 55 cuttings into two, and 55 x 56 / 2 into three.
    let at_18 = (pieces::FRAMES * (55 * 3 + 1540 * 4)) as u64;
    let in_two = sum_over_lengths(|n| 2 * (square_bytes(n) + 1));
    let decoded = "MoreWanted NoMore Clean Repaired Stuck Number10";
    let refused = "MoreWanted NoMore NoMoreAfterEmpty Number1 Number2 Number14 Number14OfEmpty";
    let orders = "MoreWanted NoMore NoMoreAfterEmpty Number14 Number14OfEmpty 1Before2 1Before14 2Before14";
    vec![
        Kind {
            lengths: 18..=18,
            ..whole("pieces, every cutting in two and three at n = 18", at_18, decoded, pieces::all_at_18)
        },
        whole("pieces, every cutting in two", in_two, decoded, pieces::in_two),
        whole("pieces, byte by byte", sum_over_lengths(square_bytes), decoded, pieces::byte_by_byte),
        kind("pieces, cut anywhere", 48, decoded, pieces::anywhere),
        kind("pieces, refused ones between", 16, refused, pieces::refused_between),
        kind("pieces, another frame after a reset", 16, decoded, pieces::after_reset),
        whole("refusals of receive", 1130 * LENGTHS, orders, states::states),
        whole("refusals of receive, every n of a state", 1 << 16, "Number1 MoreWanted", states::every_n),
    ]
}
