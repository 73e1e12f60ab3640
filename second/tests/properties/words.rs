use crate::plain::{
    decode_word, differences, encode_word, expected_answer, is_codeword, pack, Random,
};
use second::{Answer, Code};

#[test]
fn every_word_of_18() {
    let code = Code::new();
    let words = || (0..1u32 << 18).map(|w| (0..18).map(|j| w >> (17 - j) & 1 == 1).collect());
    let codewords: Vec<Vec<bool>> = words().filter(|w: &Vec<bool>| is_codeword(w)).collect();
    assert_eq!(codewords.len(), 2);
    assert_eq!(pack(&codewords[0]), [0, 0, 0]);
    assert_eq!(pack(&codewords[1]), [0xb7, 0xb1, 0xc0]);
    for received in words() {
        let distance = |c: &&Vec<bool>| differences(&received, c).len();
        let near = codewords.iter().min_by_key(distance).unwrap();
        let answer = expected_answer(&received, near);
        let output = if answer == Answer::NoCodeword {
            &received
        } else {
            near
        };
        assert_eq!(decode_word(&code, &received), (answer, output.clone()));
    }
}

#[test]
fn words_of_every_length() {
    let code = Code::new();
    let mut random = Random(1);
    for n in 18..=256 {
        for _ in 0..8 {
            let data = random.bits(n - 17);
            let word = encode_word(&code, n, &data);
            assert!(is_codeword(&word));
            assert_eq!(word[..n - 17], data[..]);
            for _ in 0..8 {
                let mut received = word.clone();
                let (a, b) = (random.below(n), random.below(n));
                received[a] ^= true;
                assert_eq!(
                    decode_word(&code, &received),
                    (Answer::OnePlace(a), word.clone())
                );
                received[b] ^= true;
                let answer = expected_answer(&received, &word);
                assert_eq!(decode_word(&code, &received), (answer, word.clone()));
            }
        }
    }
}

/// An accepted word is a codeword that differs just in the places named. With
/// three places wrong there is never one: distinct codewords differ in six, so
/// that every other codeword lies three away or more.
#[test]
fn words_far_from_a_codeword() {
    let code = Code::new();
    let mut random = Random(2);
    let mut accepted = 0;
    for round in 0..20_000 {
        let n = 18 + round % 239;
        let received = random.bits(n);
        let (answer, word) = decode_word(&code, &received);
        if answer == Answer::NoCodeword {
            assert_eq!(word, received);
        } else {
            accepted += 1;
            assert!(is_codeword(&word));
            assert_eq!(answer, expected_answer(&received, &word));
        }
        let mut wrong = encode_word(&code, n, &received[..n - 17]);
        let start = random.below(n - 2);
        for place in [start, start + 1, n - 1] {
            wrong[place] ^= true;
        }
        assert_eq!(decode_word(&code, &wrong), (Answer::NoCodeword, wrong));
    }
    assert!(accepted > 100);
}

/// All codewords of up to 15 data bits. The sum of two is a codeword, and they
/// differ in as many places as it has ones. For longer words it follows from
/// the test beside the table of patterns: as no two of these share their
/// checks, codewords differ in five places, and in an even number of them.
#[test]
fn distinct_codewords_differ_in_six_places() {
    let code = Code::new();
    for n in 18..=32 {
        let k = n - 17;
        let ones = |number: u32| {
            let data: Vec<bool> = (0..k).map(|j| number >> j & 1 == 1).collect();
            let word = encode_word(&code, n, &data);
            word.iter().filter(|&&bit| bit).count()
        };
        let fewest = (1..1 << k).map(ones).min().unwrap();
        assert!(fewest >= 6);
        assert_eq!(fewest == 6, n >= 31, "n = {}", n);
    }
}
