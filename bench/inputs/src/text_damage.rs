//! What can be wrong with a text's words.

use crate::random::Random;

/// Every word of the language, some numbers, and what only looks like one.
const WORDS: &[&str] = &[
    "routine", "{", "}", "r", "w", "u", "f", "loop", "either", "0", "1", "00007", "65535", "65536", "99999", "000001", "123456",
    "1000000", "-1", "+1", "1.", "x", "R", "p", "Loop", "routine{", "{}", "}{", "r1", "\t", "\0", ";",
];

/// Bytes that are no blanks.
const BYTES: &[u8] = b"\t\0\x0B\x0C\x1F!+-/:{}xr\x7F\x80\x85\xA0\xFF";

/// The words with one thing changed at this one, mostly for the worse.
pub fn damaged_words(random: &mut Random, words: &[Vec<u8>], at: usize) -> Vec<Vec<u8>> {
    let mut words = words.to_vec();
    let others = words.len();
    match random.below(12) {
        0 => {
            words.remove(at);
        }
        1 => words.insert(at, random.one_of(WORDS).into()),
        2 => words.insert(at, words[at].clone()),
        3 if at + 1 < words.len() => {
            let next = words.remove(at + 1);
            words[at].extend(next);
        }
        4 if at + 1 < words.len() => words.swap(at, at + 1),
        5 => words[at] = words[random.below(others)].clone(),
        6 | 7 => {
            let inside = random.below(words[at].len() + 1);
            words[at].insert(inside, random.one_of(BYTES));
        }
        8 => {
            let inside = random.below(words[at].len());
            words[at][inside] ^= 1 << random.below(8);
        }
        _ => words[at] = random.one_of(WORDS).into(),
    }
    words
}
