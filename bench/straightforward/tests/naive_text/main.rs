//! The service of typed texts once more, without a tree: by all that may still come after each word, and by looking along the words.

mod links;
mod rest;

use inputs::{damaged_words, deep_words, random_words, spread, Random};
use links::Row;
use rest::Rest;
use straightforward::{text, Refusal};

/// Each word and where it starts: a byte that is no blank belongs to the word of the byte before it, if that is no blank either.
fn words(text: &[u8]) -> Vec<(usize, Vec<u8>)> {
    let mut words: Vec<(usize, Vec<u8>)> = Vec::new();
    let mut in_word = false;
    for (at, &byte) in text.iter().enumerate() {
        let is_blank = [0x20, 0x0D, 0x0A].contains(&byte);
        match words.last_mut() {
            Some((_, word)) if in_word && !is_blank => word.push(byte),
            _ if !is_blank => words.push((at, vec![byte])),
            _ => {}
        }
        in_word = !is_blank;
    }
    words
}

/// Refusal 17's place, with what might have come there instead.
fn bad_place(text: &[u8]) -> Option<(usize, Rest)> {
    let mut rest = Rest::new();
    for (at, word) in words(text) {
        match rest.after(&word) {
            Some(after) => rest = after,
            None => return Some((at, rest)),
        }
    }
    (!rest.may_end()).then_some((text.len(), rest))
}

/// The listing, or the refusal.
fn naive(text: &[u8], room: usize) -> Result<Vec<u8>, Refusal> {
    let refuse = |number, place| Err(Refusal { number, place });
    if let Some((place, _)) = bad_place(text) {
        return refuse(17, place as u64);
    }
    let words = words(text);
    let row = Row(words.iter().map(|(_, word)| std::str::from_utf8(word).expect("a good word")).collect());
    let (routines, nodes) = (row.routines(), row.nodes().len());
    if !(1..=16).contains(&routines) {
        refuse(5, 0)
    } else if nodes > 128 {
        refuse(6, 0)
    } else if room < 7 + 6 * nodes {
        refuse(16, 0)
    } else {
        Ok(row.listing())
    }
}

/// How often each answer was met: a listing, and each refusal.
#[derive(Default)]
struct Met([usize; 18]);

impl Met {
    /// Asks both, and compares.
    fn ask(&mut self, typed: &[u8], room: usize) {
        let words = String::from_utf8_lossy(typed);
        let mut out = vec![7; room];
        let given = text(typed, &mut out).map(|length| out[..length].to_vec());
        assert_eq!(given, naive(typed, room), "{words:?}");
        let number = given.map_or_else(|refusal| refusal.number, |_| 0);
        self.0[number as usize] += 1;
    }

    fn at_least(&self, counts: &[(usize, usize)]) {
        for &(number, count) in counts {
            assert!(self.0[number] >= count, "{number} was met {} times, which is too few to mean anything", self.0[number]);
        }
    }
}

#[test]
fn random_texts() {
    let mut random = Random::seeded(21);
    let mut met = Met::default();
    for _ in 0..15000 {
        let good = random_words(&mut random);
        let room = random.one_of(&[775, 775, 775, 100, 7, 0]);
        let typed = spread(&mut random, &good.words);
        met.ask(&typed, room);
        met.ask(&typed[..random.below(typed.len() + 1)], room);
        for _ in 0..3.min(good.words.len()) {
            let at = random.below(good.words.len());
            let damaged = damaged_words(&mut random, &good.words, at);
            met.ask(&spread(&mut random, &damaged), room);
        }
    }
    met.at_least(&[(0, 10000), (5, 300), (6, 40), (16, 1000), (17, 30000)]);
}

#[test]
fn every_word_and_every_byte_of_deep_texts() {
    let mut random = Random::seeded(22);
    let mut met = Met::default();
    for levels in [7, 8, 9].repeat(60) {
        let words = deep_words(&mut random, levels).words;
        let typed = spread(&mut random, &words);
        (0..=typed.len()).for_each(|end| met.ask(&typed[..end], 775));
        for at in 0..words.len() {
            let damaged = damaged_words(&mut random, &words, at);
            met.ask(&spread(&mut random, &damaged), 775);
        }
    }
    met.at_least(&[(0, 500), (17, 20000)]);
}

/// Words by chance, as long as they can stand; at times completed, at times with any word at the end.
#[test]
fn rows_by_chance() {
    let mut random = Random::seeded(23);
    let mut met = Met::default();
    for _ in 0..20000 {
        let (mut row, mut rest) = (Vec::new(), Rest::new());
        for _ in 0..random.below(30) {
            let word = random.one_of(&["routine", "{", "{", "}", "r", "w", "u", "1", "f", "loop", "either", "00000", "x"]);
            if let Some(after) = rest.after(word.as_bytes()) {
                row.push(word);
                rest = after;
            }
        }
        if random.once_in(2) {
            row.extend(rest.completion());
        }
        if random.once_in(2) {
            row.push(random.one_of(&["routine", "{", "}", "r", "1", "f", "loop", "either", "65536"]));
        }
        met.ask(row.join("\n").as_bytes(), 775);
    }
    met.at_least(&[(0, 2000), (5, 100), (17, 10000)]);
}

/// What stands before 17's place can stand: some words after it make a whole text, which is no bad text.
#[test]
fn what_stands_before_the_place_can_be_completed() {
    let mut random = Random::seeded(24);
    let mut met = 0;
    for _ in 0..5000 {
        let levels = random.below(10);
        let words = deep_words(&mut random, levels).words;
        let at = random.below(words.len());
        let damaged = damaged_words(&mut random, &words, at);
        let typed = spread(&mut random, &damaged);
        let Some((place, rest)) = bad_place(&typed) else { continue };
        assert_eq!(text(&typed, &mut []), Err(Refusal { number: 17, place: place as u64 }));
        let completed = [&typed[..place], b" ", rest.completion().join(" ").as_bytes()].concat();
        assert_eq!(bad_place(&completed).map(|bad| bad.0), None);
        assert_ne!(
            text(&completed, &mut []).map_err(|refusal| refusal.number),
            Err(17),
            "{}",
            String::from_utf8_lossy(&completed)
        );
        met += 1;
    }
    assert!(met > 2000, "too few bad texts ({met}) to mean anything");
}
