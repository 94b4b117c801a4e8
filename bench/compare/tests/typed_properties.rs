//! What the rules say of a typed text's listing, tried on random texts.

use std::cell::Cell;

use inputs::{bytes, nodes, spread, words_of_any_size, Random, Record, NODES, NONE, ROUTINES};
use nyekushiro::{judge, propose, read, text, Question};

const TEXTS: usize = 4000;

type Words = Vec<Vec<u8>>;

/// Calls `check` with the words of random texts that are not too long, and numbers by chance.
fn on_random_texts(seed: u64, check: impl Fn(&Words, &mut Random)) {
    let mut random = Random::seeded(seed);
    for _ in 0..TEXTS {
        let words = words_of_any_size(&mut random);
        if words.nodes <= NODES && (1..=ROUTINES).contains(&parts(&words.words).len()) {
            check(&words.words, &mut random);
        }
    }
}

/// The words of each part.
fn parts(words: &Words) -> Vec<&[Vec<u8>]> {
    words.chunk_by(|_, next| next != b"routine").collect()
}

fn listing(words: &Words) -> Vec<u8> {
    text(&words.join(&b' ')).unwrap()
}

#[test]
fn is_read_with_a_routine_for_each_part() {
    on_random_texts(31, |words, _| {
        let size = read(&listing(words)).unwrap();
        let made = |word: &Vec<u8>| match &word[..] {
            b"r" | b"w" | b"u" | b"f" | b"loop" => 1,
            b"either" => 2,
            _ => 0,
        };
        assert_eq!((size.routines, size.nodes), (parts(words).len(), words.iter().map(made).sum()));
    });
}

#[test]
fn is_the_same_with_other_blanks() {
    on_random_texts(32, |words, random| assert_eq!(text(&spread(random, words)).unwrap(), listing(words)));
}

#[test]
fn is_the_same_with_zeros_before_each_number() {
    on_random_texts(33, |words, _| {
        let padded =
            |word: &Vec<u8>| if word[0].is_ascii_digit() { [&b"0000"[..5 - word.len()], word].concat() } else { word.clone() };
        assert_eq!(listing(&words.iter().map(padded).collect()), listing(words));
    });
}

#[test]
fn parts_come_one_after_another() {
    on_random_texts(34, |words, _| {
        let mut records: Vec<Record> = Vec::new();
        for (routine, part) in (0..).zip(parts(words)) {
            let (first, part) = (records.len() as u8, listing(&part.to_vec()));
            let moved = |successor| if successor == NONE { NONE } else { first + successor };
            records.extend((0..nodes(&part)).map(|node| {
                let record = Record::of(&part, node);
                Record { routine, first: moved(record.first), second: moved(record.second), ..record }
            }));
        }
        assert_eq!(listing(words), bytes(1, parts(words).len() as u8, &records));
    });
}

#[test]
fn parts_in_another_order_are_judged_alike() {
    let met = [Cell::new(0), Cell::new(0)];
    on_random_texts(35, |words, random| {
        let mut parts = parts(words);
        let first = random.below(parts.len());
        parts.rotate_left(first);
        let (one, other) = (listing(words), listing(&parts.concat()));
        for question in Question::ALL {
            let robust = judge(question, &one).unwrap().is_robust();
            assert_eq!(robust, judge(question, &other).unwrap().is_robust());
            met[robust as usize].set(met[robust as usize].get() + 1);
            let places = |listing| propose(question, listing).map(|map| map.places().count());
            assert_eq!(places(&one), places(&other));
        }
    });
    assert!(met.iter().all(|count| count.get() > 1000), "both answers are met: {met:?}");
}
