//! Whole inputs: a question, a listing, a map, a text, and the lengths of the lent buffers.

use crate::damage::damaged;
use crate::listings::random_listing;
use crate::numbers::{length, CHAIN_BUFFER, NODES, QUESTIONS};
use crate::random::Random;
use crate::text_damage::damaged_words;
use crate::texts::{random_words, spread};

#[derive(Clone, Debug)]
pub struct Call {
    pub question: u64,
    pub listing: Vec<u8>,
    pub map: Vec<u8>,
    pub chain_room: usize,
    pub map_room: usize,
    pub listing_room: usize,
    pub text: Vec<u8>,
    pub text_room: usize,
}

impl Call {
    pub fn random(random: &mut Random) -> Call {
        let nodes = count(random);
        let good = random_listing(random, nodes);
        let map = map(random, nodes);
        let places = map.iter().filter(|&&byte| byte == 1).count();
        let listing = if random.once_in(5) { damaged(random, good) } else { good };
        let (text, typed) = text(random);
        Call {
            question: question(random),
            chain_room: room(random, CHAIN_BUFFER),
            map_room: room(random, nodes),
            listing_room: room(random, length(nodes + places)),
            text_room: room(random, length(typed)),
            listing,
            map,
            text,
        }
    }

    /// Of a good listing and a good map, with just the room that they take.
    pub fn of_listing(question: u64, listing: Vec<u8>, map: Vec<u8>) -> Call {
        let listing_room = length(map.len() + map.iter().filter(|&&byte| byte == 1).count());
        Call { question, chain_room: CHAIN_BUFFER, map_room: map.len(), listing_room, listing, map, text: vec![], text_room: 0 }
    }

    /// Of nothing but a text, for a listing with at most so many nodes.
    pub fn of_text(random: &mut Random, text: Vec<u8>, nodes: usize) -> Call {
        let text_room = room(random, length(nodes));
        Call { question: 0, listing: vec![], map: vec![], chain_room: 0, map_room: 0, listing_room: 0, text, text_room }
    }
}

/// How many nodes: mostly few, at times as many as can be.
fn count(random: &mut Random) -> usize {
    match random.below(40) {
        0 => random.one_of(&[0, 1, NODES - 1, NODES]),
        1 => random.from_to(NODES / 2 + 1, NODES),
        2..=4 => random.from_to(21, NODES / 2),
        5..=14 => random.from_to(9, 20),
        _ => random.from_to(1, 8),
    }
}

/// A question, at times one that is good in its lowest byte alone.
fn question(random: &mut Random) -> u64 {
    let none = QUESTIONS as u64 + 1;
    match random.below(20) {
        0 => random.one_of(&[0, none, none + 1, 255, u64::MAX]),
        1 => random.from_to(1, QUESTIONS) as u64 + (1 << random.from_to(8, 63)),
        _ => random.from_to(1, QUESTIONS) as u64,
    }
}

fn map(random: &mut Random, nodes: usize) -> Vec<u8> {
    let once_in = random.one_of(&[1, 2, 4, 10, 1000]);
    let mut map: Vec<u8> = (0..nodes).map(|_| random.once_in(once_in) as u8).collect();
    match random.below(16) {
        0 => map.truncate(random.below(nodes + 1)),
        1 => map.extend((0..random.from_to(1, 3)).map(|_| 0)),
        2 => {
            for _ in 0..random.from_to(1, 2).min(nodes) {
                map[random.below(nodes)] = random.from_to(2, 255) as u8;
            }
        }
        _ => {}
    }
    map
}

/// A text, at times damaged or cut off, and how many nodes it has or would have.
fn text(random: &mut Random) -> (Vec<u8>, usize) {
    let typed = random_words(random);
    let mut words = typed.words;
    if random.once_in(3) && !words.is_empty() {
        let at = random.below(words.len());
        words = damaged_words(random, &words, at);
    }
    let mut text = spread(random, &words);
    if random.once_in(6) {
        text.truncate(random.below(text.len() + 1));
    }
    (text, typed.nodes)
}

/// The length of a lent buffer that must have `wanted` bytes.
fn room(random: &mut Random, wanted: usize) -> usize {
    match random.below(12) {
        0 => random.below(wanted + 1),
        1 => wanted.saturating_sub(1),
        2..=5 => wanted,
        _ => wanted + random.from_to(1, 40),
    }
}
