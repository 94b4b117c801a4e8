//! Texts by chance: the words of good ones, of every shape and up to every limit and past it, and what stands between words.

use crate::numbers::{DEEPEST, NODES, ROUTINES};
use crate::random::Random;

/// A text's words, and how many nodes they make.
#[derive(Clone, Debug, Default)]
pub struct Words {
    pub words: Vec<Vec<u8>>,
    pub nodes: usize,
}

/// A text of any size, or a deep one, at times one level too deep.
pub fn random_words(random: &mut Random) -> Words {
    if random.once_in(8) {
        let levels = random.from_to(DEEPEST - 1, DEEPEST + 1);
        return deep_words(random, levels);
    }
    words_of_any_size(random)
}

/// Words that can stand: mostly few, at times as many parts or nodes as can be or a little more.
pub fn words_of_any_size(random: &mut Random) -> Words {
    let (parts, nodes) = match random.below(100) {
        0 => (0, 0),
        1 | 2 => (random.from_to(ROUTINES - 1, ROUTINES + 2), random.from_to(0, 30)),
        3 => (random.from_to(1, 4), random.from_to(NODES - 2, NODES + 2)),
        4 => (random.from_to(1, ROUTINES), random.from_to(20, NODES)),
        _ => (random.from_to(1, 3), random.from_to(1, 9)),
    };
    sized_words(random, parts, nodes)
}

/// So many parts, and so many nodes in all, or one a part where that is more.
fn sized_words(random: &mut Random, parts: usize, nodes: usize) -> Words {
    let mut words = Words::default();
    for part in 0..parts {
        let others = parts - part - 1;
        let left = nodes.saturating_sub(words.nodes + others).max(1);
        let size = if others == 0 { left } else { random.from_to(1, left) };
        words.put("routine");
        words.block(random, size, DEEPEST);
    }
    words
}

/// A text of one part or two that nests exactly this deep, in a body or in either block.
pub fn deep_words(random: &mut Random, levels: usize) -> Words {
    let first = random.once_in(3);
    let mut words = if first { sized_words(random, 1, 3) } else { Words::default() };
    words.put("routine");
    words.nest(random, levels);
    words
}

impl Words {
    fn put(&mut self, word: impl AsRef<str>) {
        self.words.push(word.as_ref().as_bytes().to_vec());
    }

    /// Puts a block of exactly this many nodes, with at most so many levels inside.
    fn block(&mut self, random: &mut Random, nodes: usize, levels: usize) {
        self.put("{");
        let end = self.nodes + nodes;
        while self.nodes < end {
            self.item(random, end - self.nodes, levels);
        }
        self.put("}");
    }

    /// Puts an item of at most so many nodes.
    fn item(&mut self, random: &mut Random, most: usize, levels: usize) {
        match random.below(10) {
            0 | 1 if levels > 0 && most >= 2 => {
                let body = random.from_to(1, most - 1);
                self.heading("loop", 1);
                self.block(random, body, levels - 1);
            }
            2 | 3 if levels > 0 && most >= 4 => {
                let one = random.from_to(1, most - 3);
                let other = random.from_to(1, most - 2 - one);
                self.heading("either", 2);
                self.block(random, one, levels - 1);
                self.block(random, other, levels - 1);
            }
            4 => self.heading("f", 1),
            _ => {
                let access = random.one_of(&["r", "w", "u"]);
                self.heading(access, 1);
                self.put(location(random));
            }
        }
    }

    /// Puts an item's first word; the item has so many nodes of its own.
    fn heading(&mut self, word: &str, nodes: usize) {
        self.put(word);
        self.nodes += nodes;
    }

    /// Puts a block that nests exactly this deep.
    fn nest(&mut self, random: &mut Random, levels: usize) {
        self.put("{");
        if levels == 0 || random.once_in(6) {
            self.item(random, 1, 0);
        }
        if levels > 0 {
            self.nest_in_item(random, levels - 1);
            if random.once_in(6) {
                self.item(random, 1, 0);
            }
        }
        self.put("}");
    }

    fn nest_in_item(&mut self, random: &mut Random, levels: usize) {
        if random.once_in(2) {
            self.heading("loop", 1);
            return self.nest(random, levels);
        }
        self.heading("either", 2);
        if random.once_in(2) {
            self.nest(random, levels);
            self.block(random, 1, 0);
        } else {
            self.block(random, 1, 0);
            self.nest(random, levels);
        }
    }
}

/// A location number, at times with zeros before it.
fn location(random: &mut Random) -> String {
    let number = match random.below(8) {
        0 => random.one_of(&[0, 9, 10, 32767, 32768, 65535]),
        1 => random.below(65536),
        _ => random.from_to(1, 4),
    };
    let width = if random.once_in(4) { random.from_to(1, 5) } else { 1 };
    format!("{number:0width$}")
}

/// The text of these words: mostly one blank between two, at times several, and some before and after all.
pub fn spread(random: &mut Random, words: &[Vec<u8>]) -> Vec<u8> {
    let mut text = Vec::new();
    for (at, word) in words.iter().enumerate() {
        let least = if at == 0 { 0 } else { 1 };
        blanks(random, &mut text, least);
        text.extend(word);
    }
    blanks(random, &mut text, 0);
    text
}

fn blanks(random: &mut Random, text: &mut Vec<u8>, least: usize) {
    let count = if random.once_in(8) { random.from_to(least, 4) } else { least };
    text.extend((0..count).map(|_| random.one_of(b"     \r\n")));
}
