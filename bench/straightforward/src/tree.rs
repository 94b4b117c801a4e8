//! What a text says: its parts as blocks of items, or the place of the first word that can't stand. A function for each rule.

use std::iter::Peekable;

use crate::listing::Kind;
use crate::words::{words, Word};

/// "at most 8 deep (`loop` and `either` count; a ninth can't stand)"
pub const DEEPEST: usize = 8;

/// "No block is empty."
pub type Block = Vec<Item>;

#[derive(Clone, Debug, PartialEq, Eq)]
pub enum Item {
    Access(Kind, u16),
    Fence,
    Loop(Block),
    Either(Block, Block),
}

/// Where a text is bad: "the first byte of the first word that can't stand there, or the text's length if it breaks off".
type Place = usize;

/// The blocks of a text's parts.
pub fn parts(text: &[u8]) -> Result<Vec<Block>, Place> {
    let mut reader = Reader { words: words(text).peekable(), end: text.len() };
    let mut parts = Vec::new();
    while reader.words.peek().is_some() {
        reader.word(b"routine")?;
        parts.push(reader.block(0)?);
    }
    Ok(parts)
}

/// Takes word after word; what it does not take can't stand.
struct Reader<'a, Words: Iterator<Item = Word<'a>>> {
    words: Peekable<Words>,
    end: Place,
}

impl<'a, Words: Iterator<Item = Word<'a>>> Reader<'a, Words> {
    /// A block with its braces, inside this many of `loop` and `either`.
    fn block(&mut self, depth: usize) -> Result<Block, Place> {
        self.word(b"{")?;
        let mut items = vec![self.item(depth)?];
        while self.words.next_if(|word| word.bytes == b"}").is_none() {
            items.push(self.item(depth)?);
        }
        Ok(items)
    }

    fn item(&mut self, depth: usize) -> Result<Item, Place> {
        let may_nest = depth < DEEPEST;
        match self.next_bytes() {
            b"r" => self.access(Kind::Read),
            b"w" => self.access(Kind::Write),
            b"u" => self.access(Kind::Rmw),
            b"f" => self.word(b"f").map(|()| Item::Fence),
            b"loop" if may_nest => {
                self.word(b"loop")?;
                Ok(Item::Loop(self.block(depth + 1)?))
            }
            b"either" if may_nest => {
                self.word(b"either")?;
                Ok(Item::Either(self.block(depth + 1)?, self.block(depth + 1)?))
            }
            _ => Err(self.place()),
        }
    }

    /// "`r`, `w` or `u` (RMW) then a location number"
    fn access(&mut self, kind: Kind) -> Result<Item, Place> {
        self.words.next();
        let Some(location) = location(self.next_bytes()) else {
            return Err(self.place());
        };
        self.words.next();
        Ok(Item::Access(kind, location))
    }

    /// Takes this one word.
    fn word(&mut self, expected: &[u8]) -> Result<(), Place> {
        match self.words.next_if(|word| word.bytes == expected) {
            Some(_) => Ok(()),
            None => Err(self.place()),
        }
    }

    /// The bytes of the next word; a text that breaks off has none there.
    fn next_bytes(&mut self) -> &'a [u8] {
        self.words.peek().map_or(&[], |word| word.bytes)
    }

    /// Where the next word stands, or the text's length.
    fn place(&mut self) -> Place {
        self.words.peek().map_or(self.end, |word| word.at)
    }
}

/// "a location number (1 to 5 digits, at most 65535)"
fn location(word: &[u8]) -> Option<u16> {
    let has_digits = (1..=5).contains(&word.len()) && word.iter().all(u8::is_ascii_digit);
    let digits = std::str::from_utf8(word).ok().filter(|_| has_digits)?;
    digits.parse().ok()
}
