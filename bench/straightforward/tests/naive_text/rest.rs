//! What may still come after each word, straight from the grammar's rules: all rows of symbols that could be next, word by word.

use std::collections::{BTreeSet, HashSet};
use std::sync::LazyLock;

/// What a text is made of. Items know how many of `loop` and `either` they stand in.
#[derive(Clone, Copy, Debug, PartialEq, Eq, PartialOrd, Ord)]
enum Symbol {
    Word(&'static str),
    Number,
    Text,
    Items(usize),
    More(usize),
    Item(usize),
}

use Symbol::{Item, Items, More, Number, Text, Word};

/// Every way to write a symbol, as a row of others; a word and a number are written as they are.
fn ways(symbol: Symbol) -> Vec<Vec<Symbol>> {
    let (open, close) = (Word("{"), Word("}"));
    match symbol {
        Text => vec![vec![], vec![Word("routine"), open, Items(0), close, Text]],
        Items(depth) => vec![vec![Item(depth), More(depth)]],
        More(depth) => vec![vec![], vec![Items(depth)]],
        Item(depth) => {
            let mut ways: Vec<Vec<Symbol>> = ["r", "w", "u"].map(|access| vec![Word(access), Number]).into();
            ways.push(vec![Word("f")]);
            if depth < 8 {
                let inside = Items(depth + 1);
                ways.push(vec![Word("loop"), open, inside, close]);
                ways.push(vec![Word("either"), open, inside, close, open, inside, close]);
            }
            ways
        }
        Word(_) | Number => vec![],
    }
}

/// All that may still come, each a row of symbols with the next one last. Every symbol can be written, so a row of words can stand
/// exactly if something is left after it.
#[derive(Clone)]
pub struct Rest(BTreeSet<Vec<Symbol>>);

impl Rest {
    /// Before the first word.
    pub fn new() -> Rest {
        Rest([vec![Text]].into())
    }

    /// What may come after this word, if it can stand.
    pub fn after(&self, word: &[u8]) -> Option<Rest> {
        let mut after = BTreeSet::new();
        let mut waiting: Vec<Vec<Symbol>> = self.0.iter().cloned().collect();
        while let Some(mut symbols) = waiting.pop() {
            match symbols.pop() {
                Some(Word(own)) if own.as_bytes() == word => _ = after.insert(symbols),
                Some(Number) if is_number(word) => _ = after.insert(symbols),
                Some(symbol) => waiting.extend(ways(symbol).iter().map(|way| with(&symbols, way))),
                None => {}
            }
        }
        (!after.is_empty()).then_some(Rest(after))
    }

    /// Whether nothing more has to come.
    pub fn may_end(&self) -> bool {
        self.0.iter().any(|symbols| symbols.iter().all(|&symbol| symbol == Text))
    }

    /// Some words that would make a whole text.
    pub fn completion(&self) -> Vec<&'static str> {
        let mut waiting = self.0.first().expect("something may still come").clone();
        let mut words = Vec::new();
        while let Some(symbol) = waiting.pop() {
            match symbol {
                Word(word) => words.push(word),
                Number => words.push("65535"),
                Item(_) => words.push("f"),
                Text | Items(_) | More(_) => waiting = with(&waiting, &ways(symbol)[0]),
            }
        }
        words
    }
}

/// These symbols, with a row of others to come before them.
fn with(symbols: &[Symbol], way: &[Symbol]) -> Vec<Symbol> {
    symbols.iter().chain(way.iter().rev()).copied().collect()
}

/// Whether it is one of the numbers that can be written, each from 0 to 65535 in one digit to five.
fn is_number(word: &[u8]) -> bool {
    static NUMBERS: LazyLock<HashSet<String>> =
        LazyLock::new(|| (0..=65535).flat_map(|number| (1..=5).map(move |width| format!("{number:0width$}"))).collect());
    std::str::from_utf8(word).is_ok_and(|word| NUMBERS.contains(word))
}
