//! Random texts, each as it is, damaged at every word and cut off at every byte: the proved answer and every lent byte are those of
//! the straightforward one.
//!
//! NYEKUSHIRO_TEXTS or NYEKUSHIRO_INPUTS says how many texts, NYEKUSHIRO_SEED where the numbers by chance start.

use std::thread;

use compare::{ask_both, setting, Marked, Service};
use inputs::{damaged_words, deep_words, spread, words_of_any_size, Call, Random};
use nyekushiro::raw;

const TEXTS: u64 = 100_000;
const SEED: u64 = 2027;

/// How a text came to be, and whether such texts meet each of ANSWERS: `+` they must, `-` they can't.
const MADE: [(&str, &str); 6] = [
    ("of any size", "++++--"),
    ("7 deep", "+--+--"),
    ("8 deep", "+--+--"),
    ("9 deep", "----+-"),
    ("damaged at a word", "++++++"),
    ("cut off at a byte", "++++++"),
];
const ANSWERS: [&str; 6] = ["listing", "5", "6", "16", "17 at a word", "17 at its end"];

const SIZED: usize = 0;
const DEEP: usize = 1;
const DAMAGED: usize = 4;
const CUT_OFF: usize = 5;

fn main() {
    let texts = setting("NYEKUSHIRO_TEXTS", setting("NYEKUSHIRO_INPUTS", TEXTS));
    let seed = setting("NYEKUSHIRO_SEED", SEED);
    let counts = ask_all(texts, seed);
    let asked = counts.total();
    println!("{texts} random texts, {asked} with those damaged at each word and cut off at each byte: all alike\n{counts}");
    counts.must_be_as_marked();
}

fn no_counts() -> Marked {
    Marked::new(MADE.to_vec(), &ANSWERS)
}

/// Shares the texts out among the processors; a text depends on its number and the seed alone.
fn ask_all(texts: u64, seed: u64) -> Marked {
    let processors = thread::available_parallelism().map_or(1, usize::from);
    // so that seeds that are near each other have no texts in common
    let start = Random::seeded(seed).number();
    let of_one = |first| {
        let mut counts = no_counts();
        for number in (first..texts).step_by(processors) {
            Forms { number, seed, random: Random::seeded(start.wrapping_add(number)), counts: &mut counts }.ask();
        }
        counts
    };
    thread::scope(|scope| {
        let working: Vec<_> = (0..processors as u64).map(|first| scope.spawn(move || of_one(first))).collect();
        working.into_iter().map(|worker| worker.join().unwrap()).fold(no_counts(), Marked::and)
    })
}

/// A random text in all its forms.
struct Forms<'a> {
    number: u64,
    seed: u64,
    random: Random,
    counts: &'a mut Marked,
}

impl Forms<'_> {
    /// Of eight texts three are deep.
    fn ask(&mut self) {
        let (made, typed) = match self.number as usize % 8 {
            deep @ 0..=2 => (DEEP + deep, deep_words(&mut self.random, 7 + deep)),
            _ => (SIZED, words_of_any_size(&mut self.random)),
        };
        let text = spread(&mut self.random, &typed.words);
        for end in 0..text.len() {
            self.ask_form(CUT_OFF, text[..end].to_vec(), typed.nodes);
        }
        self.ask_form(made, text, typed.nodes);
        for at in 0..typed.words.len() {
            let words = damaged_words(&mut self.random, &typed.words, at);
            let text = spread(&mut self.random, &words);
            self.ask_form(DAMAGED, text, typed.nodes);
        }
    }

    fn ask_form(&mut self, made: usize, text: Vec<u8>, nodes: usize) {
        let length = text.len();
        let call = Call::of_text(&mut self.random, text, nodes);
        match ask_both(Service::Text, &call, &mut self.random) {
            Ok(answer) => self.counts.count(made, column(answer, length)),
            Err(difference) => {
                let words = String::from_utf8_lossy(&call.text);
                panic!("text {} of seed {}, {}, {words:?}: {difference}", self.number, self.seed, MADE[made].0)
            }
        }
    }
}

/// Where ANSWERS has the answer to a text of this length.
fn column(answer: raw::Answer, length: usize) -> usize {
    match (answer.kind, answer.first, answer.second) {
        (raw::Answer::DONE, 0, 0) => 0,
        (raw::Answer::REFUSED, 5, 0) => 1,
        (raw::Answer::REFUSED, 6, 0) => 2,
        (raw::Answer::REFUSED, 16, 0) => 3,
        (raw::Answer::REFUSED, 17, place) if place < length as u64 => 4,
        (raw::Answer::REFUSED, 17, place) if place == length as u64 => 5,
        _ => panic!("a text {length} bytes long is answered with {answer:?}, which no text is"),
    }
}
