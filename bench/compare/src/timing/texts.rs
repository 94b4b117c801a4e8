//! Typed texts that grow eightfold and eightfold again, and how many of their bytes the proved service reads in a second.

use std::hint::black_box;
use std::time::{Duration, Instant};

use inputs::{items, nested_blanks, LongText};
use nyekushiro::raw;

const MIB: usize = 1 << 20;

/// A text is read again for as long as this; a slow one five times.
const PATIENCE: Duration = Duration::from_millis(500);

/// A text's name, how it is made, and how it is answered: its kind, and its number if it is refused.
const TEXTS: [(&str, LongText, (u64, u64)); 2] =
    [("items", items, (raw::Answer::REFUSED, 6)), ("blanks under 8 nested eithers", nested_blanks, (raw::Answer::DONE, 0))];

pub fn print() {
    println!("Millions of a typed text's bytes that the proved service reads in a second, by the text's length.\n");
    println!("| text | 1 MiB | 8 MiB | 64 MiB |");
    println!("|---|---:|---:|---:|");
    for (name, made, answer) in TEXTS {
        let rates = [1, 8, 64].map(|size| rate(&made(size * MIB), answer));
        println!("| {name} | {:.0} | {:.0} | {:.0} |", rates[0], rates[1], rates[2]);
    }
}

/// Millions of bytes in a second, by the fastest time.
fn rate(text: &[u8], expected: (u64, u64)) -> f64 {
    let mut out = [0; raw::LISTING_BUFFER];
    let mut fastest = Duration::MAX;
    let (start, mut rounds) = (Instant::now(), 0);
    while rounds < 5 || start.elapsed() < PATIENCE {
        let begun = Instant::now();
        let answer = black_box(raw::text(black_box(text), &mut out));
        fastest = begun.elapsed().min(fastest);
        assert_eq!((answer.kind, answer.first), expected);
        rounds += 1;
    }
    text.len() as f64 / fastest.as_secs_f64() / 1e6
}
