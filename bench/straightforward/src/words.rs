//! "A word (braces and numbers too) is a longest run without space, CR or LF."

use std::iter;

/// A word, and where its first byte stands in the text.
#[derive(Clone, Copy, Debug, PartialEq, Eq)]
pub struct Word<'a> {
    pub at: usize,
    pub bytes: &'a [u8],
}

/// The words of a text, in its order.
pub fn words(text: &[u8]) -> impl Iterator<Item = Word<'_>> {
    let mut end = 0;
    iter::from_fn(move || {
        let at = end + text[end..].iter().position(|byte| !is_blank(byte))?;
        end = at + text[at..].iter().position(is_blank).unwrap_or(text.len() - at);
        Some(Word { at, bytes: &text[at..end] })
    })
}

fn is_blank(byte: &u8) -> bool {
    matches!(byte, b' ' | b'\r' | b'\n')
}
