//! Inputs to try the services on: listings and texts by hand, by chance and by shape, and what can be wrong with them.
//!
//! Everything is made from a seed, so that a run can be repeated.

mod calls;
mod damage;
mod links;
mod listings;
mod long_texts;
mod numbers;
mod random;
mod rehearsed;
mod rings;
mod shapes;
mod sketch;
mod text_damage;
mod texts;
mod typed;

pub use calls::Call;
pub use damage::{cut_off, damaged};
pub use listings::{loose_listing, random_listing, random_listing_of, short_routines, tiny_listing, vague_listing};
pub use long_texts::{items, nested_blanks, LongText};
pub use numbers::*;
pub use random::Random;
pub use rehearsed::{Case, CASES};
pub use shapes::{Shape, SHAPES};
pub use sketch::{bytes, sketch, Record};
pub use text_damage::damaged_words;
pub use texts::{deep_words, random_words, spread, words_of_any_size, Words};
pub use typed::{typed, Typed};
