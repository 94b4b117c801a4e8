//! The proved judge beside the straightforward one: both answer the same call, in the same four numbers.

mod both;
mod marked;
mod mistakes;
mod service;
mod tally;

pub use both::{ask_both, setting};
pub use marked::{Marked, Row};
pub use mistakes::{count_changes, Counted};
pub use service::{Service, Side};
pub use tally::Tally;
