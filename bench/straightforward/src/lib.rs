//! The six services, written straight from the text of the rules (docs/RULES.md, docs/LISTING.md): an answer of its own to hold against the proved judge.
//!
//! Each file is one idea of the rules, in their words. Nothing here is meant to be fast.
//!
//! ```
//! let sb = b"ORD\x01\x00\x02\x04\x00\x02\x01\x00\x01\xff\x00\x01\x02\x00\xff\xff\x01\x02\x02\x00\x03\xff\x01\x01\x01\x00\xff\xff";
//! let mut chain = [0; 258];
//! let answer = straightforward::judge(1, sb, &mut chain).unwrap();
//! assert_eq!(answer, straightforward::Answer::Open { first: 0, second: 1, count: 2 });
//! assert_eq!(chain[..4], [0, 1, 2, 3]);
//!
//! let mut listing = [0; 31];
//! assert_eq!(straightforward::text(b"routine { w 1 r 2 } routine { w 2 r 1 }", &mut listing), Ok(31));
//! assert_eq!(&listing, sb);
//! ```

mod chains;
mod entries;
mod listing;
mod need;
mod nodes;
mod patch;
mod refusals;
mod rules;
mod services;
mod tree;
mod verdict;
mod walks;
mod words;

pub use chains::{may_meet, shown_chain, Pair};
pub use listing::{Kind, Listing, Node, HEADING, MOST_NODES, MOST_ROUTINES, NONE, RECORD, VERSIONS};
pub use need::{is_barrier, keeps_in_order, needs_order, Question};
pub use refusals::Refusal;
pub use rules::{AsTheyAre, Rules};
pub use services::{failing_by, judge, judge_patch, program, propose, read, text, write, Answer, CHAIN_BUFFER};
pub use tree::DEEPEST;
