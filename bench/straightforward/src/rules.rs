//! The rules of order together, so that one of them may be taken for another.

use crate::chains::{self, Pair};
use crate::listing::{Kind, Listing};
use crate::need::{self, Question};

/// The rules of order as they are, but for those that are said otherwise.
pub trait Rules: Sized {
    fn may_meet(&self, listing: &Listing, one: usize, other: usize) -> bool {
        chains::may_meet(listing, one, other)
    }

    fn joined_to_itself(&self, listing: &Listing, pair: Pair) -> bool {
        self.may_meet(listing, pair.1, pair.0)
    }

    fn shown_chain(&self, listing: &Listing, pairs: &[Vec<Pair>], start: Pair) -> Option<Vec<Pair>> {
        chains::shown_chain(listing, pairs, start, self)
    }

    fn needs_order(&self, question: Question, first: Kind, second: Kind, rmw_inside: bool) -> bool {
        need::needs_order(question, first, second, rmw_inside)
    }

    fn is_barrier(&self, question: Question, inside: Kind, first: Kind, second: Kind) -> bool {
        need::is_barrier(question, inside, first, second)
    }
}

/// The rules of order as they are.
pub struct AsTheyAre;

impl Rules for AsTheyAre {}
