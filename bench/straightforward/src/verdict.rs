//! Failing pairs, and the first of them with its chain.

use crate::chains::{pairs, surely_meet, Pair};
use crate::listing::{Kind, Kinds, Listing};
use crate::need::Question;
use crate::rules::{AsTheyAre, Rules};
use crate::walks::{walks_past_rmw, Unbarred};

/// The chain to show of the first failing pair; none if the listing is robust.
pub fn first_failing(question: Question, listing: &Listing) -> Option<Vec<Pair>> {
    failing(question, listing, &AsTheyAre).next()
}

/// For every node, whether it is the first node of a failing pair.
pub fn first_nodes(question: Question, listing: &Listing) -> Vec<bool> {
    let mut firsts = vec![false; listing.nodes.len()];
    for chain in failing(question, listing, &AsTheyAre) {
        firsts[chain[0].0] = true;
    }
    firsts
}

/// For each first node of a failing pair, upward, the chain to show of its first one.
pub fn failing<'a>(question: Question, listing: &'a Listing, rules: &'a impl Rules) -> impl Iterator<Item = Vec<Pair>> + 'a {
    let judged = Judged { question, listing, pairs: pairs(listing), kinds: listing.kinds(), rules };
    listing.accesses().filter_map(move |first| judged.first_failing_from(first))
}

/// What a listing is judged by.
struct Judged<'a, R: Rules> {
    question: Question,
    listing: &'a Listing,
    pairs: Vec<Vec<Pair>>,
    kinds: Kinds,
    rules: &'a R,
}

impl<R: Rules> Judged<'_, R> {
    /// The chain to show of the first failing pair that starts with this node.
    fn first_failing_from(&self, first: usize) -> Option<Vec<Pair>> {
        if self.pairs[first].is_empty() {
            return None;
        }
        let mut unbarred = Unbarred::new(self.listing, first);
        let past_rmw = walks_past_rmw(self.listing, first);
        let one = &self.listing.nodes[first];
        self.pairs[first].iter().find_map(|&pair| {
            let other = &self.listing.nodes[pair.1];
            let fails = self.rules.needs_order(self.question, one.kind, other.kind, past_rmw[pair.1])
                && !surely_meet(one, other)
                && unbarred.lead_to(pair.1, self.barriers(one.kind, other.kind));
            // the longest question is asked last
            if fails {
                self.rules.shown_chain(self.listing, &self.pairs, pair)
            } else {
                None
            }
        })
    }

    /// The kinds of the listing that are barriers between two ends of these kinds.
    fn barriers(&self, first: Kind, second: Kind) -> Kinds {
        Kind::ALL.map(|inside| self.kinds[inside as usize] && self.rules.is_barrier(self.question, inside, first, second))
    }
}
