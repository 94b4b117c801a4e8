//! Meeting, pairs, and the chain to show, by a breadth-first search over pairs.

use crate::listing::{Listing, Node};
use crate::rules::Rules;
use crate::walks::walks;

/// A pair's first node and second node.
pub type Pair = (usize, usize);

/// "Two reads may meet only if the listing has a write or an RMW that may meet both of them; where either access is a write or RMW,
/// the locations alone decide."
pub fn may_meet(listing: &Listing, one: usize, other: usize) -> bool {
    let (one, other) = (&listing.nodes[one], &listing.nodes[other]);
    let two_reads = || one.kind.is_read() && other.kind.is_read();
    let meets_both = |node: &Node| node.kind.writes() && overlap(node, one) && overlap(node, other);
    overlap(one, other) && (!two_reads() || listing.nodes.iter().any(meets_both))
}

/// "Either location is unknown or the numbers are equal."
fn overlap(one: &Node, other: &Node) -> bool {
    one.location == 0 || other.location == 0 || one.location == other.location
}

/// "They surely meet if the numbers are equal and name one cell."
pub fn surely_meet(one: &Node, other: &Node) -> bool {
    one.location == other.location && (1..=32767).contains(&one.location)
}

/// The pairs of a listing, listed under their first nodes, each list upward.
pub fn pairs(listing: &Listing) -> Vec<Vec<Pair>> {
    let mut pairs = vec![Vec::new(); listing.nodes.len()];
    let accesses: Vec<usize> = listing.accesses().collect();
    for &first in &accesses {
        let reached = walks(listing, first, |_| true);
        pairs[first] = accesses.iter().filter(|&&second| reached[second]).map(|&second| (first, second)).collect();
    }
    pairs
}

/// The shown chain through a pair, or none if it lies on no chain: "a list of pairs, all different, at least one, starting with it, each
/// joined to the next and the last to the first".
///
/// The search finds pairs by the number of pairs that lead to them, and among those in the order of the smallest list that
/// does: the first one found that is joined to `start` ends the chain to show. No pair is found again, so all are different.
pub fn shown_chain(listing: &Listing, pairs: &[Vec<Pair>], start: Pair, rules: &impl Rules) -> Option<Vec<Pair>> {
    // "A pair joined to itself is a chain of one pair", and no chain has fewer
    if rules.joined_to_itself(listing, start) {
        return Some(vec![start]);
    }
    let count = listing.nodes.len();
    let mut found = vec![(start, 0)];
    let mut known = vec![false; count * count];
    known[start.0 * count + start.1] = true;
    // pairs with the same second node are joined to the same pairs
    let mut followed = vec![false; count];
    let mut at = 0;
    while at < found.len() {
        let (pair, _) = found[at];
        // "A pair (a, b) is joined to a pair (c, d), itself or another, if b and c may meet."
        if at > 0 && rules.may_meet(listing, pair.1, start.0) {
            return Some(list_back(&found, at));
        }
        if !followed[pair.1] {
            followed[pair.1] = true;
            for first in (0..count).filter(|&first| rules.may_meet(listing, pair.1, first)) {
                for &next in &pairs[first] {
                    if !known[next.0 * count + next.1] {
                        known[next.0 * count + next.1] = true;
                        found.push((next, at));
                    }
                }
            }
        }
        at += 1;
    }
    None
}

/// The pairs that led to the one at `at`, from the start on.
fn list_back(found: &[(Pair, usize)], mut at: usize) -> Vec<Pair> {
    let mut chain = vec![found[at].0];
    while at > 0 {
        at = found[at].1;
        chain.push(found[at].0);
    }
    chain.reverse();
    chain
}
