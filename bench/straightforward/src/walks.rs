//! Walks, by a search of the graph from each node.

use crate::listing::{Kind, Kinds, Listing, Node};

/// The nodes to which a walk from `from` leads that has only nodes inside which `may_be_inside` admits.
pub fn walks(listing: &Listing, from: usize, may_be_inside: impl Fn(&Node) -> bool) -> Vec<bool> {
    reached(listing, listing.nodes[from].next().collect(), may_be_inside)
}

/// The nodes that are waiting, and those to which a walk leads from one of them past nodes that `may_be_inside` admits.
pub fn reached(listing: &Listing, mut waiting: Vec<usize>, may_be_inside: impl Fn(&Node) -> bool) -> Vec<bool> {
    let mut reached = vec![false; listing.nodes.len()];
    while let Some(node) = waiting.pop() {
        if reached[node] {
            continue;
        }
        reached[node] = true;
        if may_be_inside(&listing.nodes[node]) {
            waiting.extend(listing.nodes[node].next());
        }
    }
    reached
}

/// The searches from one node past barriers, each made once: what is a barrier hangs on where the walk ends.
pub struct Unbarred<'a> {
    listing: &'a Listing,
    from: usize,
    made: Vec<(Kinds, Vec<bool>)>,
}

impl<'a> Unbarred<'a> {
    pub fn new(listing: &'a Listing, from: usize) -> Unbarred<'a> {
        Unbarred { listing, from, made: Vec::new() }
    }

    /// Whether a walk leads to `to` that has none of these kinds inside.
    pub fn lead_to(&mut self, to: usize, barriers: Kinds) -> bool {
        if let Some((_, reached)) = self.made.iter().find(|(made, _)| *made == barriers) {
            return reached[to];
        }
        let reached = walks(self.listing, self.from, |node| !barriers[node.kind as usize]);
        let leads = reached[to];
        self.made.push((barriers, reached));
        leads
    }
}

/// The nodes to which some walk from `from` leads that has an RMW inside.
pub fn walks_past_rmw(listing: &Listing, from: usize) -> Vec<bool> {
    let mut without = vec![false; listing.nodes.len()];
    let mut with = vec![false; listing.nodes.len()];
    let mut waiting: Vec<(usize, bool)> = listing.nodes[from].next().map(|node| (node, false)).collect();
    while let Some((node, past)) = waiting.pop() {
        let reached = if past { &mut with } else { &mut without };
        if reached[node] {
            continue;
        }
        reached[node] = true;
        let past = past || listing.nodes[node].kind == Kind::Rmw;
        waiting.extend(listing.nodes[node].next().map(|next| (next, past)));
    }
    with
}
