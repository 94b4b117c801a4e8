//! Entries, and what their walks don't reach.

use std::mem;

use crate::listing::{Listing, MOST_ROUTINES};
use crate::walks::reached;

/// The lowest node that is refused by "The lowest-numbered node of a routine is its entry; any other node that the entry's walks don't
/// reach is refused."
pub fn first_unreached(listing: &Listing) -> Option<usize> {
    let mut has_entry = [false; MOST_ROUTINES];
    // counted upward, the first node of a routine is its lowest
    let is_entry = |&node: &usize| !mem::replace(&mut has_entry[listing.nodes[node].routine as usize], true);
    let entries = (0..listing.nodes.len()).filter(is_entry).collect();
    // no link leads to another routine, so that one search from all of them does for each
    reached(listing, entries, |_| true).iter().position(|&is_reached| !is_reached)
}
