//! "Fences put in": the patched listing. "Version and F stay."

use crate::listing::{Kind, Listing, Node};

/// The listing with a fence after every node that `fenced` says.
pub fn patched(listing: &Listing, fenced: &[bool]) -> Listing {
    let mut nodes = listing.nodes.clone();
    for (number, node) in listing.nodes.iter().enumerate() {
        if fenced[number] {
            nodes[number].successors = [Some(nodes.len()), None];
            nodes.push(Node { routine: node.routine, kind: Kind::Fence, location: 0, successors: node.successors });
        }
    }
    Listing { nodes, ..*listing }
}
