//! The nodes of a text: "Nodes are numbered in text order."

use crate::listing::{Kind, Listing, Node};
use crate::tree::{Block, Item};

/// The listing of these parts, which are at most 16.
pub fn listing(parts: &[Block]) -> Listing {
    let mut nodes = Vec::new();
    for (routine, part) in (0..).zip(parts) {
        // "A routine's end leads nowhere."
        Routine { routine, nodes: &mut nodes }.block(part, None);
    }
    // "Output is the version 1 listing."
    Listing { version: 1, routines: parts.len() as u8, nodes }
}

/// How many nodes a block has.
pub fn count(block: &Block) -> usize {
    block.iter().map(size).sum()
}

fn size(item: &Item) -> usize {
    match item {
        Item::Access(..) | Item::Fence => 1,
        Item::Loop(body) => 1 + count(body),
        Item::Either(one, other) => 2 + count(one) + count(other),
    }
}

/// Puts a routine's nodes after those that are there.
struct Routine<'a> {
    routine: u8,
    nodes: &'a mut Vec<Node>,
}

impl Routine<'_> {
    /// "What follows an item is the next item of its block, and after the last one what follows the block's end."
    fn block(&mut self, block: &Block, end: Option<usize>) {
        for (at, item) in block.iter().enumerate() {
            let is_last = at + 1 == block.len();
            let follows = if is_last { end } else { Some(self.nodes.len() + size(item)) };
            self.item(item, follows);
        }
    }

    fn item(&mut self, item: &Item, follows: Option<usize>) {
        let own = self.nodes.len();
        let inside = own + 1;
        match item {
            Item::Access(kind, location) => self.node(*kind, *location, [follows, None]),
            Item::Fence => self.node(Kind::Fence, 0, [follows, None]),
            // "A loop is a plain node that leads to its body and to what follows; the body's end leads back."
            Item::Loop(body) => {
                self.node(Kind::Plain, 0, [Some(inside), follows]);
                self.block(body, Some(own));
            }
            // "An either is a plain node leading to both blocks, whose ends meet in a plain node numbered after both."
            Item::Either(one, other) => {
                let second = inside + count(one);
                let meeting = second + count(other);
                self.node(Kind::Plain, 0, [Some(inside), Some(second)]);
                self.block(one, Some(meeting));
                self.block(other, Some(meeting));
                self.node(Kind::Plain, 0, [follows, None]);
            }
        }
    }

    /// "Of two successors the smaller is written first."
    fn node(&mut self, kind: Kind, location: u16, mut successors: [Option<usize>; 2]) {
        successors.sort_by_key(|successor| successor.unwrap_or(usize::MAX));
        self.nodes.push(Node { routine: self.routine, kind, location, successors });
    }
}
