//! Random listings with many blocks and unknown locations, judged, judged with a map and proposed for by both sides: all alike. And how
//! often their answers turn on "a pair joined to itself is a chain of one pair": they are worked out again by rules that one may mistake
//! for this one.
//!
//! NYEKUSHIRO_INPUTS says how many listings, NYEKUSHIRO_SEED where the numbers by chance start.

use compare::{count_changes, setting, Counted, Row};
use inputs::{vague_listing, Random, QUESTIONS};
use straightforward::{may_meet, shown_chain, Listing, Node, Pair, Rules};

const LISTINGS: u64 = 7_000;
const SEED: u64 = 2030;
/// Few, so that much turns on one pair.
const MOST_NODES: usize = 12;

/// Rules that one may mistake for ours: which pairs are chains of one pair, and what is shown of them.
///
/// A pair of reads that nobody writes lies on no chain, so that no chain changes where it counts.
const MISTAKES: [(Row, Mistaken); 12] = [
    (("a chain has at least two pairs", "-+++++"), Mistaken::Alone(|_| false)),
    (("every pair is a chain of one", "+-++++"), Mistaken::Alone(|_| true)),
    (("only by unknown locations", "-+++++"), Mistaken::Alone(|pair| pair.is_joined && pair.has_unknown())),
    (("only by blocks", "-+++++"), Mistaken::Alone(|pair| pair.is_joined && !pair.has_unknown())),
    (("only two different nodes", "-+++++"), Mistaken::Alone(|pair| pair.is_joined && !pair.is_one_node())),
    (("only a node with itself", "-+++++"), Mistaken::Alone(|pair| pair.is_joined && pair.is_one_node())),
    (("only in a loop", "-+++++"), Mistaken::Alone(|pair| pair.is_joined && pair.is_in_a_loop)),
    (("only where both ends write", "-+++++"), Mistaken::Alone(|pair| pair.is_joined && pair.have(|node| node.kind.writes()))),
    (("never two reads", "-+++++"), Mistaken::Alone(|pair| pair.is_joined && !pair.have(|node| node.kind.is_read()))),
    (("two reads that nobody writes too", "+-+-++"), Mistaken::Alone(|pair| pair.overlap())),
    (("a longer chain, if any, is shown", "---+--"), Mistaken::Shown(|pair, longer| longer.unwrap_or(vec![pair]))),
    (("the pair is shown again", "---+--"), Mistaken::Shown(|pair, _| vec![pair, pair])),
];

/// What is said otherwise.
enum Mistaken {
    /// which pairs are chains of one pair
    Alone(fn(&Ends) -> bool),
    /// the chain that is shown of a pair joined to itself, which may also have one of more pairs
    Shown(fn(Pair, Option<Vec<Pair>>) -> Vec<Pair>),
}

impl Rules for Mistaken {
    fn shown_chain(&self, listing: &Listing, pairs: &[Vec<Pair>], start: Pair) -> Option<Vec<Pair>> {
        let ends = Ends::of(listing, pairs, start);
        let longer = || shown_chain(listing, pairs, start, &NotAlone);
        match self {
            Mistaken::Alone(is_chain) if is_chain(&ends) => Some(vec![start]),
            Mistaken::Shown(shown) if ends.is_joined => Some(shown(start, longer())),
            _ => longer(),
        }
    }
}

/// No pair is joined to itself, so that every chain has others.
struct NotAlone;

impl Rules for NotAlone {
    fn joined_to_itself(&self, _: &Listing, _: Pair) -> bool {
        false
    }
}

/// A pair's two nodes, or one node, and what is known of them.
struct Ends<'a> {
    nodes: [&'a Node; 2],
    pair: Pair,
    is_joined: bool,
    /// a walk leads from the second node to the first
    is_in_a_loop: bool,
}

impl Ends<'_> {
    fn of<'a>(listing: &'a Listing, pairs: &[Vec<Pair>], pair: Pair) -> Ends<'a> {
        let nodes = [pair.0, pair.1].map(|node| &listing.nodes[node]);
        let is_in_a_loop = pairs[pair.1].contains(&(pair.1, pair.0));
        Ends { nodes, pair, is_joined: may_meet(listing, pair.1, pair.0), is_in_a_loop }
    }

    fn is_one_node(&self) -> bool {
        self.pair.0 == self.pair.1
    }

    fn has_unknown(&self) -> bool {
        self.nodes.iter().any(|node| node.location == 0)
    }

    fn overlap(&self) -> bool {
        self.has_unknown() || self.nodes[0].location == self.nodes[1].location
    }

    fn have(&self, both: impl Fn(&Node) -> bool) -> bool {
        self.nodes.iter().all(|node| both(node))
    }
}

fn main() {
    let (listings, seed) = (setting("NYEKUSHIRO_INPUTS", LISTINGS), setting("NYEKUSHIRO_SEED", SEED));
    let listing = |random: &mut Random| {
        let nodes = random.from_to(1, MOST_NODES);
        vague_listing(random, nodes)
    };
    let Counted { chains, changes } = count_changes((listings, seed), listing, &MISTAKES);
    println!(
        "{listings} random listings, each under {QUESTIONS} questions: all alike\n{chains}\nwhat a mistake changes:\n{changes}"
    );
    chains.must_be_as_marked();
    changes.must_be_as_marked();
}
