//! Random listings, judged, judged with a map and proposed for by both sides: all alike. And how often their answers turn on "two reads
//! may meet only if the listing has a write or an RMW that may meet both of them": they are worked out again by rules that one may
//! mistake for this one.
//!
//! NYEKUSHIRO_INPUTS says how many listings, NYEKUSHIRO_SEED where the numbers by chance start.

use compare::{count_changes, setting, Row};
use inputs::{random_listing, Random, QUESTIONS};
use straightforward::{Kind, Listing, Node, Rules};

const LISTINGS: u64 = 7_000;
const SEED: u64 = 2028;
/// Few, so that much turns on two reads.
const MOST_NODES: usize = 12;

/// Rules that one may mistake for ours: whether two reads would meet whose locations do.
///
/// Where more reads meet, a pair that fails all the same hardly has another chain: it would go by a read that nobody writes and back, by
/// three pairs or more. Where such a read meets only unknown ones or itself, there is a shorter way.
const MISTAKES: [(Row, MayReadsMeet); 12] = [
    (("any two reads meet", "+-+?++"), MayReadsMeet(|_| true)),
    (("a writer of one of them is enough", "+-+-++"), MayReadsMeet(|reads| reads.may_be_met(1, |node| node.kind.writes()))),
    (("plain nodes and fences write", "+-+?++"), MayReadsMeet(|reads| reads.may_be_met(2, |node| !node.kind.is_read()))),
    (("a read always meets itself", "+-+-++"), MayReadsMeet(|reads| reads.are_one || reads.written(|_| true))),
    (("unknown reads always meet", "+----+"), MayReadsMeet(|reads| reads.are_unknown() || reads.written(|_| true))),
    (("no two reads meet", "-+++++"), MayReadsMeet(|_| false)),
    (("an RMW writes nothing", "-+++++"), MayReadsMeet(|reads| reads.written(|writer| writer.kind != Kind::Rmw))),
    (("an unknown location is not written", "-+++++"), MayReadsMeet(|reads| reads.written(|writer| writer.location != 0))),
    (("only their own routines write", "-+++++"), MayReadsMeet(|reads| reads.written(|writer| reads.have_routine_of(writer)))),
    (("only other routines write", "-+++++"), MayReadsMeet(|reads| reads.written(|writer| !reads.have_routine_of(writer)))),
    (("a read never meets itself", "-+++++"), MayReadsMeet(|reads| !reads.are_one && reads.written(|_| true))),
    (("unknown reads never meet", "-+++++"), MayReadsMeet(|reads| !reads.are_unknown() && reads.written(|_| true))),
];

struct MayReadsMeet(fn(&Reads) -> bool);

impl Rules for MayReadsMeet {
    fn may_meet(&self, listing: &Listing, one: usize, other: usize) -> bool {
        let nodes = [one, other].map(|node| &listing.nodes[node]);
        let are_reads = nodes.iter().all(|node| node.kind.is_read());
        overlap(nodes[0], nodes[1]) && (!are_reads || (self.0)(&Reads { listing, nodes, are_one: one == other }))
    }
}

/// Two reads of a listing, or one twice.
struct Reads<'a> {
    listing: &'a Listing,
    nodes: [&'a Node; 2],
    are_one: bool,
}

impl Reads<'_> {
    /// Some node that counts has a location that at least so many of the two may meet.
    fn may_be_met(&self, least: usize, counts: impl Fn(&Node) -> bool) -> bool {
        let met = |node: &Node| self.nodes.iter().filter(|read| overlap(read, node)).count();
        self.listing.nodes.iter().any(|node| counts(node) && met(node) >= least)
    }

    /// As the rule has it, but for writers that do not count.
    fn written(&self, counts: impl Fn(&Node) -> bool) -> bool {
        self.may_be_met(2, |node| node.kind.writes() && counts(node))
    }

    fn are_unknown(&self) -> bool {
        self.nodes.iter().all(|read| read.location == 0)
    }

    fn have_routine_of(&self, node: &Node) -> bool {
        self.nodes.iter().any(|read| read.routine == node.routine)
    }
}

fn overlap(one: &Node, other: &Node) -> bool {
    [one.location, other.location].contains(&0) || one.location == other.location
}

fn main() {
    let (listings, seed) = (setting("NYEKUSHIRO_INPUTS", LISTINGS), setting("NYEKUSHIRO_SEED", SEED));
    let listing = |random: &mut Random| {
        let nodes = random.from_to(1, MOST_NODES);
        random_listing(random, nodes)
    };
    let changes = count_changes((listings, seed), listing, &MISTAKES).changes;
    println!("{listings} random listings, each under {QUESTIONS} questions: all alike; what a mistake changes:\n{changes}");
    changes.must_be_as_marked();
}
