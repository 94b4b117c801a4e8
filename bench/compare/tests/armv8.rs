//! Random listings of version 2, judged, judged with a map and proposed for by both sides: all alike. And how often their answers turn on
//! what ARMv8 keeps in order itself, on load and store fences, and on what the kinds of version 2 count as: they are worked out again by
//! rules that one may mistake for these.
//!
//! NYEKUSHIRO_INPUTS says how many listings, NYEKUSHIRO_SEED where the numbers by chance start.

use compare::{count_changes, setting, Row};
use inputs::{random_listing_of, short_routines, Random, QUESTIONS};
use straightforward::{is_barrier, keeps_in_order, may_meet, needs_order, Kind, Listing, Question, Rules};

const LISTINGS: u64 = 3_000;
const SEED: u64 = 2029;
/// Few, so that much turns on one fence or one access.
const MOST_NODES: usize = 8;

/// Rules of which one is mistaken.
struct Mistaken {
    may_meet: fn(&Listing, usize, usize) -> bool,
    needs_order: fn(Question, Kind, Kind, bool) -> bool,
    is_barrier: fn(Question, Kind, Kind, Kind) -> bool,
}

const RIGHT: Mistaken = Mistaken { may_meet, needs_order, is_barrier };

impl Rules for Mistaken {
    fn may_meet(&self, listing: &Listing, one: usize, other: usize) -> bool {
        (self.may_meet)(listing, one, other)
    }

    fn needs_order(&self, question: Question, first: Kind, second: Kind, rmw_inside: bool) -> bool {
        (self.needs_order)(question, first, second, rmw_inside)
    }

    fn is_barrier(&self, question: Question, inside: Kind, first: Kind, second: Kind) -> bool {
        (self.is_barrier)(question, inside, first, second)
    }
}

/// Need and barriers say nothing of who meets whom, so that a pair that still fails has its chain.
const STRICTER: &str = "+-+-++";
const LAXER: &str = "-++-++";
/// Of a pair with an RMW inside, one half fails wherever the whole does, unless a walk without the RMW is there too.
const LAXER_ABOUT_RMW: &str = "-?+-+?";

const MISTAKES: [(Row, Mistaken); 19] = [
    barrier(("a load fence bars whatever is first", LAXER), |question, inside, first, second| {
        is_barrier(question, inside, first, second) || (question.is_on_armv8() && inside == Kind::LoadFence)
    }),
    barrier(("a load fence bars after an RMW", LAXER), |question, inside, first, second| {
        let reads = first.is_read() || first == Kind::Rmw;
        is_barrier(question, inside, first, second) || (question.is_on_armv8() && inside == Kind::LoadFence && reads)
    }),
    barrier(("a load fence bars before reads alone", STRICTER), |question, inside, first, second| {
        is_barrier(question, inside, first, second) && (inside != Kind::LoadFence || second.is_read())
    }),
    barrier(("a store fence bars for one write", LAXER), |question, inside, first, second| {
        let writes = first.is_write() || second.is_write();
        is_barrier(question, inside, first, second) || (question.is_on_armv8() && inside == Kind::StoreFence && writes)
    }),
    barrier(("a store fence bars for an RMW", LAXER), |question, inside, first, second| {
        let write = first.writes() && second.writes();
        is_barrier(question, inside, first, second) || (question.is_on_armv8() && inside == Kind::StoreFence && write)
    }),
    barrier(("a store fence bars for kind 2 alone", STRICTER), |question, inside, first, second| {
        let are_writes = (first, second) == (Kind::Write, Kind::Write);
        is_barrier(question, inside, first, second) && (inside != Kind::StoreFence || are_writes)
    }),
    barrier(("an RMW bars under 5", "--+-+-"), |question, inside, first, second| {
        is_barrier(question, inside, first, second) || (question == Question::ScOnArmv8 && inside == Kind::Rmw)
    }),
    barrier(("a load fence is full under 1 to 4", LAXER), |question, inside, first, second| {
        is_barrier(question, inside, first, second) || (!question.is_on_armv8() && inside == Kind::LoadFence)
    }),
    barrier(("a store fence is full under 1 to 4", LAXER), |question, inside, first, second| {
        is_barrier(question, inside, first, second) || (!question.is_on_armv8() && inside == Kind::StoreFence)
    }),
    // one access is kept before a second and that one before a third
    barrier(("order through a third access", LAXER), |question, inside, first, second| {
        let through = inside.is_access() && keeps_in_order(first, inside) && keeps_in_order(inside, second);
        is_barrier(question, inside, first, second) || (question.is_on_armv8() && through)
    }),
    need(("acquire first needs order", STRICTER), |question, first, second, rmw_inside| {
        needs_order(question, if first == Kind::Acquire { Kind::Read } else { first }, second, rmw_inside)
    }),
    need(("acquirePC first needs order", STRICTER), |question, first, second, rmw_inside| {
        needs_order(question, if first == Kind::AcquirePc { Kind::Read } else { first }, second, rmw_inside)
    }),
    need(("release second needs order", STRICTER), |question, first, second, rmw_inside| {
        needs_order(question, first, if second == Kind::Release { Kind::Write } else { second }, rmw_inside)
    }),
    need(("release then acquire needs order", STRICTER), |question, first, second, rmw_inside| {
        let is_one = (first, second) == (Kind::Release, Kind::Acquire);
        needs_order(question, if is_one { Kind::Write } else { first }, second, rmw_inside)
    }),
    need(("release then acquirePC needs none", LAXER), |question, first, second, rmw_inside| {
        let is_one = question.is_on_armv8() && (first, second) == (Kind::Release, Kind::AcquirePc);
        !is_one && needs_order(question, first, second, rmw_inside)
    }),
    need(("release first needs none", LAXER), |question, first, second, rmw_inside| {
        let is_one = question.is_on_armv8() && first == Kind::Release;
        !is_one && needs_order(question, first, second, rmw_inside)
    }),
    need(("leave in spite of an RMW under 6", LAXER_ABOUT_RMW), |question, first, second, rmw_inside| {
        needs_order(question, first, second, rmw_inside && question != Question::X86OnArmv8)
    }),
    meeting(("acquire and acquirePC are no reads", "+-+?++"), |listing, one, other| {
        let is_read = |node: usize| listing.nodes[node].kind == Kind::Read;
        may_meet(listing, one, other) || (!(is_read(one) && is_read(other)) && overlap(listing, one, other))
    }),
    meeting(("a release is no write", "-+++++"), |listing, one, other| {
        let are_reads = [one, other].iter().all(|&node| listing.nodes[node].kind.is_read());
        let writes = |node: &usize| listing.nodes[*node].kind.writes() && listing.nodes[*node].kind != Kind::Release;
        let meets_both = |node: usize| overlap(listing, node, one) && overlap(listing, node, other);
        overlap(listing, one, other) && (!are_reads || (0..listing.nodes.len()).filter(writes).any(meets_both))
    }),
];

const fn barrier(row: Row, is_barrier: fn(Question, Kind, Kind, Kind) -> bool) -> (Row, Mistaken) {
    (row, Mistaken { is_barrier, ..RIGHT })
}

const fn need(row: Row, needs_order: fn(Question, Kind, Kind, bool) -> bool) -> (Row, Mistaken) {
    (row, Mistaken { needs_order, ..RIGHT })
}

const fn meeting(row: Row, may_meet: fn(&Listing, usize, usize) -> bool) -> (Row, Mistaken) {
    (row, Mistaken { may_meet, ..RIGHT })
}

fn overlap(listing: &Listing, one: usize, other: usize) -> bool {
    let locations = [one, other].map(|node| listing.nodes[node].location);
    locations.contains(&0) || locations[0] == locations[1]
}

fn main() {
    let (listings, seed) = (setting("NYEKUSHIRO_INPUTS", LISTINGS), setting("NYEKUSHIRO_SEED", SEED));
    let listing = |random: &mut Random| {
        let nodes = random.from_to(1, MOST_NODES);
        if random.once_in(3) {
            random_listing_of(random, 2, nodes)
        } else {
            short_routines(random, 2)
        }
    };
    let changes = count_changes((listings, seed), listing, &MISTAKES).changes;
    println!("{listings} random listings, each under {QUESTIONS} questions: all alike; what a mistake changes:\n{changes}");
    changes.must_be_as_marked();
}
