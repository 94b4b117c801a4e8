//! Random small listings, most of them with a node that is not reached, asked of every service that takes one by both sides: all alike.
//! And how often their answers turn on "The lowest-numbered node of a routine is its entry; any other node that the entry's walks don't
//! reach is refused", on its place, and on when it is tried: they are worked out again by rules that one may mistake for this one.
//!
//! NYEKUSHIRO_INPUTS says how many listings, NYEKUSHIRO_SEED where the numbers by chance start.

use std::collections::BTreeSet;

use compare::{ask_both, setting, Marked, Row, Service};
use inputs::{
    cut_off, is_access, length, loose_listing, nodes, random_listing, Call, Random, Record, CHAIN_BUFFER, FENCE, NONE, QUESTIONS,
};
use nyekushiro::raw;
use straightforward as plain;

const LISTINGS: u64 = 20_000;
const SEED: u64 = 2031;
/// Few, so that much turns on one link.
const MOST_NODES: usize = 10;
/// How often each change must be met at least.
const OFTEN: usize = 100;

/// The services that take a listing, and whether each of ANSWERS is met: `+` it must be, `-` it can't.
const SERVICES: [(Service, Row); 5] = [
    (Service::Read, ("read", "+++---")),
    (Service::Judge, ("judge", "+++--+")),
    (Service::JudgePatch, ("judge with a map", "++++++")),
    (Service::Propose, ("propose", "+++--+")),
    (Service::Write, ("write", "++++++")),
];
const ANSWERS: [&str; 6] = ["answered", "8 to 12", "18", "13", "14", "16"];

/// What a mistake changes: a listing refused by 18 would be let in, one that is let in would be refused by 18; 18 would have another
/// place; or a refusal another number.
const CHANGES: [&str; 4] = ["let in", "kept out", "place", "number"];

/// Where fewer nodes are refused, and where more are.
const LAXER: &str = "+-++";
const STRICTER: &str = "-+++";

/// Rules that one may mistake for ours, after ours itself.
///
/// That some lower number leads to a node is no other rule: none does to the lowest node that is refused.
const MISTAKES: [(Row, Rule); 25] = [
    (("as it is", "----"), RIGHT),
    refusing(("no such rule", "+--+"), |_| vec![]),
    // which node is the entry
    refusing(("any node may be the entry", LAXER), |all| {
        all.unreached(|own| vec![*own.iter().find(|&&entry| all.leads_to_all(entry, own)).unwrap_or(&own[0])])
    }),
    refusing(("the highest number is the entry", "++++"), |all| all.unreached(|own| vec![own[own.len() - 1]])),
    refusing(("what nothing leads to is an entry", LAXER), |all| {
        let is_entry = |node: &usize| all.leading_to(*node).is_empty();
        all.unreached(|own| own.iter().copied().filter(is_entry).chain([own[0]]).collect())
    }),
    refusing(("node 0 is the only entry", STRICTER), |all| all.but(&all.led_to(&[0], Nodes::next))),
    refusing(("the entry must be reached as well", STRICTER), |all| {
        all.but(&all.led_to(&all.entries().into_iter().flat_map(|entry| all.next(entry)).collect::<Vec<_>>(), Nodes::next))
    }),
    // what reaches a node
    refusing(("any link to it is enough", LAXER), |all| all.others(|node| all.leading_to(node).is_empty())),
    refusing(("a link from another node is enough", LAXER), |all| {
        all.others(|node| all.leading_to(node).iter().all(|&from| from == node))
    }),
    refusing(("links count both ways", LAXER), |all| {
        let both_ways = |all: &Nodes, node: usize| [all.next(node), all.leading_to(node)].concat();
        all.but(&all.led_to(&all.entries(), both_ways))
    }),
    refusing(("only the entry's successors count", STRICTER), |all| {
        all.others(|node| !all.next(all.entry(node)).contains(&node))
    }),
    refusing(("only first successors lead on", STRICTER), |all| {
        let first = |all: &Nodes, node: usize| all.next(node).into_iter().take(1).collect();
        all.but(&all.led_to(&all.entries(), first))
    }),
    refusing(("only last successors lead on", STRICTER), |all| {
        let last = |all: &Nodes, node: usize| all.next(node).into_iter().next_back().into_iter().collect();
        all.but(&all.led_to(&all.entries(), last))
    }),
    refusing(("no walk goes to a lower number", STRICTER), |all| {
        let upward = |all: &Nodes, node: usize| all.next(node).into_iter().filter(|&next| next > node).collect();
        all.but(&all.led_to(&all.entries(), upward))
    }),
    // a walk that leaves its routine, or numbers taken for one
    refusing(("an end runs on into the next number", LAXER), |all| {
        let runs_on = |all: &Nodes, node: usize| match all.next(node) {
            next if next.is_empty() => (node + 1..all.records.len()).take(1).collect(),
            next => next,
        };
        all.but(&all.led_to(&all.entries(), runs_on))
    }),
    refusing(("each row of numbers has an entry", LAXER), |all| {
        let starts = |node: &usize| *node == 0 || all.records[*node].routine != all.records[*node - 1].routine;
        all.but(&all.led_to(&(0..all.records.len()).filter(starts).collect::<Vec<_>>(), Nodes::next))
    }),
    // which nodes are refused, and which of them is the place
    refusing(("only accesses are refused", LAXER), |all| {
        (RIGHT.refused)(all).into_iter().filter(|&node| is_access(all.records[node].kind)).collect()
    }),
    (("the highest is the place", "--+-"), Rule { place: |_, refused| refused[refused.len() - 1], ..RIGHT }),
    (
        ("the first routine's is the place", "--+-"),
        Rule {
            place: |all, refused| *refused.iter().min_by_key(|&&node| (all.records[node].routine, node)).expect("one is refused"),
            ..RIGHT
        },
    ),
    (("the entry is the place", "--+-"), Rule { place: |all, refused| all.entry(refused[0]), ..RIGHT }),
    // when it is tried
    tried(("tried before 8 of node 0", "---+"), When::First),
    tried(("tried on each node after 12", "---+"), When::OnEachNode),
    tried(("tried after 13", "---+"), When::After(13)),
    tried(("tried after 14 and 15", "---+"), When::After(15)),
    tried(("tried after 16", "---+"), When::After(16)),
];

/// Which nodes 18 refuses, upward; which of them is its place, where there are some; and when it is tried.
#[derive(Clone, Copy)]
struct Rule {
    refused: fn(&Nodes) -> Vec<usize>,
    place: fn(&Nodes, &[usize]) -> usize,
    when: When,
}

#[derive(Clone, Copy)]
enum When {
    First,
    OnEachNode,
    /// after what has at most this number: 12 is that of the last check of nodes
    After(u64),
}

const RIGHT: Rule =
    Rule { refused: |all| all.unreached(|own| vec![own[0]]), place: |_, refused| refused[0], when: When::After(12) };

const fn refusing(row: Row, refused: fn(&Nodes) -> Vec<usize>) -> (Row, Rule) {
    (row, Rule { refused, ..RIGHT })
}

const fn tried(row: Row, when: When) -> (Row, Rule) {
    (row, Rule { when, ..RIGHT })
}

/// A listing's nodes, some of which may break 8 to 12.
struct Nodes {
    records: Vec<Record>,
}

impl Nodes {
    /// The successors, without what 11 refuses.
    fn next(&self, node: usize) -> Vec<usize> {
        let routine = |node: usize| self.records.get(node).map(|record| record.routine);
        self.records[node].next().filter(|&next| routine(next) == routine(node)).collect()
    }

    fn leading_to(&self, node: usize) -> Vec<usize> {
        (0..self.records.len()).filter(|&from| self.next(from).contains(&node)).collect()
    }

    /// These nodes, and all that `next` leads to from them.
    fn led_to(&self, from: &[usize], next: impl Fn(&Nodes, usize) -> Vec<usize>) -> BTreeSet<usize> {
        let (mut found, mut waiting) = (BTreeSet::new(), from.to_vec());
        while let Some(node) = waiting.pop() {
            if found.insert(node) {
                waiting.extend(next(self, node));
            }
        }
        found
    }

    fn leads_to_all(&self, from: usize, own: &[usize]) -> bool {
        let reached = self.led_to(&[from], Nodes::next);
        own.iter().all(|node| reached.contains(node))
    }

    /// The lowest-numbered node of the same routine.
    fn entry(&self, node: usize) -> usize {
        self.records.iter().position(|record| record.routine == self.records[node].routine).expect("a node is of its own routine")
    }

    fn entries(&self) -> Vec<usize> {
        (0..self.records.len()).filter(|&node| self.entry(node) == node).collect()
    }

    /// The nodes that are no entries, and of which this is so.
    fn others(&self, is_refused: impl Fn(usize) -> bool) -> Vec<usize> {
        (0..self.records.len()).filter(|&node| self.entry(node) != node && is_refused(node)).collect()
    }

    /// All nodes but these.
    fn but(&self, reached: &BTreeSet<usize>) -> Vec<usize> {
        (0..self.records.len()).filter(|node| !reached.contains(node)).collect()
    }

    /// What is not reached from the entries that are chosen of each routine's nodes.
    fn unreached(&self, chosen: impl Fn(&[usize]) -> Vec<usize>) -> Vec<usize> {
        let own = |entry: usize| (entry..self.records.len()).filter(|&node| self.entry(node) == entry).collect::<Vec<_>>();
        let entries: Vec<usize> = self.entries().into_iter().flat_map(|entry| chosen(&own(entry))).collect();
        self.but(&self.led_to(&entries, Nodes::next))
    }
}

/// A refusal's number and place.
type Refused = (u64, u64);

/// What a call breaks, 18 apart: the first of 8 to 12, and then what comes after them, in order.
struct Broken {
    nodes: Nodes,
    early: Option<Refused>,
    late: Vec<Refused>,
}

impl Broken {
    fn of(service: Service, call: &Call) -> Broken {
        let refusal = plain::read(&call.listing).err().map(|refusal| (refusal.number, refusal.place));
        let count = nodes(&call.listing);
        let mut late = Vec::new();
        if matches!(service, Service::JudgePatch | Service::Write) {
            late.extend((call.map.len() != count).then_some((13, 0)));
            late.extend(call.map.iter().position(|&byte| byte > 1).map(|index| (14, index as u64)));
        }
        let wanted = match service {
            Service::Read => 0,
            Service::Propose => count,
            Service::Write => length(count + call.map.iter().filter(|&&byte| byte == 1).count()),
            _ => CHAIN_BUFFER,
        };
        late.extend((service.room(call) < wanted).then_some((16, 0)));
        let early = refusal.filter(|(number, _)| (8..=12).contains(number));
        Broken { nodes: Nodes { records: Record::all(&call.listing) }, early, late }
    }

    fn refusal_by(&self, rule: &Rule) -> Option<Refused> {
        let refused = (rule.refused)(&self.nodes);
        let unreached = || (!refused.is_empty()).then(|| (18, (rule.place)(&self.nodes, &refused) as u64));
        let late = |most: u64| self.late.iter().copied().find(|(number, _)| *number <= most);
        match rule.when {
            When::First => unreached().or(self.early),
            When::OnEachNode => unreached().filter(|(_, node)| self.early.is_none_or(|(_, bad)| *node < bad)).or(self.early),
            When::After(most) => self.early.or(late(most)).or_else(unreached),
        }
        .or(late(u64::MAX))
    }
}

/// Where ANSWERS has the refusal.
fn column(refused: Option<Refused>) -> usize {
    match refused {
        None => 0,
        Some((8..=12, _)) => 1,
        Some((18, _)) => 2,
        Some((13, _)) => 3,
        Some((14, _)) => 4,
        Some((16, _)) => 5,
        Some((number, _)) => panic!("refused by {number}, which nothing here is"),
    }
}

/// By CHANGES.
fn changed(right: Option<Refused>, wrong: Option<Refused>) -> Option<usize> {
    match (right, wrong) {
        _ if right == wrong => None,
        (Some((18, _)), None) => Some(0),
        (None, Some((18, _))) => Some(1),
        (Some((18, _)), Some((18, _))) => Some(2),
        (Some((one, _)), Some((other, _))) if one != other => Some(3),
        _ => panic!("no rule about 18 makes {wrong:?} of {right:?}"),
    }
}

/// A listing of which much is not reached, at times with a node that breaks another rule; a map and buffers that at times are wrong too.
fn call(random: &mut Random) -> Call {
    let count = random.from_to(1, MOST_NODES);
    let listing = match random.below(4) {
        0 => random_listing(random, count),
        1 => loose_listing(random, count),
        _ => {
            let good = random_listing(random, count);
            cut_off(random, &good)
        }
    };
    let mut map: Vec<u8> = (0..nodes(&listing)).map(|_| random.once_in(4) as u8).collect();
    let places = map.iter().filter(|&&byte| byte == 1).count();
    let mut room = |wanted: usize| if random.once_in(4) { random.below(wanted.max(1)) } else { wanted };
    let (chain_room, map_room, listing_room) = (room(CHAIN_BUFFER), room(map.len()), room(length(map.len() + places)));
    match random.below(8) {
        0 => map.push(0),
        1 => map.truncate(random.below(map.len())),
        2 => {
            let at = random.below(map.len());
            map[at] = 2;
        }
        _ => {}
    }
    let question = random.from_to(1, QUESTIONS) as u64;
    let listing = if random.once_in(4) { with_a_bad_node(random, listing) } else { listing };
    Call { question, listing, map, chain_room, map_room, listing_room, text: vec![], text_room: 0 }
}

/// One of its nodes breaks one of 8 to 12.
fn with_a_bad_node(random: &mut Random, mut listing: Vec<u8>) -> Vec<u8> {
    let count = nodes(&listing);
    let node = random.below(count);
    let record = &mut listing[length(node)..length(node + 1)];
    match random.below(5) {
        0 => record[0] = u8::MAX,
        1 => record[1] = u8::MAX,
        2 => record[1..=2].copy_from_slice(&[FENCE, 1]),
        3 => record[4] = count as u8,
        _ => record[4..].copy_from_slice(&[NONE, node as u8]),
    }
    listing
}

fn main() {
    let (listings, seed) = (setting("NYEKUSHIRO_INPUTS", LISTINGS), setting("NYEKUSHIRO_SEED", SEED));
    let mut random = Random::seeded(seed);
    let mut answers = Marked::new(SERVICES.map(|(_, row)| row).to_vec(), &ANSWERS);
    let mut changes = Marked::new(MISTAKES.map(|(row, _)| row).to_vec(), &CHANGES);
    for number in 0..listings {
        let call = call(&mut random);
        for (at, (service, _)) in SERVICES.into_iter().enumerate() {
            let answer = ask_both(service, &call, &mut random)
                .unwrap_or_else(|difference| panic!("listing {number} of seed {seed}: {difference}"));
            let right = (answer.kind == raw::Answer::REFUSED).then_some((answer.first, answer.second));
            answers.count(at, column(right));
            let broken = Broken::of(service, &call);
            for (row, (_, rule)) in MISTAKES.iter().enumerate() {
                if let Some(column) = changed(right, broken.refusal_by(rule)) {
                    changes.count(row, column);
                }
            }
        }
    }
    println!(
        "{listings} random listings, {} services each: all alike\n{answers}\nwhat a mistake changes:\n{changes}",
        SERVICES.len()
    );
    answers.must_be_met(OFTEN);
    changes.must_be_met(OFTEN);
}
