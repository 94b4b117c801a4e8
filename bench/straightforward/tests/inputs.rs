//! The good listings of `inputs` are good, every node its routine's entry or reached from it; and they are of every shape.

use inputs::{
    cut_off, nodes, random_listing, short_routines, sketch, tiny_listing, typed, vague_listing, Random, Record, CASES, NODES,
    ROUTINES_AT, SHAPES, VERSIONS,
};
use straightforward::read;

fn must_be_good(made: &str, listing: &[u8]) {
    assert_eq!(read(listing).map(|(nodes, _)| nodes), Ok(nodes(listing)), "{made}: {listing:?}");
}

#[test]
fn by_chance() {
    let mut random = Random::seeded(41);
    for _ in 0..20000 {
        let most = random.one_of(&[6, 12, 40, NODES]);
        let nodes = random.from_to(0, most);
        must_be_good("random", &random_listing(&mut random, nodes));
        must_be_good("vague", &vague_listing(&mut random, nodes));
        let version = random.one_of(&VERSIONS);
        must_be_good("short routines", &short_routines(&mut random, version));
        must_be_good("tiny", &tiny_listing(&mut random));
    }
}

#[test]
fn by_shape() {
    let mut random = Random::seeded(42);
    for (name, made) in SHAPES {
        for nodes in 2..=NODES {
            let listing = made(&mut random, nodes);
            assert_eq!(inputs::nodes(&listing), nodes, "{name}");
            must_be_good(name, &listing);
        }
    }
}

#[test]
fn by_hand() {
    for case in CASES {
        must_be_good(case.name, &sketch(case.listing));
    }
    for listing in typed().into_iter().filter_map(|typed| typed.answer.ok()) {
        must_be_good("typed", &listing);
    }
}

/// What a listing has: two successors, a link back, a node that only falling numbers lead to, a node that leads to itself, routines whose
/// numbers are mixed, a routine without a node, one of a single node, one with several ends, and many routines.
const HAS: [(&str, Has); 9] = [
    ("branches", |_, records| records.iter().any(|record| record.next().count() == 2)),
    ("loops", |_, records| links(records).any(|(from, to)| leads(records, to, from))),
    ("falling numbers", |_, records| (0..records.len()).any(|node| !is_entry(records, node) && !upward(records).contains(&node))),
    ("itself", |_, records| links(records).any(|(from, to)| from == to)),
    ("mixed routines", |_, records| {
        let runs = records.chunk_by(|one, next| one.routine == next.routine).count();
        runs > (0..records.len()).filter(|&node| is_entry(records, node)).count()
    }),
    ("an empty routine", |listing, records| {
        (0..listing[ROUTINES_AT]).any(|routine| of_routine(records, routine).next().is_none())
    }),
    ("a single node", |listing, records| (0..listing[ROUTINES_AT]).any(|routine| of_routine(records, routine).count() == 1)),
    ("several ends", |listing, records| {
        let ends = |routine| of_routine(records, routine).filter(|record| record.next().next().is_none()).count();
        (0..listing[ROUTINES_AT]).any(|routine| ends(routine) > 1)
    }),
    ("five routines", |listing, _| listing[ROUTINES_AT] > 4),
];

type Has = fn(&[u8], &[Record]) -> bool;

fn links(records: &[Record]) -> impl Iterator<Item = (usize, usize)> + '_ {
    records.iter().enumerate().flat_map(|(from, record)| record.next().map(move |to| (from, to)))
}

fn leads(records: &[Record], from: usize, to: usize) -> bool {
    let mut found = vec![from];
    let mut at = 0;
    while at < found.len() {
        let next: Vec<usize> = records[found[at]].next().filter(|next| !found.contains(next)).collect();
        found.extend(next);
        at += 1;
    }
    found.contains(&to)
}

fn of_routine(records: &[Record], routine: u8) -> impl Iterator<Item = &Record> {
    records.iter().filter(move |record| record.routine == routine)
}

fn is_entry(records: &[Record], node: usize) -> bool {
    records[..node].iter().all(|record| record.routine != records[node].routine)
}

/// What entries lead to by numbers that rise.
fn upward(records: &[Record]) -> Vec<usize> {
    let mut found = Vec::new();
    for node in 0..records.len() {
        let led_to = |&from: &usize| records[from].next().any(|next| next == node);
        if is_entry(records, node) || found.iter().any(led_to) {
            found.push(node);
        }
    }
    found
}

#[test]
fn of_every_shape() {
    let mut random = Random::seeded(43);
    let mut met = HAS.map(|(name, _)| (name, 0));
    for _ in 0..5000 {
        let nodes = random.from_to(1, 20);
        let listing = random_listing(&mut random, nodes);
        let records = Record::all(&listing);
        for ((_, has), (_, count)) in HAS.iter().zip(&mut met) {
            *count += has(&listing, &records) as usize;
        }
    }
    assert!(met.iter().all(|(_, count)| *count > 300), "too few listings have it to mean anything: {met:?}");
}

#[test]
fn cut_off_nodes_are_mostly_refused() {
    let mut random = Random::seeded(44);
    let (mut refused, mut good) = (0, 0);
    for _ in 0..5000 {
        let nodes = random.from_to(1, 20);
        let listing = random_listing(&mut random, nodes);
        match read(&cut_off(&mut random, &listing)) {
            Ok(_) => good += 1,
            Err(refusal) => {
                assert_eq!(refusal.number, 18);
                refused += 1;
            }
        }
    }
    assert!(refused > 2500 && good > 250, "refused {refused}, good {good}");
}
