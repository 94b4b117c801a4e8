//! What "The lowest-numbered node of a routine is its entry; any other node that the entry's walks don't reach is refused" says of the
//! services together, tried on random listings, patches and texts.

use compare::{Service, Side};
use inputs::{
    bytes, loose_listing, nodes, random_listing, random_words, spread, version, Call, Random, Record, NODES, NONE, ROUTINES_AT,
};
use nyekushiro::{judge, judge_patch, raw, read, text, write, Place, Question, Reason, Refusal};

const PATCHES: usize = 10_000;
const LISTINGS: usize = 5_000;

/// A good listing, mostly a small one, and a map that `write` takes.
fn patch(random: &mut Random) -> (Vec<u8>, Vec<u8>) {
    let most = random.one_of(&[6, 12, 12, 40, NODES]);
    let nodes = random.from_to(1, most);
    let listing = random_listing(random, nodes);
    (listing, map(random, nodes))
}

fn map(random: &mut Random, nodes: usize) -> Vec<u8> {
    let mut map = vec![0; nodes];
    for _ in 0..random.below((NODES - nodes).min(nodes) + 1) {
        map[random.below(nodes)] = 1;
    }
    map
}

fn places(map: &[u8]) -> usize {
    map.iter().filter(|&&byte| byte == 1).count()
}

/// What this side writes.
fn written(side: Side, listing: &[u8], map: &[u8]) -> Vec<u8> {
    let call = Call::of_listing(0, listing.to_vec(), map.to_vec());
    let mut out = vec![0; call.listing_room];
    let answer = Service::Write.ask(side, &call, &mut out);
    assert_eq!((answer.kind, answer.count), (raw::Answer::DONE, out.len() as u64), "{listing:?} {map:?}");
    out
}

/// N and F, as this side reads them; the listing must be let in.
fn size(side: Side, listing: &[u8]) -> (u64, u64) {
    let answer = Service::Read.ask(side, &Call::of_listing(0, listing.to_vec(), vec![]), &mut []);
    assert_eq!(answer.kind, raw::Answer::DONE, "{side:?} does not read {listing:?}: {answer:?}");
    (answer.first, answer.second)
}

/// "Written listings meet it by themselves."
#[test]
fn written_listings_are_read_back() {
    let mut random = Random::seeded(51);
    let mut met = [0; 2];
    for _ in 0..PATCHES {
        let (listing, map) = patch(&mut random);
        let count = (nodes(&listing) + places(&map)) as u64;
        for side in [Side::Proved, Side::Straightforward] {
            let out = written(side, &listing, &map);
            assert_eq!(size(side, &out), (count, size(side, &listing).1), "{side:?} {listing:?} {map:?}");
        }
        met[(places(&map) > 0) as usize] += 1;
    }
    assert!(met.iter().all(|&count| count > 1000), "empty maps and others are met: {met:?}");
}

/// A patch of what was patched.
#[test]
fn written_listings_are_written_and_read_again() {
    let mut random = Random::seeded(52);
    for _ in 0..LISTINGS {
        let (mut listing, mut map) = patch(&mut random);
        for _ in 0..3 {
            let count = (nodes(&listing) + places(&map)) as u64;
            listing = written(Side::Proved, &listing, &map);
            assert_eq!([Side::Proved, Side::Straightforward].map(|side| size(side, &listing).0), [count; 2], "{listing:?}");
            map = self::map(&mut random, nodes(&listing));
        }
    }
}

/// So do the listings of typed texts.
#[test]
fn typed_texts_are_read() {
    let mut random = Random::seeded(53);
    let mut met = 0;
    for _ in 0..LISTINGS {
        let words = random_words(&mut random).words;
        let Ok(listing) = text(&spread(&mut random, &words)) else { continue };
        assert_eq!([Side::Proved, Side::Straightforward].map(|side| size(side, &listing).0), [nodes(&listing) as u64; 2]);
        met += 1;
    }
    assert!(met > LISTINGS / 2, "too few texts have a listing to mean anything: {met}");
}

/// Every service that takes a listing gives 18 where read does, whatever the map.
#[test]
fn every_service_refuses_what_is_not_reached() {
    let mut random = Random::seeded(54);
    let mut met = 0;
    for _ in 0..LISTINGS {
        let nodes = random.from_to(2, 20);
        let listing = loose_listing(&mut random, nodes);
        let Err(refusal) = read(&listing) else { continue };
        assert_eq!(refusal.reason, Reason::Unreached);
        let map: Vec<u8> = (0..random.below(2 * nodes)).map(|_| random.below(3) as u8).collect();
        for question in Question::ALL {
            assert_eq!(judge(question, &listing), Err(refusal));
            assert_eq!(judge_patch(question, &listing, &map), Err(refusal));
            // the wrapper's propose reads the listing as well
            assert_eq!(raw::propose(question.into(), &listing, &mut [0; raw::MAP_BUFFER]).refusal(), Some(refusal));
        }
        assert_eq!(write(&listing, &map), Err(refusal));
        met += 1;
    }
    assert!(met > LISTINGS / 2, "too few are refused to mean anything: {met}");
}

/// A node more is refused as long as nothing leads to it.
#[test]
fn a_link_lets_a_node_in() {
    let mut random = Random::seeded(55);
    let mut met = 0;
    for _ in 0..LISTINGS {
        let nodes = random.from_to(1, 20);
        let listing = random_listing(&mut random, nodes);
        let mut records = Record::all(&listing);
        let with_room: Vec<usize> = (0..nodes).filter(|&node| records[node].second == NONE).collect();
        if with_room.is_empty() {
            continue;
        }
        let from = random.one_of(&with_room);
        let first = if random.once_in(2) { NONE } else { nodes as u8 };
        records.push(Record { first, second: NONE, ..records[from] });
        assert_eq!(read(&with(&listing, &records)), Err(unreached(nodes)));
        let link = if records[from].first == NONE { &mut records[from].first } else { &mut records[from].second };
        *link = nodes as u8;
        assert_eq!(read(&with(&listing, &records)).map(|size| size.nodes), Ok(nodes + 1));
        met += 1;
    }
    assert!(met > LISTINGS / 2, "too few have room for a link to mean anything: {met}");
}

/// Taking out the node that is refused, again and again, leaves what is reached, and that is let in.
#[test]
fn what_is_not_reached_may_be_taken_out() {
    let mut random = Random::seeded(56);
    let mut met = 0;
    for _ in 0..LISTINGS {
        let nodes = random.from_to(2, 20);
        let mut listing = loose_listing(&mut random, nodes);
        let mut last = 0;
        while let Err(refusal) = read(&listing) {
            let Some(Place::Node(node)) = refusal.place else { panic!("{refusal}") };
            assert_eq!(refusal.reason, Reason::Unreached);
            assert!(node >= last, "what is lower is reached");
            listing = without(&listing, node);
            last = node;
            met += 1;
        }
    }
    assert!(met > LISTINGS, "too few nodes are taken out to mean anything: {met}");
}

fn unreached(node: usize) -> Refusal {
    Refusal { reason: Reason::Unreached, place: Some(Place::Node(node)) }
}

/// The listing with these records.
fn with(listing: &[u8], records: &[Record]) -> Vec<u8> {
    bytes(version(listing), listing[ROUTINES_AT], records)
}

/// The listing without a node and the links to it.
fn without(listing: &[u8], node: usize) -> Vec<u8> {
    let mut records = Record::all(listing);
    records.remove(node);
    for record in &mut records {
        let mut next = record.next().filter(|&next| next != node).map(|next| if next > node { next - 1 } else { next } as u8);
        let (first, second) = (next.next(), next.next());
        (record.first, record.second) = (first.unwrap_or(NONE), second.unwrap_or(NONE));
    }
    with(listing, &records)
}
