//! What the rules say of the services together, tried on random listings.

use std::cell::Cell;

use inputs::{
    bytes, nodes, random_listing, short_routines, version, Random, Record, ACQUIRE, ACQUIRE_PC, FENCE, LOAD_FENCE, NODES, NONE,
    PLAIN, READ, READS, RELEASE, RMW, ROUTINES_AT, STORE_FENCE, VERSION_AT, WRITE, WRITES,
};
use nyekushiro::{judge, judge_patch, propose, raw, read, write, Answer, Question, Reason};

const LISTINGS: usize = 3000;

/// Calls `check` with random listings, each with a random map that `write` takes, and every question.
fn on_random_listings(seed: u64, check: impl Fn(Question, &[u8], &[u8])) {
    let listing = |random: &mut Random| {
        let most = random.one_of(&[6, 12, 12, 40, NODES]);
        let nodes = random.below(most + 1);
        random_listing(random, nodes)
    };
    on_listings(seed, listing, check);
}

fn on_listings(seed: u64, made: impl Fn(&mut Random) -> Vec<u8>, check: impl Fn(Question, &[u8], &[u8])) {
    let mut random = Random::seeded(seed);
    for _ in 0..LISTINGS {
        let listing = made(&mut random);
        let nodes = nodes(&listing);
        let mut map = vec![0; nodes];
        for _ in 0..random.below((NODES - nodes).min(nodes) + 1) {
            map[random.below(nodes)] = 1;
        }
        for question in Question::ALL {
            check(question, &listing, &map);
        }
    }
}

fn places(map: &[u8]) -> usize {
    map.iter().filter(|&&byte| byte == 1).count()
}

#[test]
fn proposal_is_accepted() {
    on_random_listings(11, |question, listing, _| match propose(question, listing) {
        Ok(map) => assert!(judge_patch(question, listing, map.as_bytes()).unwrap().is_robust()),
        Err(refusal) => assert_eq!(refusal.reason, Reason::Places),
    });
}

#[test]
fn proposal_is_empty_exactly_for_a_robust_listing() {
    on_random_listings(12, |question, listing, _| {
        let answer = judge(question, listing).unwrap();
        match (propose(question, listing), answer) {
            // the first failing pair has the smallest first node
            (Ok(map), Answer::Open { first, .. }) => assert_eq!(map.places().next(), Some(first)),
            (Ok(map), Answer::Robust) => assert_eq!(map.places().next(), None),
            (Err(_), answer) => assert_ne!(answer, Answer::Robust),
        }
    });
}

#[test]
fn proposal_is_counted() {
    on_random_listings(18, |question, listing, _| {
        let mut map = vec![7; nodes(listing)];
        let answer = raw::propose(question.into(), listing, &mut map);
        let counted = if answer.kind == raw::Answer::DONE { places(&map) } else { 0 };
        assert_eq!(answer.count, counted as u64);
    });
}

#[test]
fn more_places_are_accepted_where_fewer_are() {
    on_random_listings(13, |question, listing, map| {
        let other: Vec<u8> = map.iter().rev().copied().collect();
        let proposal = propose(question, listing);
        for fewer in [Some(map), proposal.as_ref().ok().map(|map| map.as_bytes())].into_iter().flatten() {
            let more: Vec<u8> = fewer.iter().zip(&other).map(|(one, other)| one | other).collect();
            if more.len() + places(&more) <= NODES && judge_patch(question, listing, fewer).unwrap().is_robust() {
                assert!(judge_patch(question, listing, &more).unwrap().is_robust());
            }
        }
    });
}

#[test]
fn written_listing_is_judged_alike() {
    on_random_listings(14, |question, listing, map| {
        let written = write(listing, map).unwrap();
        assert_eq!(judge(question, &written).unwrap(), judge_patch(question, listing, map).unwrap());
    });
}

#[test]
fn written_listing_reads_back() {
    on_random_listings(15, |_, listing, map| {
        let out = write(listing, map).unwrap();
        let (old, new) = (read(listing).unwrap(), read(&out).unwrap());
        assert_eq!((new.nodes, new.routines), (old.nodes + places(map), old.routines));
        assert_eq!(version(&out), version(listing));
        let mut fence = old.nodes;
        for (node, &place) in map.iter().enumerate() {
            let (before, after) = (Record::of(listing, node), Record::of(&out, node));
            if place == 0 {
                assert_eq!(after, before);
            } else {
                assert_eq!(after, Record { first: fence as u8, second: NONE, ..before });
                assert_eq!(Record::of(&out, fence), Record { kind: FENCE, location: 0, ..before });
                fence += 1;
            }
        }
    });
}

#[test]
fn empty_map_changes_nothing() {
    on_random_listings(16, |question, listing, _| {
        let map = vec![0; nodes(listing)];
        assert_eq!(judge(question, listing).unwrap(), judge_patch(question, listing, &map).unwrap());
        assert_eq!(write(listing, &map).unwrap(), listing);
    });
}

#[test]
fn chain_is_a_chain() {
    on_random_listings(17, |question, listing, map| {
        let Answer::Open { first, second, chain } = judge_patch(question, listing, map).unwrap() else {
            return;
        };
        let pairs = chain.pairs();
        assert_eq!(pairs[0], (first, second));
        assert!((1..=nodes(listing) + 1).contains(&pairs.len()));
        let records = Record::all(listing);
        let joined = |pair: (usize, usize), next: (usize, usize)| {
            let (end, next) = (records[pair.1], records[next.0]);
            let somebody_writes = || writers(&records).any(|writer| overlap(writer, &end) && overlap(writer, &next));
            let two_reads = READS.contains(&end.kind) && READS.contains(&next.kind);
            overlap(&end, &next) && (!two_reads || somebody_writes())
        };
        for (at, pair) in pairs.iter().enumerate() {
            assert!(!pairs[..at].contains(pair), "all different");
            assert!(joined(*pair, pairs[(at + 1) % pairs.len()]), "each joined to the next, and the last to the first");
        }
        assert_eq!(pairs.len() == 1, joined(pairs[0], pairs[0]), "one pair exactly if it is joined to itself");
    });
}

#[test]
fn reads_of_what_nobody_writes_count_for_nothing() {
    let changed = Cell::new(0);
    on_random_listings(20, |question, listing, map| {
        let records = Record::all(listing);
        let fewer = with_records(listing, version(listing), |record| {
            let somebody_writes = writers(&records).any(|writer| overlap(writer, record));
            let counts = !READS.contains(&record.kind) || somebody_writes;
            *record = if counts { *record } else { Record { kind: PLAIN, location: 0, ..*record } };
        });
        assert_eq!(judge_patch(question, listing, map), judge_patch(question, &fewer, map));
        assert_eq!(propose(question, listing), propose(question, &fewer));
        if fewer != listing && !judge(question, listing).unwrap().is_robust() {
            count(&changed);
        }
    });
    assert!(changed.get() > 1000, "too few open listings have such a read to mean anything: {}", changed.get());
}

/// Version 1 has no need of its own, and kinds 5 to 9 count there as others do.
#[test]
fn old_questions_know_no_kind_of_version_2() {
    let met = [Cell::new(0), Cell::new(0)];
    on_random_listings(21, |question, listing, map| {
        let old = with_records(listing, 1, |record| match record.kind {
            ACQUIRE | ACQUIRE_PC => record.kind = READ,
            RELEASE => record.kind = WRITE,
            LOAD_FENCE | STORE_FENCE => record.kind = PLAIN,
            _ => {}
        });
        if old[VERSION_AT..] == listing[VERSION_AT..] || ARMV8.contains(&question) {
            return;
        }
        let answer = judge_patch(question, listing, map).unwrap();
        assert_eq!(answer, judge_patch(question, &old, map).unwrap());
        assert_eq!(propose(question, listing), propose(question, &old));
        count(&met[answer.is_robust() as usize]);
    });
    assert!(met.iter().all(|count| count.get() > 1000), "both answers are met: {met:?}");
}

/// What version 1 lists ARMv8 keeps in order as ARMv7 does; and version 2 changes nothing of it but its version.
#[test]
fn version_1_kinds_are_answered_on_armv8_as_on_armv7_in_either_version() {
    let met = [Cell::new(0), Cell::new(0)];
    on_random_listings(22, |question, listing, map| {
        if Record::all(listing).iter().any(|record| record.kind > FENCE) {
            return;
        }
        let as_version = |version| with_records(listing, version, |_| {});
        let alike = match question {
            Question::ScOnArmv8 => Question::ScOnArmv7,
            Question::X86OnArmv8 => Question::X86OnArmv7,
            question => question,
        };
        let answer = judge_patch(question, &as_version(1), map).unwrap();
        assert_eq!(answer, judge_patch(alike, &as_version(1), map).unwrap());
        assert_eq!(answer, judge_patch(question, &as_version(2), map).unwrap());
        assert_eq!(propose(question, &as_version(1)), propose(alike, &as_version(2)));
        count(&met[answer.is_robust() as usize]);
    });
    assert!(met.iter().all(|count| count.get() > 1000), "both answers are met: {met:?}");
}

/// Under 5 and 6 nothing robust opens where accesses are given more order, and fences more force.
#[test]
fn stronger_kinds_open_nothing_on_armv8() {
    let stronger = [
        (READ, ACQUIRE_PC),
        (ACQUIRE_PC, ACQUIRE),
        (WRITE, RELEASE),
        (PLAIN, LOAD_FENCE),
        (PLAIN, STORE_FENCE),
        (LOAD_FENCE, FENCE),
        (STORE_FENCE, FENCE),
    ];
    let met = stronger.map(|_| [Cell::new(0), Cell::new(0)]);
    let listing = |random: &mut Random| short_routines(random, 2);
    on_listings(23, listing, |question, listing, _| {
        if !ARMV8.contains(&question) {
            return;
        }
        let before = judge(question, listing).unwrap().is_robust();
        for ((weak, strong), met) in stronger.iter().zip(&met) {
            let changed =
                with_records(listing, 2, |record| record.kind = if record.kind == *weak { *strong } else { record.kind });
            let after = judge(question, &changed).unwrap().is_robust();
            assert!(after || !before, "{weak} to {strong} opens {question} {listing:?}");
            if changed != listing {
                count(&met[(before == after) as usize]);
            }
        }
    });
    assert!(met.iter().flatten().all(|count| count.get() > 0), "each change closes some listings, and leaves some: {met:?}");
}

const ARMV8: [Question; 2] = [Question::ScOnArmv8, Question::X86OnArmv8];

fn count(cell: &Cell<usize>) {
    cell.set(cell.get() + 1);
}

/// The listing in this version, each of its records changed.
fn with_records(listing: &[u8], version: u8, change: impl Fn(&mut Record)) -> Vec<u8> {
    let mut records = Record::all(listing);
    records.iter_mut().for_each(change);
    bytes(version, listing[ROUTINES_AT], &records)
}

fn writers(records: &[Record]) -> impl Iterator<Item = &Record> {
    records.iter().filter(|record| WRITES.contains(&record.kind) || record.kind == RMW)
}

fn overlap(one: &Record, other: &Record) -> bool {
    one.location == 0 || other.location == 0 || one.location == other.location
}
