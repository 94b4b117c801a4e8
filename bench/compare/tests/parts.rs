//! Which routines may be judged apart: what people are told whose listing has too many nodes. And that each counts for any number of
//! threads, so that none is listed again.

use inputs::{
    bytes, is_access, nodes, random_listing, random_listing_of, sketch, vague_listing, version, Random, Record, LAST_CELL, NONE,
    ROUTINES, VERSIONS,
};
use nyekushiro::{judge, propose, read, Answer, Question};

fn is_robust(question: Question, listing: &[u8]) -> bool {
    judge(question, listing).unwrap().is_robust()
}

#[test]
fn routines_that_share_a_cell_are_not_judged_apart() {
    let (panel, mixing) = ("w1 w2", "r2 r1");
    assert!(is_robust(Question::X86OnArmv7, &sketch(panel)));
    assert!(is_robust(Question::X86OnArmv7, &sketch(mixing)));
    assert!(!is_robust(Question::X86OnArmv7, &sketch(&format!("{panel}; {mixing}"))));
}

#[test]
fn groups_that_share_no_cell_and_know_their_locations_may_be_parted() {
    let mut random = Random::seeded(19);
    let mut met = [0; 2];
    for _ in 0..2000 {
        let version = random.one_of(&VERSIONS);
        let mut part = |odd| {
            let nodes = random.below(20);
            with_cells_of_its_own(&random_listing_of(&mut random, version, nodes), odd)
        };
        let (one, other) = (part(false), part(true));
        let Some(whole) = joined(&one, &other) else { continue };
        for question in Question::ALL {
            let robust = is_robust(question, &whole);
            assert_eq!(robust, is_robust(question, &one) && is_robust(question, &other));
            met[robust as usize] += 1;
        }
    }
    assert!(met.iter().all(|&count| count > 1000), "both answers are met: {met:?}");
}

/// "Each routine may run in any number of threads at once."
#[test]
fn routines_listed_again_change_nothing() {
    let mut random = Random::seeded(24);
    let (mut robust, mut alone, mut longer) = (0, 0, 0);
    for _ in 0..2000 {
        let nodes = random.below(13);
        let made = random.one_of(&[random_listing, vague_listing]);
        let once = made(&mut random, nodes);
        let Some(again) = joined(&once, &once) else { continue };
        for question in Question::ALL {
            let answer = judge(question, &once).unwrap();
            assert_eq!(answer, judge(question, &again).unwrap());
            let map = propose(question, &once).unwrap();
            assert_eq!(propose(question, &again).unwrap().as_bytes(), map.as_bytes().repeat(2));
            match answer {
                Answer::Robust => robust += 1,
                Answer::Open { chain, .. } if chain.pairs().len() == 1 => alone += 1,
                Answer::Open { .. } => longer += 1,
            }
        }
    }
    let met = [robust, alone, longer];
    assert!(met.iter().all(|&count| count > 1000), "ROBUST, chains of one pair and longer ones are met: {met:?}");
}

/// The same listing with odd or even locations alone, and none that is unknown.
fn with_cells_of_its_own(listing: &[u8], odd: bool) -> Vec<u8> {
    let mut records = Record::all(listing);
    for record in records.iter_mut().filter(|record| is_access(record.kind)) {
        let block = record.location & (LAST_CELL + 1);
        record.location = block | ((record.location & (LAST_CELL / 2)).max(1) * 2 + odd as u16);
    }
    bytes(version(listing), read(listing).unwrap().routines as u8, &records)
}

/// The routines of both, which have the same version, unless these are more than a listing may have.
fn joined(one: &[u8], other: &[u8]) -> Option<Vec<u8>> {
    let (routines, first) = (read(one).unwrap().routines as u8, nodes(one) as u8);
    let moved = |successor| if successor == NONE { NONE } else { first + successor };
    let mut records = Record::all(one);
    records.extend(Record::all(other).into_iter().map(|record| Record {
        routine: routines + record.routine,
        first: moved(record.first),
        second: moved(record.second),
        ..record
    }));
    let routines = routines as usize + read(other).unwrap().routines;
    (routines <= ROUTINES).then(|| bytes(version(one), routines as u8, &records))
}
