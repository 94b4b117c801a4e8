//! "Rehearsed listings": every case under every question, and the sentences under the table.

use inputs::{sketch, version, CASES, QUESTIONS, VERSION_AT};
use straightforward::{judge, judge_patch, program, propose, read, write, Answer, Refusal, CHAIN_BUFFER};

const A: &str = "w1 r2; w2 r1";

fn line(question: u64, listing: &[u8], map: &[u8]) -> String {
    let mut chain = [0; CHAIN_BUFFER];
    match judge_patch(question, listing, map, &mut chain) {
        Err(Refusal { number, place }) => format!("REFUSED {number} {place}"),
        Ok(Answer::Robust) => "ROBUST".to_string(),
        Ok(Answer::Open { first, second, count }) => {
            let pairs: Vec<String> = chain[..2 * count].chunks(2).map(|pair| format!("{}-{}", pair[0], pair[1])).collect();
            format!("OPEN {first} {second} {count} {}", pairs.join(" "))
        }
    }
}

#[test]
fn every_case_under_every_question() {
    for case in CASES {
        for (question, expected) in (1..).zip(case.lines) {
            let listing = sketch(case.listing);
            assert_eq!(line(question, &listing, case.map), expected, "case {} question {question}", case.name);
        }
    }
}

#[test]
fn program_and_written_listing_say_the_same() {
    for case in CASES {
        for (question, expected) in (1..).zip(case.lines) {
            let mut out = [0; 775];
            let length = write(&sketch(case.listing), case.map, &mut out).unwrap();
            let input = [&[question as u8], &out[..length]].concat();
            assert_eq!(program(&input), expected, "case {} question {question}", case.name);
        }
    }
}

#[test]
fn case_a_in_bytes() {
    let bytes = [
        0x4F, 0x52, 0x44, 0x01, 0x00, 0x02, 0x04, 0x00, 0x02, 0x01, 0x00, 0x01, 0xFF, 0x00, 0x01, 0x02, 0x00, 0xFF, 0xFF, 0x01,
        0x02, 0x02, 0x00, 0x03, 0xFF, 0x01, 0x01, 0x01, 0x00, 0xFF, 0xFF,
    ];
    assert_eq!(sketch(A), bytes);
    assert_eq!(program(&[&[1], &bytes[..]].concat()), "OPEN 0 1 2 0-1 2-3");
}

#[test]
fn proposal_for_case_a() {
    let mut map = [7; 6];
    assert_eq!(propose(1, &sketch(A), &mut map), Ok(2));
    assert_eq!(map, [1, 0, 1, 0, 7, 7]);
    assert_eq!(propose(3, &sketch(A), &mut map), Ok(0));
    assert_eq!(map, [0, 0, 0, 0, 7, 7]);
}

#[test]
fn fences_of_case_e_written() {
    let mut out = [7; 45];
    assert_eq!(write(&sketch(A), &[1, 0, 1, 0], &mut out), Ok(43));
    // the fences, 4 and 5, stand after both routines
    let mut written = sketch("w1>4 r2; w2>5 r1; f>1; f>3");
    written[5] = 2;
    written[7 + 6 * 4] = 0;
    written[7 + 6 * 5] = 1;
    assert_eq!(out[..43], written);
    assert_eq!(out[43..], [7, 7]);
}

#[test]
fn version_stays_and_the_fence_is_a_full_one() {
    for listing in ["w1 r2", "l1 a2", "w1 d"] {
        let before = sketch(listing);
        let mut out = [0; 25];
        assert_eq!(write(&before, &[1, 0], &mut out), Ok(25));
        assert_eq!((version(&out), out[VERSION_AT + 1]), (version(&before), 0));
        assert_eq!(&out[19..], b"\x00\x04\x00\x00\x01\xff");
    }
}

#[test]
fn version_1_is_answered_as_version_2_with_the_same_records() {
    for case in CASES {
        let mut listing = sketch(case.listing);
        listing[VERSION_AT] = 2;
        for (question, expected) in (1..=QUESTIONS as u64).zip(case.lines) {
            assert_eq!(line(question, &listing, case.map), expected, "case {} question {question}", case.name);
        }
    }
}

#[test]
fn limits() {
    let full = sketch(&"p ".repeat(128));
    assert_eq!(read(&full), Ok((128, 1)));
    let mut over = full.clone();
    over[6] = 129;
    over.extend([0, 0, 0, 0, 255, 255]);
    assert_eq!(read(&over), Err(Refusal { number: 6, place: 0 }));
    let mut map = [0; 128];
    assert_eq!(write(&full, &map, &mut [0; 775]), Ok(775));
    map[127] = 1;
    assert_eq!(write(&full, &map, &mut [0; 781]), Err(Refusal { number: 15, place: 0 }));
}

#[test]
fn shortcuts_that_look_right() {
    let cases = [
        ("a write to a block can follow itself", 2, "w32768>0", "OPEN 0 0 1 0-0"),
        ("and is a chain alone where others close one too", 2, "w32768>0; w32768 w32768", "OPEN 0 0 1 0-0"),
        ("blocks join a pair to itself", 2, "w32768 w32768", "OPEN 0 1 1 0-1"),
        ("two of them do not", 2, "w32768 w32769", "ROBUST"),
        ("an unknown location does", 2, "w32768 w0", "OPEN 0 1 1 0-1"),
        ("not every pair is joined to itself", 2, "w1 w2; w2", "ROBUST"),
        ("one neighbour before and one after do not close a chain", 2, "w1 w2; w2 w3; w4 w1", "ROBUST"),
        ("three pairs do", 2, "w1 w2; w2 w3; w3 w1", "OPEN 0 1 3 0-1 2-3 4-5"),
        ("an RMW inside a walk with a fence counts too", 3, "w1>1,4 f u9 f r2; w2 w1", "OPEN 0 4 2 0-4 5-6"),
        ("an RMW writes what two reads read", 2, "r1 r2; r2 r1; u1; u2", "OPEN 0 1 2 0-1 2-3"),
        ("so does a node of their own routine", 2, "p>1,3 r1 r2>255 p>4,5 w1>255 w2; r2 r1", "OPEN 1 2 2 1-2 6-7"),
        ("a write to another cell does not", 2, "r1 r2; r2 r1; w1; w3", "ROBUST"),
        ("an acquire inside is no barrier", 5, "w1 a3 w2; q2 r1", "OPEN 0 2 2 0-2 3-4"),
        ("a release inside neither", 5, "w1 l3 w2; q2 r1", "OPEN 0 2 2 0-2 3-4"),
        ("an acquire between writes of a release", 6, "l1 a3 w2; q2 r1", "OPEN 0 2 2 0-2 3-4"),
        ("a load fence on one of two walks", 5, "r1>1,2 d w2; q2 l1", "OPEN 0 2 2 0-2 3-4"),
        ("a store fence on one and a load fence on the other", 5, "w1>1,2 s>3 d>3 w2; q2 r1", "OPEN 0 3 2 0-3 4-5"),
        ("one store fence bars for one end and not for the other", 5, "w1 s w2 r3; q2 r1; l3 w1", "OPEN 0 3 2 0-3 6-7"),
        ("the smallest of the shortest", 2, "w1 w2; w2 w0; w2 w1", "OPEN 0 1 2 0-1 2-3"),
    ];
    for (why, question, listing, expected) in cases {
        let bytes = sketch(listing);
        assert_eq!(line(question, &bytes, &vec![0; bytes[6] as usize]), expected, "{why}: {listing}");
    }
}

#[test]
fn robust_and_refused_write_nothing() {
    for (question, expected) in [(3, Ok(Answer::Robust)), (0, Err(Refusal { number: 1, place: 0 }))] {
        let mut chain = [7; 300];
        assert_eq!(judge(question, &sketch(A), &mut chain), expected);
        assert_eq!(chain, [7; 300]);
    }
}
