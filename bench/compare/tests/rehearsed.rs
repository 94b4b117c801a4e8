//! "Rehearsed listings", asked of the proved services: every case under every question, with its map and written out; and the texts
//! by hand.

use inputs::{sketch, typed, Typed, CASES};
use nyekushiro::{judge, judge_patch, raw, text, write, Question};

#[test]
fn every_case_under_every_question() {
    for case in CASES {
        for (question, expected) in Question::ALL.into_iter().zip(case.lines) {
            let answer = judge_patch(question, &sketch(case.listing), case.map).unwrap();
            assert_eq!(answer.to_string(), expected, "case {} question {question}", case.name);
        }
    }
}

#[test]
fn written_listing_says_the_same() {
    for case in CASES {
        let written = write(&sketch(case.listing), case.map).unwrap();
        for (question, expected) in Question::ALL.into_iter().zip(case.lines) {
            let answer = judge(question, &written).unwrap();
            assert_eq!(answer.to_string(), expected, "case {} question {question}", case.name);
        }
    }
}

#[test]
fn every_text_by_hand() {
    for Typed { text: typed, answer } in typed() {
        let words = String::from_utf8_lossy(&typed);
        match answer {
            Ok(listing) => assert_eq!(text(&typed), Ok(listing), "{words}"),
            Err((first, second)) => {
                let mut out = [7; raw::LISTING_BUFFER];
                let refused = raw::Answer { kind: raw::Answer::REFUSED, first, second, count: 0 };
                assert_eq!((raw::text(&typed, &mut out), out), (refused, [7; raw::LISTING_BUFFER]), "{words}");
            }
        }
    }
}
