//! The wrapper's words are those of tools/words.txt.

use nyekushiro::raw;
use nyekushiro::{Question, Reason, Refusal};

struct Row {
    number: u64,
    name: &'static str,
    words: &'static str,
}

/// The table's rows about `what`.
fn rows(what: &str) -> Vec<Row> {
    let lines = include_str!("../../../tools/words.txt").lines();
    let columns = lines.map(|line| line.splitn(4, ' ').collect::<Vec<_>>()).filter(|columns| columns[0] == what);
    columns.map(|columns| Row { number: columns[1].parse().unwrap(), name: columns[2], words: columns[3] }).collect()
}

fn refused(number: u64, place: u64) -> Refusal {
    raw::Answer { kind: raw::Answer::REFUSED, first: number, second: place, count: 0 }.refusal().unwrap()
}

fn advice(reason: Reason) -> &'static str {
    refused(reason.number(), 0).advice()
}

#[test]
fn refusals() {
    let rows = rows("refusal");
    assert_eq!(rows.iter().map(|row| row.number).collect::<Vec<_>>(), Reason::ALL.map(Reason::number));
    for Row { number, name, words } in rows {
        let said = match name {
            "-" => format!("{words} (refusal {number})"),
            place => format!("{words} (refusal {number}, {place} 5)"),
        };
        assert_eq!(refused(number, 5).to_string(), said);
    }
}

#[test]
fn questions() {
    let rows = rows("question");
    assert_eq!(rows.len(), Question::ALL.len());
    for (question, Row { number, name, words }) in Question::ALL.into_iter().zip(rows) {
        assert_eq!((u64::from(question), question.to_string().as_str()), (number, name));
        assert_eq!(format!("{question:?}").to_lowercase(), words.replace(' ', "").to_lowercase());
        assert!(
            advice(Reason::Question).contains(&format!("{number} {words}")),
            "the advice on refusal 1 names {number} {words}"
        );
    }
}

#[test]
fn kinds() {
    let rows = rows("kind");
    assert!(!rows.is_empty());
    for Row { number, name, words } in rows {
        let names = |kind: &str| advice(Reason::Kind).to_lowercase().contains(&format!("{number} {kind}").to_lowercase());
        assert!(names(name) || names(words), "the advice on refusal 9 names {number} {name}, or {words}");
    }
}

/// Each routine of the fader alone is ROBUST, and together they are OPEN.
#[test]
fn no_advice_parts_what_belongs_together() {
    for reason in Reason::ALL {
        let advice = advice(reason);
        assert!(!advice.is_empty() && !advice.contains("split"), "refusal {}: {advice}", reason.number());
    }
    for reason in [Reason::Nodes, Reason::Places] {
        let advice = advice(reason);
        assert!(
            advice.contains("keep all routines that may share a cell in one listing"),
            "refusal {}: {advice}",
            reason.number()
        );
    }
}
