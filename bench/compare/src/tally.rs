//! How often each answer was met, by the version that the listing names.

use std::fmt;

use inputs::{Call, QUESTIONS, VERSIONS, VERSION_AT};
use nyekushiro::{raw, Question, Reason};

use crate::Service;

const SERVICES: usize = Service::ALL.len();
const REFUSALS: usize = Reason::ALL.len();

#[derive(Default)]
pub struct Tally {
    /// of each version, and last of bytes that name none, and of texts
    counts: [Counts; VERSIONS.len() + 1],
    longest_chain: u64,
}

/// By service: what it said where it did not refuse, and then each refusal.
#[derive(Default)]
struct Counts {
    done: [Answered; SERVICES],
    open: [Answered; SERVICES],
    /// a proposal with a place, a written listing with a fence
    with_places: [Answered; SERVICES],
    /// by how many pairs the shown chain has, as CHAINS
    chains: [[usize; CHAINS.len()]; SERVICES],
    refused: [[usize; REFUSALS]; SERVICES],
}

/// By question; a service that takes none has the first number.
type Answered = [usize; QUESTIONS + 1];

/// The shown chains by their pairs.
pub const CHAINS: [&str; 3] = ["one pair", "two pairs", "more pairs"];

/// Where CHAINS has a chain of so many pairs, which are not 0.
pub fn chain(pairs: usize) -> usize {
    pairs.min(CHAINS.len()) - 1
}

/// What to do about an answer that no service has.
const BELONG: &str = "build the archive and the bench from the same repository";

/// The numbers of the table of refusals.
fn numbers() -> impl Iterator<Item = u64> {
    1..=REFUSALS as u64
}

/// Where the table has the refusal.
fn row(number: u64) -> usize {
    number as usize - 1
}

/// Where the tally has the version that a listing's bytes name.
fn version(listing: &[u8]) -> usize {
    let named = |version: &u8| listing.get(VERSION_AT..VERSION_AT + 2) == Some(&[*version, 0]);
    VERSIONS.iter().position(named).unwrap_or(VERSIONS.len())
}

impl Tally {
    /// Counts an answer to a call. Stops at an answer that the service does not have.
    pub fn count(&mut self, service: Service, answer: raw::Answer, call: &Call) {
        let counts = &mut self.counts[if service == Service::Text { VERSIONS.len() } else { version(&call.listing) }];
        let places = call.map.iter().filter(|&&byte| byte == 1).count();
        let at = service as usize;
        let question = if service.takes_question() { call.question as usize } else { 0 };
        match (answer.kind, service) {
            (raw::Answer::DONE, Service::Propose) if answer.count > 0 => counts.with_places[at][question] += 1,
            (raw::Answer::DONE, Service::Write | Service::JudgePatch) if places > 0 => counts.with_places[at][question] += 1,
            (raw::Answer::DONE, _) => counts.done[at][question] += 1,
            (raw::Answer::OPEN, Service::Judge | Service::JudgePatch) if answer.count > 0 => {
                counts.open[at][question] += 1;
                counts.chains[at][chain(answer.count as usize)] += 1;
                self.longest_chain = self.longest_chain.max(answer.count);
            }
            (raw::Answer::REFUSED, _) if service.may_refuse_by(answer.first) => counts.refused[at][row(answer.first)] += 1,
            (raw::Answer::REFUSED, _) => {
                panic!("{service:?} refused by {}, which is none of its refusals; {BELONG}", answer.first)
            }
            (raw::Answer::OPEN, Service::Judge | Service::JudgePatch) => {
                panic!("{service:?} showed a chain of no pair; {BELONG}")
            }
            (kind, _) => panic!("{service:?} answered with kind {kind}, which is none of its kinds; {BELONG}"),
        }
    }

    /// What was never met, in words; a comparison that leaves something out means less than it seems.
    pub fn never_met(&self) -> Vec<String> {
        let mut missing = Vec::new();
        for (version, counts) in self.counts.iter().enumerate() {
            for (name, row) in counts.rows(version) {
                let services = Service::ALL.into_iter().zip(row).filter(|(_, count)| *count == Some(0));
                missing.extend(services.map(|(service, _)| format!("{}, {service:?}: {name}", NAMES[version])));
            }
        }
        if self.longest_chain < 40 {
            missing.push(format!("a chain of 40 pairs (the longest has {})", self.longest_chain));
        }
        missing
    }
}

/// What the tally has counts of.
const NAMES: [&str; VERSIONS.len() + 1] = ["version 1", "version 2", "no such version, or a text"];

/// What is counted, and by service how often it was met, where it can be.
type Row = (String, [Option<usize>; SERVICES]);

impl Counts {
    /// The counts of this version, those left out that it can't meet.
    fn rows(&self, version: usize) -> Vec<Row> {
        let mut rows = Vec::new();
        for question in 0..=QUESTIONS {
            let answers = |service: Service| gives_answers(version, service) && service.takes_question() == (question > 0);
            let asked = Question::try_from(question as u64).map_or(String::new(), |name| format!("{question} {name}, "));
            let mut add = |name: &str, answered: &[Answered; SERVICES], may_be: fn(Service) -> bool| {
                let counted =
                    |service: Service| (answers(service) && may_be(service)).then(|| answered[service as usize][question]);
                rows.push((format!("{asked}{name}"), Service::ALL.map(counted)));
            };
            add("done or ROBUST", &self.done, |_| true);
            add("done or ROBUST with places", &self.with_places, Service::has_places);
            add("OPEN", &self.open, Service::judges);
        }
        for (pairs, name) in CHAINS.iter().enumerate() {
            let shows = |service: Service| gives_answers(version, service) && service.judges();
            let counted = |service: Service| shows(service).then(|| self.chains[service as usize][pairs]);
            rows.push((format!("a chain of {name}"), Service::ALL.map(counted)));
        }
        for number in numbers() {
            let counted =
                |service: Service| refuses_by(version, service, number).then(|| self.refused[service as usize][row(number)]);
            rows.push((format!("{number:>2} {}", Reason::from(number)), Service::ALL.map(counted)));
        }
        rows.retain(|(_, counts)| counts.iter().any(Option::is_some));
        rows
    }
}

/// Whether the service answers something else than a refusal.
fn gives_answers(version: usize, service: Service) -> bool {
    (version < VERSIONS.len()) == (service != Service::Text)
}

/// Whether bytes that name this version, or none, may be refused so; the inputs have only one thing wrong.
fn refuses_by(version: usize, service: Service, number: u64) -> bool {
    let may_be = match (version < VERSIONS.len(), service) {
        (named, Service::Text) => !named,
        (true, _) => number != 4,
        (false, _) => [1, 2, 4].contains(&number),
    };
    may_be && service.may_refuse_by(number)
}

impl fmt::Display for Tally {
    fn fmt(&self, out: &mut fmt::Formatter<'_>) -> fmt::Result {
        for (version, counts) in self.counts.iter().enumerate() {
            write!(out, "{:<62}", format!("met, {}", NAMES[version]))?;
            Service::ALL.iter().try_for_each(|service| write!(out, "{:>11}", format!("{service:?}")))?;
            writeln!(out)?;
            for (name, row) in counts.rows(version) {
                write!(out, "{name:<62}")?;
                for count in row {
                    write!(out, "{:>11}", count.map_or("-".to_string(), |count| count.to_string()))?;
                }
                writeln!(out)?;
            }
            writeln!(out)?;
        }
        write!(out, "longest chain: {} pairs", self.longest_chain)
    }
}

#[cfg(test)]
mod tests {
    use super::*;

    /// The tally of one answer to a call with a listing of version 2.
    fn count(service: Service, kind: u64, first: u64) -> Tally {
        counted_answer(service, raw::Answer { kind, first, second: 0, count: 0 })
    }

    /// The tally of one shown chain.
    fn show(service: Service, pairs: u64) -> Tally {
        counted_answer(service, raw::Answer { kind: raw::Answer::OPEN, first: 0, second: 0, count: pairs })
    }

    fn counted_answer(service: Service, answer: raw::Answer) -> Tally {
        let mut tally = Tally::default();
        tally.count(service, answer, &Call::of_listing(5, b"ORD\x02\x00\x01\x00".to_vec(), vec![]));
        tally
    }

    /// The services with a count other than 0, and its name.
    fn counted(tally: &Tally) -> Vec<(usize, Service, String)> {
        let mut counted = Vec::new();
        for (version, counts) in tally.counts.iter().enumerate() {
            for (name, row) in counts.rows(version) {
                let services = Service::ALL.into_iter().zip(row).filter(|(_, count)| count.is_some_and(|count| count > 0));
                counted.extend(services.map(|(service, _)| (version, service, name.clone())));
            }
        }
        counted
    }

    #[test]
    fn each_refusal_in_its_own_row() {
        for number in numbers() {
            let given: Vec<Service> = Service::ALL.into_iter().filter(|service| service.may_refuse_by(number)).collect();
            assert!(!given.is_empty(), "no service may refuse by {number}");
            for service in given {
                let refused = count(service, raw::Answer::REFUSED, number);
                let version = if service == Service::Text { 2 } else { 1 };
                let row = (version, service, format!("{number:>2} {}", Reason::from(number)));
                // a version that is one is not refused for it
                assert_eq!(counted(&refused), if number == 4 { vec![] } else { vec![row] });
            }
        }
    }

    #[test]
    fn each_answer_by_its_version_and_question() {
        let row = |service, name: &str| vec![(1, service, name.to_string())];
        assert_eq!(counted(&count(Service::Judge, raw::Answer::DONE, 0)), row(Service::Judge, "5 sc-armv8, done or ROBUST"));
        assert_eq!(counted(&count(Service::Read, raw::Answer::DONE, 0)), row(Service::Read, "done or ROBUST"));
        for (bytes, expected) in
            [(&b"ORD\x01\x00"[..], 0), (b"ORD\x02\x00\x01", 1), (b"ORD\x02", 2), (b"ORD\x02\x01", 2), (b"ORD\x03\x00", 2)]
        {
            assert_eq!(version(bytes), expected, "{bytes:?}");
        }
    }

    #[test]
    fn each_chain_by_its_pairs() {
        for service in [Service::Judge, Service::JudgePatch] {
            for (pairs, name) in [(1, "one pair"), (2, "two pairs"), (3, "more pairs"), (129, "more pairs")] {
                let rows = ["5 sc-armv8, OPEN".to_string(), format!("a chain of {name}")].map(|name| (1, service, name));
                assert_eq!(counted(&show(service, pairs)), rows, "{pairs} pairs");
            }
        }
    }

    #[test]
    fn names_what_was_not_met() {
        let missing = show(Service::Judge, 1).never_met();
        let is_missing = |name: &str| missing.iter().any(|missing| missing == name);
        assert!(is_missing("version 1, Judge: 5 sc-armv8, OPEN") && !is_missing("version 2, Judge: 5 sc-armv8, OPEN"));
        assert!(is_missing("version 2, Judge: a chain of two pairs") && !is_missing("version 2, Judge: a chain of one pair"));
        assert!(is_missing("version 2, JudgePatch: a chain of one pair") && is_missing("version 1, Judge: a chain of one pair"));
        assert!(is_missing("version 2, Write:  9 kind over 4 in version 1, over 9 in version 2"));
        for service in [Service::Read, Service::Judge, Service::JudgePatch, Service::Propose, Service::Write] {
            for version in ["version 1", "version 2"] {
                assert!(is_missing(&format!("{version}, {service:?}: 18 node neither its routine's entry nor reached from it")));
            }
        }
        assert!(is_missing("no such version, or a text, Read:  4 version not 1 or 2"));
        assert!(is_missing("no such version, or a text, Text: 17 bad text"));
    }

    #[test]
    #[should_panic(expected = "Judge refused by 19, which is none of its refusals")]
    fn stops_at_a_number_beyond_the_table() {
        count(Service::Judge, raw::Answer::REFUSED, REFUSALS as u64 + 1);
    }

    #[test]
    #[should_panic(expected = "Write refused by 0, which is none of its refusals")]
    fn stops_at_no_number() {
        count(Service::Write, raw::Answer::REFUSED, 0);
    }

    #[test]
    #[should_panic(expected = "Read refused by 13, which is none of its refusals")]
    fn stops_at_a_refusal_of_another_service() {
        count(Service::Read, raw::Answer::REFUSED, 13);
    }

    #[test]
    #[should_panic(expected = "Text refused by 18, which is none of its refusals")]
    fn stops_at_a_text_with_an_unreached_node() {
        count(Service::Text, raw::Answer::REFUSED, 18);
    }

    #[test]
    #[should_panic(expected = "JudgePatch showed a chain of no pair")]
    fn stops_at_an_empty_chain() {
        show(Service::JudgePatch, 0);
    }

    #[test]
    #[should_panic(expected = "Judge answered with kind 3, which is none of its kinds")]
    fn stops_at_an_unknown_kind() {
        count(Service::Judge, 3, 0);
    }

    #[test]
    #[should_panic(expected = "Write answered with kind 1, which is none of its kinds")]
    fn stops_where_one_that_does_not_judge_says_open() {
        count(Service::Write, raw::Answer::OPEN, 0);
    }
}
