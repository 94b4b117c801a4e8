//! Listings by hand.

use crate::numbers::{kinds, length, nodes, NONE, VERSIONS};

/// A record of a listing, good or bad.
#[derive(Clone, Copy, Debug, PartialEq, Eq)]
pub struct Record {
    pub routine: u8,
    pub kind: u8,
    pub location: u16,
    pub first: u8,
    pub second: u8,
}

impl Record {
    /// The record of a node, from a listing's bytes.
    pub fn of(listing: &[u8], node: usize) -> Record {
        let record = &listing[length(node)..];
        let location = u16::from_le_bytes([record[2], record[3]]);
        Record { routine: record[0], kind: record[1], location, first: record[4], second: record[5] }
    }

    /// The records of all nodes.
    pub fn all(listing: &[u8]) -> Vec<Record> {
        (0..nodes(listing)).map(|node| Record::of(listing, node)).collect()
    }

    /// The nodes that it leads to.
    pub fn next(&self) -> impl Iterator<Item = usize> {
        [self.first, self.second].into_iter().filter(|&next| next != NONE).map(usize::from)
    }
}

/// The bytes of a listing of this version with these records.
pub fn bytes(version: u8, routines: u8, records: &[Record]) -> Vec<u8> {
    let mut bytes = vec![0x4F, 0x52, 0x44, version, 0, routines, records.len() as u8];
    for record in records {
        let [low, high] = record.location.to_le_bytes();
        bytes.extend([record.routine, record.kind, low, high, record.first, record.second]);
    }
    bytes
}

/// The letters of a sketch, by kind.
const LETTERS: &str = "prwufaldsq";

/// A listing from words: `p`, `r`, `w`, `u` (RMW), `f`, `a` (acquire), `l` (release), `d` (load fence), `s` (store fence) or `q`
/// (acquirePC), then the location of an access; `;` ends a routine. Its version is the first that has all of its kinds.
///
/// Arrows go to the next node of the routine unless said by `>first` or `>first,second`.
///
/// ```
/// assert_eq!(inputs::sketch("w1>1 r2>0"), b"ORD\x01\x00\x01\x02\x00\x02\x01\x00\x01\xff\x00\x01\x02\x00\x00\xff");
/// assert_eq!(inputs::sketch("l1 d"), b"ORD\x02\x00\x01\x02\x00\x06\x01\x00\x01\xff\x00\x07\x00\x00\xff\xff");
/// ```
pub fn sketch(text: &str) -> Vec<u8> {
    let routines: Vec<Vec<&str>> = text.split(';').map(|routine| routine.split_whitespace().collect()).collect();
    let mut records = Vec::new();
    for (routine, words) in routines.iter().enumerate() {
        for (at, word) in words.iter().enumerate() {
            let next = if at + 1 < words.len() { records.len() as u8 + 1 } else { NONE };
            records.push(record(routine as u8, word, next));
        }
    }
    let has_all = |version: &u8| records.iter().all(|record: &Record| record.kind < kinds(*version));
    let version = VERSIONS.into_iter().find(has_all).expect("the last version has every kind");
    bytes(version, routines.len() as u8, &records)
}

fn record(routine: u8, word: &str, next: u8) -> Record {
    let (node, arrows) = word.split_once('>').unwrap_or((word, ""));
    let kind = LETTERS.find(&node[..1]).expect("a word starts with one of the letters") as u8;
    let location = if node.len() > 1 { node[1..].parse().expect("a location is a number") } else { 0 };
    let mut arrows =
        arrows.split(',').filter(|arrow| !arrow.is_empty()).map(|arrow| arrow.parse().expect("an arrow goes to a node"));
    let first = arrows.next().unwrap_or(next);
    let second = arrows.next().unwrap_or(NONE);
    Record { routine, kind, location, first, second }
}
