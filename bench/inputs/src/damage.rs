//! What can be wrong with a listing's bytes: every field of the heading and of a record, and the length; and where its nodes lead.

use crate::links::{entry_of, in_order, swap_numbers};
use crate::numbers::{
    kinds, length, nodes, version, FENCE, HEADING, LOAD_FENCE, NODES, NODES_AT, NONE, ROUTINES, ROUTINES_AT, STORE_FENCE,
    VERSIONS, VERSION_AT,
};
use crate::random::Random;
use crate::sketch::{bytes, Record};

/// The listing with one thing changed, mostly for the worse.
pub fn damaged(random: &mut Random, mut listing: Vec<u8>) -> Vec<u8> {
    let nodes = nodes(&listing);
    let (full, all_routines) = (NODES as u8, ROUTINES as u8);
    let [oldest, newest] = VERSIONS;
    match random.below(20) {
        0 => listing.truncate(random.below(HEADING + 1)),
        1 => listing[random.below(VERSION_AT)] ^= 1 << random.below(8),
        2 => listing[VERSION_AT] = random.one_of(&[0, newest + 1, 255]),
        3 => listing[VERSION_AT + 1] = random.one_of(&[1, 255]),
        4 => listing[ROUTINES_AT] = random.one_of(&[0, 1, 2, all_routines, all_routines + 1, 255]),
        5 => listing[NODES_AT] = random.one_of(&[full - 1, full, full + 1, 255]),
        6 => {
            // all of the bytes are there, and the count is over the limit
            listing[NODES_AT] = full + 1;
            listing.resize(length(NODES + 1), 0);
        }
        7 => listing.truncate(random.below(listing.len() + 1)),
        8 => listing.extend((0..random.from_to(1, 13)).map(|_| 0)),
        // the other version's kinds
        9 => listing[VERSION_AT] = oldest + newest - version(&listing),
        10..=14 if nodes > 0 => {
            let record = length(random.below(nodes));
            match random.below(10) {
                0 => listing[record] = random.one_of(&[0, 1, all_routines - 1, all_routines, 255]),
                1 | 2 => {
                    listing[record + 1] =
                        random.one_of(&[0, 1, FENCE, kinds(oldest), STORE_FENCE, kinds(newest) - 1, kinds(newest), 255])
                }
                3 => {
                    listing[record + 1] = random.one_of(&[0, FENCE, LOAD_FENCE, STORE_FENCE]);
                    listing[record + random.from_to(2, 3)] = random.byte();
                }
                4 => listing[record + random.from_to(2, 3)] = random.byte(),
                5 => listing[record + random.from_to(4, 5)] = random.below(nodes) as u8,
                6 => listing[record + random.from_to(4, 5)] = random.one_of(&[nodes as u8, full - 1, full, NONE - 1]),
                7 => listing[record + 4] = NONE,
                8 => listing[record + 5] = listing[record + 4],
                _ => listing.swap(record + 4, record + 5),
            }
        }
        15.. if nodes > 0 => return cut_off(random, &listing),
        _ => {}
    }
    listing
}

/// The listing, which has a node, changed so that mostly a routine's entry no longer leads to all of its nodes.
pub fn cut_off(random: &mut Random, listing: &[u8]) -> Vec<u8> {
    let mut records = Record::all(listing);
    let node = random.below(records.len());
    match random.below(5) {
        0 | 1 => take_out_a_link(random, &mut records),
        2 => {
            // the entry is no longer the lowest number
            let entry = entry_of(&records, node);
            swap_numbers(&mut records, entry, node);
        }
        3 => add_a_loop(random, &mut records, node),
        _ => {
            // two routines are one
            let (one, other) = (records[random.below(records.len())].routine, records[node].routine);
            records.iter_mut().filter(|record| record.routine == one).for_each(|record| record.routine = other);
        }
    }
    bytes(version(listing), listing[ROUTINES_AT], &records)
}

fn take_out_a_link(random: &mut Random, records: &mut [Record]) {
    let leading: Vec<usize> = (0..records.len()).filter(|&node| records[node].first != NONE).collect();
    if leading.is_empty() {
        return;
    }
    let record = &mut records[random.one_of(&leading)];
    let mut next: Vec<u8> = record.next().map(|next| next as u8).collect();
    next.remove(random.below(next.len()));
    (record.first, record.second) = in_order(next.first().copied(), None);
}

/// Adds copies of the node that lead around to each other, as long as there is room; nothing else leads to them. Each may get the number
/// of another node of its routine.
fn add_a_loop(random: &mut Random, records: &mut Vec<Record>, node: usize) {
    let first = records.len();
    let entry = entry_of(records, node);
    let added = random.from_to(1, 3).min(NODES - first);
    for at in 0..added {
        let next = (first + (at + 1) % added) as u8;
        records.push(Record { first: next, second: NONE, ..records[node] });
    }
    for number in first..records.len() {
        let own = |&other: &usize| records[other].routine == records[node].routine && other != entry;
        let others: Vec<usize> = (0..=number).filter(own).collect();
        swap_numbers(records, number, random.one_of(&others));
    }
}
