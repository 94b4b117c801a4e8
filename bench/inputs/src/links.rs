//! Where nodes lead: what a routine's entry, its lowest-numbered node, leads to, and how the rest is linked in.

use crate::numbers::{NONE, ROUTINES};
use crate::random::Random;
use crate::sketch::Record;

/// "If both are present, the second is larger than the first."
pub fn in_order(one: Option<u8>, other: Option<u8>) -> (u8, u8) {
    match (one, other) {
        (Some(one), Some(other)) if one != other => (one.min(other), one.max(other)),
        (one, other) => (one.or(other).unwrap_or(NONE), NONE),
    }
}

/// The node and all that it leads to, in the order in which a search finds them.
pub fn led_to(records: &[Record], node: usize) -> Vec<usize> {
    let mut found = vec![node];
    let mut at = 0;
    while at < found.len() {
        for next in records[found[at]].next() {
            if !found.contains(&next) {
                found.push(next);
            }
        }
        at += 1;
    }
    found
}

/// The lowest-numbered node of the same routine.
pub fn entry_of(records: &[Record], node: usize) -> usize {
    records.iter().position(|record| record.routine == records[node].routine).expect("a node is of its own routine")
}

/// Has each routine's entry lead to all of its nodes, by making what it doesn't lead to a routine of its own, or by a link more. Says
/// how many routines there are then.
pub fn link_in(random: &mut Random, records: &mut [Record], mut routines: usize) -> usize {
    for node in 0..records.len() {
        let entry = entry_of(records, node);
        let reached = led_to(records, entry);
        if reached.contains(&node) {
            continue;
        }
        let piece = led_to(records, node);
        if routines < ROUTINES && is_apart(records, entry, &piece) && random.once_in(2) {
            piece.iter().for_each(|&node| records[node].routine = routines as u8);
            routines += 1;
        } else {
            lead_on(random, records, &reached, node);
        }
    }
    routines
}

/// Whether nothing else leads to the piece, which has all that its nodes lead to.
fn is_apart(records: &[Record], entry: usize, piece: &[usize]) -> bool {
    let leads_in = |node: usize| records[node].next().any(|next| piece.contains(&next));
    !piece.contains(&entry) && (0..records.len()).all(|node| piece.contains(&node) || !leads_in(node))
}

/// Has one of the nodes that are reached lead to this one as well.
fn lead_on(random: &mut Random, records: &mut [Record], reached: &[usize], node: usize) {
    let with_room: Vec<usize> = reached.iter().copied().filter(|&from| records[from].second == NONE).collect();
    // if each has two successors, the one found last may lose one: what it leads to was found without it
    let from = if with_room.is_empty() { reached[reached.len() - 1] } else { random.one_of(&with_room) };
    let kept = Some(records[from].first).filter(|&first| first != NONE);
    (records[from].first, records[from].second) = in_order(kept, Some(node as u8));
}

/// Gives each of two nodes the other's number.
pub fn swap_numbers(records: &mut [Record], one: usize, other: usize) {
    let swapped = |node: usize| match node {
        _ if node == one => other as u8,
        _ if node == other => one as u8,
        _ => node as u8,
    };
    records.swap(one, other);
    for record in records.iter_mut() {
        let mut next = record.next().map(swapped);
        let (first, second) = (next.next(), next.next());
        (record.first, record.second) = in_order(first, second);
    }
}
