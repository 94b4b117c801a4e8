//! Listings of one shape and any size, for timings.

use crate::listings::woven;
use crate::numbers::{FENCE, NONE, READ, RMW, ROUTINES, WRITE};
use crate::random::Random;
use crate::rings::Ring;
use crate::sketch::{bytes, Record};

/// A shape's name, and a listing of it with this many nodes.
pub type Shape = (&'static str, fn(&mut Random, usize) -> Vec<u8>);

/// Every shape asks something else of a judge.
pub const SHAPES: [Shape; 6] = [
    // as many straight routines as can be over few cells: most pairs fail, the first at once
    ("lines", |random, nodes| lines(random, nodes, false)),
    // the same with a fence after each access: no pair fails, and all must be looked at
    ("fenced", |random, nodes| lines(random, nodes, true)),
    // pieces of two nodes around as many cells, and plain nodes that lead to them: the longest chains
    ("ring", |_, nodes| ring_of_pieces(nodes)),
    // one straight routine in which no two accesses meet: every pair wants order, and none lies on a chain
    ("lonely", lonely),
    // branches, loops, fences, RMWs and unknown locations
    ("woven", |random, nodes| woven(random, 1, nodes)),
    // the same with acquire and release accesses, load and store fences: what is a barrier hangs on a pair's ends
    ("version 2 woven", |random, nodes| woven(random, 2, nodes)),
];

fn lines(random: &mut Random, nodes: usize, fenced: bool) -> Vec<u8> {
    let size = nodes.div_ceil(ROUTINES).max(2);
    let records: Vec<Record> = (0..nodes)
        .map(|node| {
            let last = (node + 1) % size == 0 || node + 1 == nodes;
            let access = !fenced || node % size % 2 != 1;
            Record {
                routine: (node / size) as u8,
                kind: if access { random.one_of(&[READ, WRITE]) } else { FENCE },
                location: if access { random.from_to(1, 6) as u16 } else { 0 },
                first: if last { NONE } else { node as u8 + 1 },
                second: NONE,
            }
        })
        .collect();
    bytes(1, ROUTINES as u8, &records)
}

fn ring_of_pieces(nodes: usize) -> Vec<u8> {
    let ring = Ring::fitting(2, ROUTINES, nodes);
    let cell = |piece: usize| (piece % ring.pieces + 1) as u16;
    let records = ring.records(nodes, |piece, at| if at == 0 { (WRITE, cell(piece)) } else { (READ, cell(piece + 1)) });
    bytes(1, ROUTINES as u8, &records)
}

fn lonely(random: &mut Random, nodes: usize) -> Vec<u8> {
    let records: Vec<Record> = (0..nodes)
        .map(|node| {
            let first = if node + 1 < nodes { node as u8 + 1 } else { NONE };
            Record { routine: 0, kind: random.one_of(&[READ, WRITE, RMW]), location: node as u16 + 1, first, second: NONE }
        })
        .collect();
    bytes(1, 1, &records)
}
