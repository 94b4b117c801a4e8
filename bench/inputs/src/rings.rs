//! Rings: pieces of a few nodes each, the first and the last of them accesses, that lead from one cell to the next and around, so that the
//! only chain has all of them.

use crate::numbers::{NONE, PLAIN};
use crate::sketch::Record;

/// What a ring is made of.
pub struct Ring {
    /// of how many nodes a piece is
    pub size: usize,
    pub routines: usize,
    pub pieces: usize,
}

impl Ring {
    /// With as many pieces as fit: in a routine each but the last takes one node more, which leads to it and to the next one.
    pub fn fitting(size: usize, routines: usize, nodes: usize) -> Ring {
        Ring { size, routines, pieces: (nodes / size).min((nodes + routines) / (size + 1)) }
    }

    /// The records of so many nodes. `node` says the kind and location of each piece's nodes, from the first to the last.
    pub fn records(&self, nodes: usize, mut node: impl FnMut(usize, usize) -> (u8, u16)) -> Vec<Record> {
        let routine = |piece: usize| (piece * self.routines / self.pieces) as u8;
        let mut records = Vec::new();
        for piece in 0..self.pieces {
            let number = records.len() as u8;
            if piece + 1 < self.pieces && routine(piece + 1) == routine(piece) {
                let (first, second) = (number + 1, number + 1 + self.size as u8);
                records.push(Record { routine: routine(piece), kind: PLAIN, location: 0, first, second });
            }
            for at in 0..self.size {
                let first = if at + 1 < self.size { records.len() as u8 + 1 } else { NONE };
                let (kind, location) = node(piece, at);
                records.push(Record { routine: routine(piece), kind, location, first, second: NONE });
            }
        }
        go_on(&mut records, nodes);
        records
    }
}

/// Has the last node lead to plain ones, one after another, until there are so many nodes.
pub fn go_on(records: &mut Vec<Record>, nodes: usize) {
    while records.len() < nodes {
        let number = records.len() as u8;
        let routine = records.last_mut().map_or(0, |last| {
            last.first = number;
            last.routine
        });
        records.push(Record { routine, kind: PLAIN, location: 0, first: NONE, second: NONE });
    }
}
