//! The numbers of the rules, once for the inputs and the comparisons. The two sides that are compared have their own, and
//! compare/tests/numbers.rs holds all to each other.

/// Bytes of a listing's heading: the mark, the version, F and N.
pub const HEADING: usize = 7;
pub const VERSION_AT: usize = 3;
pub const ROUTINES_AT: usize = 5;
pub const NODES_AT: usize = 6;
/// Bytes of a record.
pub const RECORD: usize = 6;

/// The most routines and the most nodes.
pub const ROUTINES: usize = 16;
pub const NODES: usize = 128;

/// How deep a text may nest: "`loop` and `either` count; a ninth can't stand".
pub const DEEPEST: usize = 8;

pub const PLAIN: u8 = 0;
pub const READ: u8 = 1;
pub const WRITE: u8 = 2;
pub const RMW: u8 = 3;
pub const FENCE: u8 = 4;
/// "Version 2 adds":
pub const ACQUIRE: u8 = 5;
pub const RELEASE: u8 = 6;
pub const LOAD_FENCE: u8 = 7;
pub const STORE_FENCE: u8 = 8;
pub const ACQUIRE_PC: u8 = 9;

/// The versions that a listing may have.
pub const VERSIONS: [u8; 2] = [1, 2];

/// How many kinds a version has.
pub const fn kinds(version: u8) -> u8 {
    if version == 1 {
        5
    } else {
        10
    }
}

/// "Kinds 1, 5 and 9 count as reads, 2 and 6 as writes, 3 as an RMW, which is neither."
pub const READS: [u8; 3] = [READ, ACQUIRE, ACQUIRE_PC];
pub const WRITES: [u8; 2] = [WRITE, RELEASE];

pub fn is_access(kind: u8) -> bool {
    READS.contains(&kind) || WRITES.contains(&kind) || kind == RMW
}

/// "Successor 255 means none."
pub const NONE: u8 = 255;
/// The last location that is one cell; blocks of cells follow.
pub const LAST_CELL: u16 = 32767;

/// How many questions there are; they are numbered from 1.
pub const QUESTIONS: usize = 6;

/// "The chain buffer must have 258 bytes."
pub const CHAIN_BUFFER: usize = 258;

/// The bytes of a listing with this many nodes; the record of node `nodes` would start there.
pub const fn length(nodes: usize) -> usize {
    HEADING + RECORD * nodes
}

/// The version, as the lower of its two bytes says it.
pub fn version(listing: &[u8]) -> u8 {
    listing[VERSION_AT]
}

/// N, as the heading says it.
pub fn nodes(listing: &[u8]) -> usize {
    listing[NODES_AT] as usize
}
