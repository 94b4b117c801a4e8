//! "Rehearsed listings", by hand; and those of version 2.

use crate::numbers::QUESTIONS;

const A: &str = "w1 r2; w2 r1";
const G: &str = "w1 u3 r2; w2 u3 r1";
const F: &str = "w1 u1 r2; w2 u2 r1";

const ROBUST: &str = "ROBUST";

/// A case: its listing as a sketch, its map, and the judge program's line for each question. The table leaves some of the
/// lines out; they are worked out by hand.
pub struct Case {
    pub name: &'static str,
    pub listing: &'static str,
    pub map: &'static [u8],
    pub lines: Lines,
}

type Lines = [&'static str; QUESTIONS];

/// The lines where 5 is as 2 and 6 as 3. So it is in version 1, whose accesses ARMv8 does not keep in order itself.
const fn as_on_armv7([one, two, three, four]: [&'static str; 4]) -> Lines {
    [one, two, three, four, two, three]
}

/// The lines where this one is said of a pair that starts with a read or an RMW.
const fn on_arm(line: &'static str) -> Lines {
    as_on_armv7([ROBUST, line, line, line])
}

/// The lines where this one is said of two writes.
const fn of_writes(line: &'static str) -> Lines {
    as_on_armv7([ROBUST, line, line, ROBUST])
}

/// The lines where this one is said of write then read, and no RMW is between.
const fn write_then_read(line: &'static str) -> Lines {
    as_on_armv7([line, line, ROBUST, ROBUST])
}

/// The lines where 0-1 and 2-3 close a chain, and each starts with a read.
const ON_ARM: Lines = on_arm("OPEN 0 1 2 0-1 2-3");

/// The lines where 0-1 and 2-3 close a chain, each is write then read, and no RMW is between.
const STORE_BUFFERING: Lines = write_then_read("OPEN 0 1 2 0-1 2-3");

/// The lines of 1 to 4 where 0-2 and 3-5 close a chain, two writes and two reads; and those of 5 and 6.
const fn message_passing(five: &'static str, six: &'static str) -> Lines {
    [ROBUST, "OPEN 0 2 2 0-2 3-5", "OPEN 0 2 2 0-2 3-5", "OPEN 3 5 2 3-5 0-2", five, six]
}

pub const CASES: &[Case] = &[
    Case { name: "A", listing: A, map: &[0; 4], lines: STORE_BUFFERING },
    Case { name: "B", listing: "r1 w2; r2 w1", map: &[0; 4], lines: ON_ARM },
    Case {
        name: "C",
        listing: "w1 w2; r2 r1",
        map: &[0; 4],
        lines: as_on_armv7([ROBUST, "OPEN 0 1 2 0-1 2-3", "OPEN 0 1 2 0-1 2-3", "OPEN 2 3 2 2-3 0-1"]),
    },
    Case {
        name: "D",
        listing: A,
        map: &[1, 0, 0, 0],
        lines: as_on_armv7(["OPEN 2 3 2 2-3 0-1", "OPEN 2 3 2 2-3 0-1", ROBUST, ROBUST]),
    },
    Case { name: "E", listing: A, map: &[1, 0, 1, 0], lines: [ROBUST; QUESTIONS] },
    Case {
        name: "G",
        listing: G,
        map: &[0; 6],
        lines: as_on_armv7([ROBUST, "OPEN 0 1 2 0-1 4-5", "OPEN 0 1 2 0-1 4-5", "OPEN 1 2 2 1-2 3-4"]),
    },
    Case {
        name: "F",
        listing: F,
        map: &[0; 6],
        lines: as_on_armv7([ROBUST, "OPEN 0 2 2 0-2 3-5", "OPEN 0 2 2 0-2 3-5", "OPEN 1 2 2 1-2 3-5"]),
    },
    Case {
        name: "H",
        listing: "w1>1,2 f r2; w2 f r1",
        map: &[0; 6],
        lines: as_on_armv7(["OPEN 0 2 2 0-2 3-5", "OPEN 0 2 2 0-2 3-5", ROBUST, ROBUST]),
    },
    Case { name: "J", listing: "w32769 r32769; w32769 r32769", map: &[0; 4], lines: write_then_read("OPEN 0 1 1 0-1") },
    Case { name: "J with the cell x", listing: "w1 r1; w1 r1", map: &[0; 4], lines: [ROBUST; QUESTIONS] },
    Case { name: "K", listing: "w1>1 r2>0", map: &[0; 2], lines: [ROBUST; QUESTIONS] },
    // the crossfade
    Case { name: "L", listing: "w0 w0", map: &[0; 2], lines: of_writes("OPEN 0 1 1 0-1") },
    Case { name: "M", listing: "", map: &[], lines: [ROBUST; QUESTIONS] },
    Case {
        name: "K written",
        listing: "w1>1 r2>0; w2",
        map: &[0; 3],
        lines: as_on_armv7(["OPEN 0 1 2 0-1 1-0", "OPEN 0 1 2 0-1 1-0", "OPEN 1 0 2 1-0 0-1", "OPEN 1 0 2 1-0 0-1"]),
    },
    Case { name: "readers", listing: "r1 r2; r2 r1", map: &[0; 4], lines: [ROBUST; QUESTIONS] },
    Case { name: "one of two cells", listing: "r1 r2; r2 r1; w1", map: &[0; 5], lines: [ROBUST; QUESTIONS] },
    Case { name: "both cells", listing: "r1 r2; r2 r1; w1; u2", map: &[0; 6], lines: ON_ARM },
    Case { name: "an unknown cell", listing: "r1 r2; r2 r1; w0", map: &[0; 5], lines: ON_ARM },
    Case { name: "an unknown RMW", listing: "r1 r2; r2 r1; u0", map: &[0; 5], lines: ON_ARM },
    Case { name: "no writer", listing: "r1 r2; r2 r1; p; f", map: &[0; 6], lines: [ROBUST; QUESTIONS] },
    // the write may meet one of the two reads alone
    Case { name: "an unknown read", listing: "r0 r1; w2", map: &[0; 3], lines: [ROBUST; QUESTIONS] },
    Case { name: "and the other's cell written", listing: "r0 r1; w2; w1", map: &[0; 4], lines: on_arm("OPEN 0 1 1 0-1") },
    Case { name: "unknown reads", listing: "r0 r0; r0 r0", map: &[0; 4], lines: [ROBUST; QUESTIONS] },
    Case { name: "and any cell written", listing: "r0 r0; r0 r0; w3", map: &[0; 5], lines: on_arm("OPEN 0 1 1 0-1") },
    // pairs joined to themselves: the crossfade, L, and what is left of it where something is known or fenced
    Case { name: "L with a fence", listing: "w0 w0", map: &[1, 0], lines: [ROBUST; QUESTIONS] },
    Case { name: "L and once more", listing: "w0 w0; w0 w0", map: &[0; 4], lines: of_writes("OPEN 0 1 1 0-1") },
    Case { name: "L with one channel known", listing: "w1 w0", map: &[0; 2], lines: of_writes("OPEN 0 1 1 0-1") },
    Case { name: "L with both channels known", listing: "w1 w2", map: &[0; 2], lines: [ROBUST; QUESTIONS] },
    Case {
        name: "and called the opposite way round",
        listing: "w1 w2; w2 w1",
        map: &[0; 4],
        lines: of_writes("OPEN 0 1 2 0-1 2-3"),
    },
    Case { name: "L with RMWs", listing: "u0 u0", map: &[0; 2], lines: on_arm("OPEN 0 1 1 0-1") },
    Case { name: "an unknown write, then a read", listing: "w0 r1", map: &[0; 2], lines: write_then_read("OPEN 0 1 1 0-1") },
    Case { name: "an unknown read, then a write", listing: "r0 w2; r2 r1", map: &[0; 4], lines: on_arm("OPEN 0 1 1 0-1") },
    Case { name: "two unknown reads", listing: "r0 r0", map: &[0; 2], lines: [ROBUST; QUESTIONS] },
    Case { name: "and a cell written", listing: "r0 r0; w3", map: &[0; 3], lines: on_arm("OPEN 0 1 1 0-1") },
    // a node with itself
    Case { name: "a block written in a loop", listing: "p>1 w32769>0", map: &[0; 2], lines: of_writes("OPEN 1 1 1 1-1") },
    Case { name: "a block written again and again", listing: "w32769>0", map: &[0; 1], lines: of_writes("OPEN 0 0 1 0-0") },
    Case { name: "with a fence", listing: "w32769>0", map: &[1], lines: [ROBUST; QUESTIONS] },
    Case { name: "a cell written again and again", listing: "w1>0", map: &[0; 1], lines: [ROBUST; QUESTIONS] },
    Case { name: "an unknown RMW again and again", listing: "u0>0", map: &[0; 1], lines: on_arm("OPEN 0 0 1 0-0") },
    Case { name: "a block read again and again", listing: "r32769>0", map: &[0; 1], lines: [ROBUST; QUESTIONS] },
    Case { name: "and another block written", listing: "r32769>0; w32770", map: &[0; 2], lines: [ROBUST; QUESTIONS] },
    Case { name: "and the same written", listing: "r32769>0; w32769", map: &[0; 2], lines: on_arm("OPEN 0 0 1 0-0") },
    // the first failing pair is shown, and not the one with the shortest chain
    Case {
        name: "a chain of two before one of one",
        listing: "w1 w2; w2 w1; w32769 w32769",
        map: &[0; 6],
        lines: of_writes("OPEN 0 1 2 0-1 2-3"),
    },
    Case {
        name: "and its two pairs fenced",
        listing: "w1 w2; w2 w1; w32769 w32769",
        map: &[1, 0, 1, 0, 0, 0],
        lines: of_writes("OPEN 4 5 1 4-5"),
    },
    // and with what ARMv8 keeps in order
    Case {
        name: "L released",
        listing: "w0 l0",
        map: &[0; 2],
        lines: [ROBUST, "OPEN 0 1 1 0-1", "OPEN 0 1 1 0-1", ROBUST, ROBUST, ROBUST],
    },
    Case {
        name: "L with a store fence",
        listing: "w0 s w0",
        map: &[0; 3],
        lines: [ROBUST, "OPEN 0 2 1 0-2", "OPEN 0 2 1 0-2", ROBUST, ROBUST, ROBUST],
    },
    Case {
        name: "two unknown reads that acquire",
        listing: "a0 q0; l3",
        map: &[0; 3],
        lines: [ROBUST, "OPEN 0 1 1 0-1", "OPEN 0 1 1 0-1", "OPEN 0 1 1 0-1", ROBUST, ROBUST],
    },
    // message passing by accesses that ARMv8 keeps in order
    Case {
        name: "released and acquired",
        listing: "w1 l2; a2 r1",
        map: &[0; 4],
        lines: [ROBUST, "OPEN 0 1 2 0-1 2-3", "OPEN 0 1 2 0-1 2-3", "OPEN 2 3 2 2-3 0-1", ROBUST, ROBUST],
    },
    Case {
        name: "released and acquired by acquirePC",
        listing: "w1 l2; q2 r1",
        map: &[0; 4],
        lines: [ROBUST, "OPEN 0 1 2 0-1 2-3", "OPEN 0 1 2 0-1 2-3", "OPEN 2 3 2 2-3 0-1", ROBUST, ROBUST],
    },
    Case {
        name: "released after an RMW",
        listing: "u1 l2; q2 u1",
        map: &[0; 4],
        lines: [ROBUST, "OPEN 0 1 2 0-1 2-3", "OPEN 0 1 2 0-1 2-3", "OPEN 0 1 2 0-1 2-3", ROBUST, ROBUST],
    },
    Case {
        name: "released too early",
        listing: "l1 p w2; q2 p r1",
        map: &[0; 6],
        lines: message_passing("OPEN 0 2 2 0-2 3-5", "OPEN 0 2 2 0-2 3-5"),
    },
    Case {
        name: "acquired too late",
        listing: "w1 p l2; r2 p a1",
        map: &[0; 6],
        lines: message_passing("OPEN 3 5 2 3-5 0-2", "OPEN 3 5 2 3-5 0-2"),
    },
    Case {
        name: "a full fence put in on the other side",
        listing: "w1 w2; q2 r1",
        map: &[1, 0, 0, 0],
        lines: [ROBUST, "OPEN 2 3 2 2-3 0-1", "OPEN 2 3 2 2-3 0-1", "OPEN 2 3 2 2-3 0-1", ROBUST, ROBUST],
    },
    // message passing with load and store fences, which are plain under 1 to 4
    Case { name: "fences on both sides", listing: "w1 s w2; r2 d r1", map: &[0; 6], lines: message_passing(ROBUST, ROBUST) },
    Case {
        name: "a store fence alone",
        listing: "w1 s w2; r2 p r1",
        map: &[0; 6],
        lines: message_passing("OPEN 3 5 2 3-5 0-2", "OPEN 3 5 2 3-5 0-2"),
    },
    Case {
        name: "a load fence alone",
        listing: "w1 p w2; r2 d r1",
        map: &[0; 6],
        lines: message_passing("OPEN 0 2 2 0-2 3-5", "OPEN 0 2 2 0-2 3-5"),
    },
    Case {
        name: "each fence on the other side",
        listing: "w1 d w2; r2 s r1",
        map: &[0; 6],
        lines: message_passing("OPEN 0 2 2 0-2 3-5", "OPEN 0 2 2 0-2 3-5"),
    },
    Case {
        name: "a store fence on one branch",
        listing: "w1>1,2 s w2; q2 p r1",
        map: &[0; 6],
        lines: message_passing("OPEN 0 2 2 0-2 3-5", "OPEN 0 2 2 0-2 3-5"),
    },
    Case {
        name: "a store fence after a release",
        listing: "l1 s w2; q2 d r1",
        map: &[0; 6],
        lines: message_passing(ROBUST, ROBUST),
    },
    Case {
        name: "a store fence before an RMW",
        listing: "w1 s u2; r2 d r1",
        map: &[0; 6],
        lines: message_passing("OPEN 0 2 2 0-2 3-5", "OPEN 0 2 2 0-2 3-5"),
    },
    Case {
        name: "a load fence after an RMW",
        listing: "u1 d w2; r2 d r1",
        map: &[0; 6],
        lines: [
            ROBUST,
            "OPEN 0 2 2 0-2 3-5",
            "OPEN 0 2 2 0-2 3-5",
            "OPEN 0 2 2 0-2 3-5",
            "OPEN 0 2 2 0-2 3-5",
            "OPEN 0 2 2 0-2 3-5",
        ],
    },
    // load buffering
    Case {
        name: "a load fence before a write",
        listing: "r1 d w2; r2 d w1",
        map: &[0; 6],
        lines: [ROBUST, "OPEN 0 2 2 0-2 3-5", "OPEN 0 2 2 0-2 3-5", "OPEN 0 2 2 0-2 3-5", ROBUST, ROBUST],
    },
    Case {
        name: "a store fence after a read",
        listing: "r1 s w2; r2 s w1",
        map: &[0; 6],
        lines: [
            ROBUST,
            "OPEN 0 2 2 0-2 3-5",
            "OPEN 0 2 2 0-2 3-5",
            "OPEN 0 2 2 0-2 3-5",
            "OPEN 0 2 2 0-2 3-5",
            "OPEN 0 2 2 0-2 3-5",
        ],
    },
    // store buffering: release then acquire is kept in order, and nothing else that writes first
    Case { name: "store buffering in version 2", listing: "w1 r2; w2 r1; d", map: &[0; 5], lines: STORE_BUFFERING },
    Case {
        name: "release then acquire",
        listing: "l1 a2; l2 a1",
        map: &[0; 4],
        lines: ["OPEN 0 1 2 0-1 2-3", "OPEN 0 1 2 0-1 2-3", ROBUST, ROBUST, ROBUST, ROBUST],
    },
    Case { name: "release then acquirePC", listing: "l1 q2; l2 q1", map: &[0; 4], lines: STORE_BUFFERING },
    Case { name: "release then read", listing: "l1 r2; l2 r1", map: &[0; 4], lines: STORE_BUFFERING },
    Case { name: "write then acquire", listing: "w1 a2; w2 a1", map: &[0; 4], lines: STORE_BUFFERING },
    Case {
        name: "acquire against acquirePC",
        listing: "l1 a2; l2 q1",
        map: &[0; 4],
        lines: ["OPEN 0 1 2 0-1 2-3", "OPEN 0 1 2 0-1 2-3", ROBUST, ROBUST, "OPEN 2 3 2 2-3 0-1", ROBUST],
    },
    Case {
        name: "a load fence after a release",
        listing: "l1 d r2; l2 d r1",
        map: &[0; 6],
        lines: ["OPEN 0 2 2 0-2 3-5", "OPEN 0 2 2 0-2 3-5", ROBUST, ROBUST, "OPEN 0 2 2 0-2 3-5", ROBUST],
    },
    // an RMW between is no barrier under 5, and takes the leave away under 6
    Case {
        name: "F with acquirePC",
        listing: "w1 u1 q2; w2 u2 q1",
        map: &[0; 6],
        lines: as_on_armv7([ROBUST, "OPEN 0 2 2 0-2 3-5", "OPEN 0 2 2 0-2 3-5", "OPEN 1 2 2 1-2 3-5"]),
    },
    Case {
        name: "F with release and acquire",
        listing: "l1 u1 a2; l2 u2 a1",
        map: &[0; 6],
        lines: [
            ROBUST,
            "OPEN 0 2 2 0-2 3-5",
            "OPEN 0 2 2 0-2 3-5",
            "OPEN 1 2 2 1-2 3-5",
            "OPEN 1 2 2 1-2 3-5",
            "OPEN 1 2 2 1-2 3-5",
        ],
    },
    Case {
        name: "G with release and acquire",
        listing: "l1 u3 a2; l2 u3 a1",
        map: &[0; 6],
        lines: as_on_armv7([ROBUST, "OPEN 0 1 2 0-1 4-5", "OPEN 0 1 2 0-1 4-5", "OPEN 1 2 2 1-2 3-4"]),
    },
    // order through a third access
    Case {
        name: "by way of a release, store buffering",
        listing: "w1 l3 a2; w2 l4 a1",
        map: &[0; 6],
        lines: ["OPEN 0 2 2 0-2 3-5", "OPEN 0 1 3 0-1 1-2 3-5", "OPEN 0 1 3 0-1 1-2 3-5", ROBUST, "OPEN 0 2 2 0-2 3-5", ROBUST],
    },
    Case {
        name: "by way of a release, from a read",
        listing: "r1 l3 a2; w2 l1",
        map: &[0; 5],
        lines: [
            "OPEN 1 2 3 1-2 3-4 0-1",
            "OPEN 0 1 3 0-1 1-2 3-4",
            "OPEN 0 1 3 0-1 1-2 3-4",
            "OPEN 0 1 3 0-1 1-2 3-4",
            "OPEN 0 2 2 0-2 3-4",
            "OPEN 0 2 2 0-2 3-4",
        ],
    },
    // who writes what two reads read
    Case { name: "readers that acquire", listing: "a1 q2; q2 a1", map: &[0; 4], lines: [ROBUST; QUESTIONS] },
    Case { name: "load and store fences write nothing", listing: "r1 r2; r2 r1; d; s", map: &[0; 6], lines: [ROBUST; QUESTIONS] },
    Case { name: "both cells released", listing: "r1 r2; r2 r1; l1; l2", map: &[0; 6], lines: ON_ARM },
    Case { name: "an unknown cell released", listing: "r1 q2; r2 a1; l0", map: &[0; 5], lines: ON_ARM },
    Case {
        name: "and readers that acquire first",
        listing: "a1 r2; q2 r1; l0",
        map: &[0; 5],
        lines: [ROBUST, "OPEN 0 1 2 0-1 2-3", "OPEN 0 1 2 0-1 2-3", "OPEN 0 1 2 0-1 2-3", ROBUST, ROBUST],
    },
];
