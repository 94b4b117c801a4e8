//! The table of refusals, in its words.

use std::fmt;

use crate::raw;

/// Why nothing was answered, and where in the input that is. Its `Display` says both, as `map byte not 0 or 1 (refusal 14, index 3)`.
///
/// ```
/// use nyekushiro::{Place, Reason};
/// // two plain nodes and one of kind 5, which version 1 does not have
/// let listing = b"ORD\x01\x00\x01\x03\x00\x00\x00\x00\x01\xff\x00\x00\x00\x00\x02\xff\x00\x05\x00\x00\xff\xff";
/// let refusal = nyekushiro::read(listing).unwrap_err();
/// assert_eq!((refusal.reason, refusal.place), (Reason::Kind, Some(Place::Node(2))));
/// assert_eq!(refusal.to_string(), "kind over 4 in version 1, over 9 in version 2 (refusal 9, node 2)");
/// assert!(refusal.advice().starts_with("use 0 plain, 1 read, 2 write, 3 RMW or 4 fence; in version 2 also 5 acquire"));
/// ```
#[derive(Clone, Copy, Debug, PartialEq, Eq)]
pub struct Refusal {
    /// The row of the table.
    pub reason: Reason,
    /// The place, where the row names one.
    pub place: Option<Place>,
}

impl Refusal {
    /// What to do next.
    pub fn advice(&self) -> &'static str {
        self.reason.row().advice
    }
}

impl fmt::Display for Refusal {
    fn fmt(&self, out: &mut fmt::Formatter<'_>) -> fmt::Result {
        write!(out, "{} (refusal {}", self.reason, self.reason.number())?;
        match self.place {
            Some(place) => write!(out, ", {place})"),
            None => out.write_str(")"),
        }
    }
}

impl std::error::Error for Refusal {}

impl raw::Answer {
    /// The refusal, if it is one.
    pub fn refusal(&self) -> Option<Refusal> {
        let reason = Reason::from(self.first);
        (self.kind == Self::REFUSED).then(|| Refusal { reason, place: (reason.row().place)(self.second) })
    }
}

/// A place in the input.
#[derive(Clone, Copy, Debug, PartialEq, Eq)]
#[non_exhaustive]
pub enum Place {
    /// A node of the listing.
    Node(usize),
    /// An index of the map.
    Index(usize),
    /// A byte of the text, or its length where it breaks off.
    Byte(usize),
    /// The number that came with a reason that this wrapper does not know.
    Unknown(u64),
}

impl fmt::Display for Place {
    fn fmt(&self, out: &mut fmt::Formatter<'_>) -> fmt::Result {
        match self {
            Place::Node(node) => write!(out, "node {node}"),
            Place::Index(index) => write!(out, "index {index}"),
            Place::Byte(byte) => write!(out, "byte {byte}"),
            Place::Unknown(place) => write!(out, "place {place}"),
        }
    }
}

fn nowhere(_: u64) -> Option<Place> {
    None
}

fn node(place: u64) -> Option<Place> {
    Some(Place::Node(place as usize))
}

fn index(place: u64) -> Option<Place> {
    Some(Place::Index(place as usize))
}

fn byte(place: u64) -> Option<Place> {
    Some(Place::Byte(place as usize))
}

fn unknown(place: u64) -> Option<Place> {
    Some(Place::Unknown(place))
}

struct Row {
    number: u64,
    place: fn(u64) -> Option<Place>,
    words: &'static str,
    advice: &'static str,
}

/// Makes [`Reason`] from the table's rows: number, variant, what its place is, "Refused because", and what to do next.
macro_rules! table {
    ($($number:literal $reason:ident $place:ident $words:literal $advice:expr;)*) => {
        /// "Refused because", a variant a row. Its `Display` is the table's words.
        ///
        /// ```
        /// use nyekushiro::Reason;
        /// assert_eq!((Reason::Nodes.number(), Reason::Nodes.to_string().as_str()), (6, "N over 128"));
        /// assert_eq!((Reason::from(6), Reason::from(99)), (Reason::Nodes, Reason::Unknown(99)));
        /// ```
        #[derive(Clone, Copy, Debug, PartialEq, Eq)]
        #[non_exhaustive]
        pub enum Reason {
            $(#[doc = concat!("Refusal ", $number, ": ", $words, ".")] $reason,)*
            /// A number that this wrapper does not know, from an archive that is newer.
            // it needs no panic, as an unknown kind of answer does: that nothing was answered or written is true all the same
            Unknown(u64),
        }

        impl Reason {
            /// Every row of the table, by number.
            pub const ALL: [Reason; [$($number),*].len()] = [$(Reason::$reason),*];

            fn row(self) -> Row {
                match self {
                    $(Reason::$reason => Row { number: $number, place: $place, words: $words, advice: $advice },)*
                    Reason::Unknown(number) => Row {
                        number,
                        place: unknown,
                        words: "a reason that is newer than this wrapper",
                        advice: "use the wrapper that belongs to the archive",
                    },
                }
            }
        }

        impl From<u64> for Reason {
            fn from(number: u64) -> Reason {
                match number {
                    $($number => Reason::$reason,)*
                    _ => Reason::Unknown(number),
                }
            }
        }
    };
}

// a routine by itself may be ROBUST where together with another it is OPEN
macro_rules! make_room {
    () => {
        "take out plain nodes, but keep all routines that may share a cell in one listing: only groups of routines that share \
         no cell and have no unknown location may be parted"
    };
}

table! {
    1 Question nowhere "question not 1 to 6"
        "ask 1 SC on x86, 2 SC on ARMv7, 3 x86 on ARMv7, 4 ARMv8 on ARMv7, 5 SC on ARMv8 or 6 x86 on ARMv8";
    2 Heading nowhere "fewer than 7 bytes"
        "give the whole listing; its heading alone has 7 bytes";
    3 Mark nowhere "mark wrong"
        "start the listing with the bytes 4F 52 44";
    4 Version nowhere "version not 1 or 2"
        "write the version as 01 00, or as 02 00 for the kinds that version 2 adds";
    5 Routines nowhere "F is 0 or over 16"
        "have 1 to 16 routines: parts of a text, or their number in byte 5 of a listing";
    6 Nodes nowhere "N over 128"
        make_room!();
    7 Length nowhere "length not 7 + 6N"
        "compare byte 6, the number of nodes, with the records that follow; no byte may be left over";
    8 Routine node "node's routine not below F"
        "number the routines from 0, and give their count in byte 5";
    9 Kind node "kind over 4 in version 1, over 9 in version 2"
        "use 0 plain, 1 read, 2 write, 3 RMW or 4 fence; in version 2 also 5 acquire read, 6 release write, 7 load fence, \
         8 store fence or 9 acquirePC read";
    10 Location node "kind 0, 4, 7 or 8 with a location other than 0"
        "set the location to 0, or make the node an access";
    11 Successor node "successor neither 255 nor below N, or in another routine"
        "lead to a node of the same routine, or write 255 for none";
    12 SecondSuccessor node "second successor without a first, or not larger than it"
        "write the smaller successor first, and one alone as the first";
    13 MapLength nowhere "map length not N"
        "give the map one byte a node";
    14 MapByte index "map byte not 0 or 1"
        "write 1 for a fence after the node and 0 for none";
    15 Places nowhere "N + places over 128"
        concat!("put in fewer fences, or ", make_room!());
    16 Buffer nowhere "lent output buffer too short"
        "lend 258 bytes for a chain, N for a map, 7 + 6(N + places) for a listing";
    17 Text byte "bad text"
        "mend the word that starts there, or go on where the text ends: a part is routine { block }, an item is r, w or u and a number \
         (1 to 5 digits, at most 65535), f, loop { block } or either { block } { block }, at most 8 deep; no block is empty, and words \
         stand apart";
    18 Unreached node "node neither its routine's entry nor reached from it"
        "number the routine's entry lowest, and put in each link that is missing on the way from it to the node; what is entered by \
         itself is a routine of its own, and what never runs is left out";
}

impl Reason {
    /// Its number in the table.
    pub fn number(self) -> u64 {
        self.row().number
    }
}

impl fmt::Display for Reason {
    fn fmt(&self, out: &mut fmt::Formatter<'_>) -> fmt::Result {
        out.pad(self.row().words)
    }
}

#[cfg(test)]
mod tests {
    use super::*;

    fn refused(number: u64, place: u64) -> Refusal {
        raw::Answer { kind: raw::Answer::REFUSED, first: number, second: place, count: 0 }.refusal().unwrap()
    }

    #[test]
    fn says_its_place_where_it_has_one() {
        assert_eq!(refused(8, 2).to_string(), "node's routine not below F (refusal 8, node 2)");
        assert_eq!(refused(7, 0).to_string(), "length not 7 + 6N (refusal 7)");
        assert_eq!(refused(14, 3).to_string(), "map byte not 0 or 1 (refusal 14, index 3)");
        assert_eq!(refused(17, 0).to_string(), "bad text (refusal 17, byte 0)");
        assert_eq!(refused(18, 3).to_string(), "node neither its routine's entry nor reached from it (refusal 18, node 3)");
    }

    #[test]
    fn number_beyond_the_table_is_still_a_refusal() {
        let refusal = refused(19, 5);
        assert_eq!((refusal.reason, refusal.place), (Reason::Unknown(19), Some(Place::Unknown(5))));
        assert_eq!(refusal.to_string(), "a reason that is newer than this wrapper (refusal 19, place 5)");
        assert_eq!(refusal.advice(), "use the wrapper that belongs to the archive");
    }

    #[test]
    fn numbers_are_the_rows() {
        for (number, reason) in (1..).zip(Reason::ALL) {
            assert_eq!((reason.number(), Reason::from(number)), (number, reason));
        }
    }

    #[test]
    fn other_answers_are_no_refusals() {
        for kind in [raw::Answer::DONE, raw::Answer::OPEN] {
            assert_eq!(raw::Answer { kind, first: 9, second: 2, count: 2 }.refusal(), None);
        }
    }
}
