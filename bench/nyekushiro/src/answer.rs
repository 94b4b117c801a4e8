//! What the services answer where they do not refuse.

use std::fmt;

use crate::raw;
use crate::Refusal;

/// What [`crate::read`] answers.
#[derive(Clone, Copy, Debug, PartialEq, Eq)]
pub struct Size {
    /// The number of nodes, N.
    pub nodes: usize,
    /// The number of routines, F.
    pub routines: usize,
}

/// What judging answers. Its `Display` is the judge program's line.
///
/// ```
/// use nyekushiro::{judge, Question};
/// // 0 write x, 1 read y, and round again; 2 write y
/// let listing = b"ORD\x01\x00\x02\x03\x00\x02\x01\x00\x01\xff\x00\x01\x02\x00\x00\xff\x01\x02\x02\x00\xff\xff";
/// assert_eq!(judge(Question::ScOnX86, listing)?.to_string(), "OPEN 0 1 2 0-1 1-0");
/// // the same without 2: nobody writes y
/// let listing = b"ORD\x01\x00\x01\x02\x00\x02\x01\x00\x01\xff\x00\x01\x02\x00\x00\xff";
/// assert_eq!(judge(Question::ScOnX86, listing)?.to_string(), "ROBUST");
/// // a crossfade, 0 and 1 write to cells that are not known: two threads may be given them the opposite way round
/// let listing = b"ORD\x01\x00\x01\x02\x00\x02\x00\x00\x01\xff\x00\x02\x00\x00\xff\xff";
/// assert_eq!(judge(Question::ScOnArmv7, listing)?.to_string(), "OPEN 0 1 1 0-1");
/// # Ok::<(), nyekushiro::Refusal>(())
/// ```
#[derive(Clone, Debug, PartialEq, Eq)]
pub enum Answer {
    /// No pair fails, in however many threads each routine runs. Whoever writes a shared cell while they run must be in the listing,
    /// be it a loader or a device that writes it once: reads of a cell that nobody in the listing writes are taken not to matter
    /// (docs/LISTING.md).
    Robust,
    /// A pair fails: the rules do not assure that others see its nodes in order.
    Open {
        /// The first node of the first failing pair.
        first: usize,
        /// Its second node.
        second: usize,
        /// The chain in which it shows; it starts with the failing pair.
        chain: Chain,
    },
}

impl Answer {
    /// Whether the answer is ROBUST; of a patch, whether it is accepted.
    pub fn is_robust(&self) -> bool {
        *self == Answer::Robust
    }
}

impl fmt::Display for Answer {
    fn fmt(&self, out: &mut fmt::Formatter<'_>) -> fmt::Result {
        match self {
            Answer::Robust => out.write_str("ROBUST"),
            Answer::Open { first, second, chain } => write!(out, "OPEN {first} {second} {} {chain}", chain.pairs().len()),
        }
    }
}

/// The chain of a failing pair: each pair is joined to the next, and the last to the first. It has one pair where that is joined to itself,
/// as it may be where a location is unknown or a block. Its `Display` is its pairs, as `0-1 2-3`.
#[derive(Clone, Debug, PartialEq, Eq)]
pub struct Chain(Vec<(usize, usize)>);

impl Chain {
    /// Its pairs, each as its first and its second node.
    pub fn pairs(&self) -> &[(usize, usize)] {
        &self.0
    }

    fn of(bytes: &[u8]) -> Chain {
        Chain(bytes.chunks_exact(2).map(|pair| (pair[0] as usize, pair[1] as usize)).collect())
    }
}

impl fmt::Display for Chain {
    fn fmt(&self, out: &mut fmt::Formatter<'_>) -> fmt::Result {
        let pairs: Vec<String> = self.0.iter().map(|(first, second)| format!("{first}-{second}")).collect();
        out.write_str(&pairs.join(" "))
    }
}

/// Where fences go: what [`crate::propose`] answers, and what [`crate::judge_patch`] and [`crate::write`] take as bytes.
#[derive(Clone, Debug, PartialEq, Eq)]
pub struct Map(Vec<u8>);

impl Map {
    /// One byte a node: 1 for a fence after it, 0 for none.
    pub fn as_bytes(&self) -> &[u8] {
        &self.0
    }

    /// The nodes after which a fence goes, from the smallest up.
    pub fn places(&self) -> impl Iterator<Item = usize> + '_ {
        self.0.iter().enumerate().filter(|&(_, &byte)| byte == 1).map(|(node, _)| node)
    }

    pub(crate) fn of(bytes: &[u8]) -> Map {
        Map(bytes.to_vec())
    }
}

impl raw::Answer {
    /// The answer of a service that does not judge, unless it refuses.
    pub(crate) fn done(self) -> Result<raw::Answer, Refusal> {
        match self.kind {
            Self::DONE => Ok(self),
            _ => Err(self.refused()),
        }
    }

    /// The answer of a service that judges and was lent `chain`, unless it refuses.
    pub(crate) fn judged(self, chain: &[u8]) -> Result<Answer, Refusal> {
        let (first, second, count) = (self.first as usize, self.second as usize, self.count as usize);
        match self.kind {
            Self::DONE => Ok(Answer::Robust),
            Self::OPEN => Ok(Answer::Open { first, second, chain: Chain::of(&chain[..2 * count]) }),
            _ => Err(self.refused()),
        }
    }

    fn refused(self) -> Refusal {
        self.refusal().unwrap_or_else(|| {
            panic!(
                "the archive answered with kind {}, which this service does not have: build it anew from this repository",
                self.kind
            )
        })
    }
}

#[cfg(test)]
mod tests {
    use super::*;

    fn answer(kind: u64) -> raw::Answer {
        raw::Answer { kind, first: 2, second: 3, count: 2 }
    }

    #[test]
    fn chain_ends_with_its_last_pair() {
        let Ok(Answer::Open { first, second, chain }) = answer(raw::Answer::OPEN).judged(&[2, 3, 0, 1, 9, 9]) else {
            panic!("not OPEN")
        };
        assert_eq!((first, second, chain.pairs()), (2, 3, &[(2, 3), (0, 1)][..]));
        assert_eq!(chain.to_string(), "2-3 0-1");
    }

    #[test]
    fn map_has_its_places() {
        let map = Map::of(&[0, 1, 0, 1]);
        assert_eq!((map.places().collect::<Vec<_>>(), map.as_bytes()), (vec![1, 3], &[0, 1, 0, 1][..]));
    }

    #[test]
    #[should_panic(expected = "kind 3, which this service does not have")]
    fn stops_at_an_unknown_kind() {
        let _ = answer(3).judged(&[]);
    }

    #[test]
    #[should_panic(expected = "kind 1, which this service does not have")]
    fn stops_where_one_that_does_not_judge_says_open() {
        let _ = answer(raw::Answer::OPEN).done();
    }
}
