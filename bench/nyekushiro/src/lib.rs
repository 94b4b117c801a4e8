//! The proved judge of memory fences, for Rust: a [`Question`] and bytes in, an [`Answer`] or a [`Refusal`] out.
//!
//! What each service answers is proved to be what the rules (docs/RULES.md) give; docs/LISTING.md has the format of a listing. The
//! archive that answers is for x86-64 Linux. `tools/archive` builds it, or NYEKUSHIRO_ARCHIVE_DIR says where it stands,
//! as PREFIX/lib after `tools/install PREFIX`.
//!
//! ```
//! use nyekushiro::{judge, judge_patch, propose, write, Answer, Question};
//!
//! // 0 write x, 1 read y; 2 write y, 3 read x
//! let listing = b"ORD\x01\x00\x02\x04\x00\x02\x01\x00\x01\xff\x00\x01\x02\x00\xff\xff\x01\x02\x02\x00\x03\xff\x01\x01\x01\x00\xff\xff";
//! let question: Question = "sc-x86".parse()?;
//! let Answer::Open { first, second, chain } = judge(question, listing)? else { panic!("ROBUST") };
//! assert_eq!((first, second), (0, 1));
//! assert_eq!(chain.pairs(), [(0, 1), (2, 3)]);
//!
//! // a fence after each of the two writes mends it
//! let map = propose(question, listing)?;
//! assert_eq!(map.places().collect::<Vec<_>>(), [0, 2]);
//! assert!(judge_patch(question, listing, map.as_bytes())?.is_robust());
//! let patched = write(listing, map.as_bytes())?;
//! assert!(judge(question, &patched)?.is_robust());
//!
//! // without its last byte it is no listing
//! assert_eq!(judge(question, &listing[..30]).unwrap_err().to_string(), "length not 7 + 6N (refusal 7)");
//! # Ok::<(), Box<dyn std::error::Error>>(())
//! ```
//!
//! An archive that answers in a way that no service has is not of this repository, and a call to it panics.

#![deny(missing_docs)]

mod answer;
mod question;
pub mod raw;
mod refusal;

pub use answer::{Answer, Chain, Map, Size};
pub use question::{Question, UnknownQuestion};
pub use refusal::{Place, Reason, Refusal};

use raw::{CHAIN_BUFFER, LISTING_BUFFER, MAP_BUFFER};

/// How many nodes and routines the listing has.
///
/// ```
/// let size = nyekushiro::read(b"ORD\x01\x00\x01\x00")?;
/// assert_eq!((size.nodes, size.routines), (0, 1));
///
/// // 0 plain, which is the entry and leads nowhere, 1 plain
/// let refusal = nyekushiro::read(b"ORD\x01\x00\x01\x02\x00\x00\x00\x00\xff\xff\x00\x00\x00\x00\xff\xff").unwrap_err();
/// assert_eq!(refusal.to_string(), "node neither its routine's entry nor reached from it (refusal 18, node 1)");
/// # Ok::<(), nyekushiro::Refusal>(())
/// ```
pub fn read(listing: &[u8]) -> Result<Size, Refusal> {
    let answer = raw::read(listing).done()?;
    Ok(Size { nodes: answer.first as usize, routines: answer.second as usize })
}

/// Judges the listing.
///
/// ```
/// use nyekushiro::{judge, Answer, Question};
/// assert_eq!(judge(Question::ScOnArmv7, b"ORD\x01\x00\x01\x00")?, Answer::Robust);
///
/// // 0 write x, 1 release y; 2 acquire y, 3 read x: in order on ARMv8, and not on ARMv7
/// let listing = b"ORD\x02\x00\x02\x04\x00\x02\x01\x00\x01\xff\x00\x06\x02\x00\xff\xff\x01\x05\x02\x00\x03\xff\x01\x01\x01\x00\xff\xff";
/// assert_eq!(judge(Question::ScOnArmv8, listing)?, Answer::Robust);
/// assert_eq!(judge(Question::ScOnArmv7, listing)?.to_string(), "OPEN 0 1 2 0-1 2-3");
/// # Ok::<(), nyekushiro::Refusal>(())
/// ```
pub fn judge(question: Question, listing: &[u8]) -> Result<Answer, Refusal> {
    let mut chain = [0; CHAIN_BUFFER];
    raw::judge(question.into(), listing, &mut chain).judged(&chain)
}

/// Judges the listing with a fence after every node whose byte of `map` is 1, and answers in the old node numbers.
/// The patch is accepted if the answer is ROBUST.
///
/// ```
/// use nyekushiro::{judge_patch, Question};
/// let refusal = judge_patch(Question::ScOnArmv7, b"ORD\x01\x00\x01\x00", &[1]).unwrap_err();
/// assert_eq!(refusal.to_string(), "map length not N (refusal 13)");
/// ```
pub fn judge_patch(question: Question, listing: &[u8], map: &[u8]) -> Result<Answer, Refusal> {
    let mut chain = [0; CHAIN_BUFFER];
    raw::judge_patch(question.into(), listing, map, &mut chain).judged(&chain)
}

/// Proposes a patch: a fence after the first node of every failing pair.
///
/// ```
/// use nyekushiro::{propose, Question};
/// // 0 write x, 1 read y, and round again; 2 write y
/// let listing = b"ORD\x01\x00\x02\x03\x00\x02\x01\x00\x01\xff\x00\x01\x02\x00\x00\xff\x01\x02\x02\x00\xff\xff";
/// let map = propose(Question::ScOnX86, listing)?;
/// assert_eq!(map.as_bytes(), [1, 0, 0]);
/// # Ok::<(), nyekushiro::Refusal>(())
/// ```
pub fn propose(question: Question, listing: &[u8]) -> Result<Map, Refusal> {
    let mut map = [0; MAP_BUFFER];
    raw::propose(question.into(), listing, &mut map).done()?;
    Ok(Map::of(&map[..read(listing)?.nodes]))
}

/// The bytes of the listing with a fence, kind 4, after every node whose byte of `map` is 1. Its version stays.
///
/// ```
/// // a write alone, and a fence after it
/// let patched = nyekushiro::write(b"ORD\x01\x00\x01\x01\x00\x02\x01\x00\xff\xff", &[1])?;
/// assert_eq!(patched, b"ORD\x01\x00\x01\x02\x00\x02\x01\x00\x01\xff\x00\x04\x00\x00\xff\xff");
/// # Ok::<(), nyekushiro::Refusal>(())
/// ```
pub fn write(listing: &[u8], map: &[u8]) -> Result<Vec<u8>, Refusal> {
    let mut out = [0; LISTING_BUFFER];
    let answer = raw::write(listing, map, &mut out).done()?;
    Ok(out[..answer.count as usize].to_vec())
}

/// The version 1 listing of a typed text: parts `routine { block }`, whose items are `r`, `w` or `u` and a location, `f`, `loop { block }` and
/// `either { block } { block }` (docs/LISTING.md).
///
/// ```
/// use nyekushiro::{judge, text, Question};
/// // the fader: the panel's routine, and the one that mixes
/// let listing = text(b"routine { w 1 w 2 } routine { r 2 r 1 }")?;
/// assert_eq!(judge(Question::X86OnArmv7, &listing)?.to_string(), "OPEN 0 1 2 0-1 2-3");
///
/// let refusal = text(b"routine { w 1 w }").unwrap_err();
/// assert_eq!(refusal.to_string(), "bad text (refusal 17, byte 16)");
/// # Ok::<(), nyekushiro::Refusal>(())
/// ```
pub fn text(text: &[u8]) -> Result<Vec<u8>, Refusal> {
    let mut out = [0; LISTING_BUFFER];
    let answer = raw::text(text, &mut out).done()?;
    Ok(out[..answer.count as usize].to_vec())
}
