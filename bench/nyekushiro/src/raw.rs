//! The exported services as they are: numbers and byte slices in, four numbers out, and the rest into a lent buffer.
//!
//! A refusal leaves the lent buffer as it was. Its bytes beyond what is said here keep their values.
//!
//! ```
//! use nyekushiro::raw;
//! let mut chain = [7; raw::CHAIN_BUFFER];
//! let refusal = raw::judge(7, b"ORD\x01\x00\x01\x00", &mut chain).refusal().unwrap();
//! assert_eq!(refusal.to_string(), "question not 1 to 6 (refusal 1)");
//! assert_eq!(chain, [7; raw::CHAIN_BUFFER]);
//! ```

/// The bytes that a chain buffer must have.
pub const CHAIN_BUFFER: usize = 258;
/// The bytes of the longest map, which has 128 nodes.
pub const MAP_BUFFER: usize = 128;
/// The bytes of the longest listing, which has 128 nodes.
pub const LISTING_BUFFER: usize = 775;

/// What every service answers. A number that is not said to be anything is 0.
#[repr(C)]
#[derive(Clone, Copy, Debug, PartialEq, Eq)]
pub struct Answer {
    /// [`Answer::DONE`], [`Answer::OPEN`] or [`Answer::REFUSED`].
    pub kind: u64,
    /// The refusal's number; else as the service says.
    pub first: u64,
    /// The refusal's place; else as the service says.
    pub second: u64,
    /// As the service says.
    pub count: u64,
}

impl Answer {
    /// Done, or ROBUST.
    pub const DONE: u64 = 0;
    /// OPEN, of the services that judge.
    pub const OPEN: u64 = 1;
    /// Refused, and [`Answer::refusal`] says why.
    pub const REFUSED: u64 = 2;
}

mod archive {
    use super::Answer;

    // a pointer and a length apart: that is how the archive takes a slice
    unsafe extern "C" {
        pub fn nyekushiro_read(listing: *const u8, listing_len: usize) -> Answer;
        pub fn nyekushiro_judge(
            question: u64,
            listing: *const u8,
            listing_len: usize,
            chain: *mut u8,
            chain_len: usize,
        ) -> Answer;
        pub fn nyekushiro_judge_patch(
            question: u64,
            listing: *const u8,
            listing_len: usize,
            map: *const u8,
            map_len: usize,
            chain: *mut u8,
            chain_len: usize,
        ) -> Answer;
        pub fn nyekushiro_propose(question: u64, listing: *const u8, listing_len: usize, map: *mut u8, map_len: usize) -> Answer;
        pub fn nyekushiro_write(
            listing: *const u8,
            listing_len: usize,
            map: *const u8,
            map_len: usize,
            out: *mut u8,
            out_len: usize,
        ) -> Answer;
        pub fn nyekushiro_text(text: *const u8, text_len: usize, out: *mut u8, out_len: usize) -> Answer;
    }
}

// Each call is sound: the pointers and lengths are those of slices that live through it, a lent buffer is borrowed alone, and
// the services take every content and every length.

/// `first` is the number of nodes, `second` the number of routines.
pub fn read(listing: &[u8]) -> Answer {
    unsafe { archive::nyekushiro_read(listing.as_ptr(), listing.len()) }
}

/// ROBUST, or OPEN: `first` and `second` are the first failing pair, and `count` pairs, two bytes each, stand at the start of
/// `chain`, which must have [`CHAIN_BUFFER`] bytes.
pub fn judge(question: u64, listing: &[u8], chain: &mut [u8]) -> Answer {
    unsafe { archive::nyekushiro_judge(question, listing.as_ptr(), listing.len(), chain.as_mut_ptr(), chain.len()) }
}

/// As [`judge`], with a fence after every node whose byte of `map` is 1.
pub fn judge_patch(question: u64, listing: &[u8], map: &[u8], chain: &mut [u8]) -> Answer {
    unsafe {
        archive::nyekushiro_judge_patch(
            question,
            listing.as_ptr(),
            listing.len(),
            map.as_ptr(),
            map.len(),
            chain.as_mut_ptr(),
            chain.len(),
        )
    }
}

/// `count` is the number of places. The first bytes of `map`, one a node, hold 1 for each place and 0 elsewhere.
pub fn propose(question: u64, listing: &[u8], map: &mut [u8]) -> Answer {
    unsafe { archive::nyekushiro_propose(question, listing.as_ptr(), listing.len(), map.as_mut_ptr(), map.len()) }
}

/// `count` is the length of the patched listing, which stands at the start of `out`.
pub fn write(listing: &[u8], map: &[u8], out: &mut [u8]) -> Answer {
    unsafe { archive::nyekushiro_write(listing.as_ptr(), listing.len(), map.as_ptr(), map.len(), out.as_mut_ptr(), out.len()) }
}

/// `count` is the length of the typed text's listing, which stands at the start of `out`.
pub fn text(text: &[u8], out: &mut [u8]) -> Answer {
    unsafe { archive::nyekushiro_text(text.as_ptr(), text.len(), out.as_mut_ptr(), out.len()) }
}
