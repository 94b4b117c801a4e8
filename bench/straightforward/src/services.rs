//! The six services over numbers and bytes, and the judge program.

use crate::chains::Pair;
use crate::listing::Listing;
use crate::need::Question;
use crate::nodes;
use crate::patch::patched;
use crate::refusals::{self, Refusal};
use crate::rules::Rules;
use crate::verdict::{failing, first_failing, first_nodes};

/// "The chain buffer must have 258 bytes."
pub const CHAIN_BUFFER: usize = 258;

/// What judging answers.
#[derive(Clone, Copy, Debug, PartialEq, Eq)]
pub enum Answer {
    Robust,
    Open { first: usize, second: usize, count: usize },
}

/// N and F.
pub fn read(listing: &[u8]) -> Result<(usize, usize), Refusal> {
    let listing = refusals::listing(listing)?;
    Ok((listing.nodes.len(), listing.routines as usize))
}

pub fn judge(question: u64, listing: &[u8], chain: &mut [u8]) -> Result<Answer, Refusal> {
    let question = refusals::question(question)?;
    let listing = refusals::listing(listing)?;
    refusals::room(chain, CHAIN_BUFFER)?;
    Ok(answer(question, &listing, chain))
}

pub fn judge_patch(question: u64, listing: &[u8], map: &[u8], chain: &mut [u8]) -> Result<Answer, Refusal> {
    let question = refusals::question(question)?;
    let listing = refusals::listing(listing)?;
    let fenced = refusals::map(map, &listing)?;
    refusals::room(chain, CHAIN_BUFFER)?;
    Ok(answer(question, &patched(&listing, &fenced), chain))
}

/// How many places the proposed map has.
pub fn propose(question: u64, listing: &[u8], map: &mut [u8]) -> Result<usize, Refusal> {
    let question = refusals::question(question)?;
    let listing = refusals::listing(listing)?;
    let fenced = first_nodes(question, &listing);
    let places = refusals::places(&fenced)?;
    refusals::room(map, fenced.len())?;
    for (byte, fence) in map.iter_mut().zip(fenced) {
        *byte = fence as u8;
    }
    Ok(places)
}

/// The length of the written listing.
pub fn write(listing: &[u8], map: &[u8], out: &mut [u8]) -> Result<usize, Refusal> {
    let listing = refusals::listing(listing)?;
    let fenced = refusals::map(map, &listing)?;
    put(&patched(&listing, &fenced), out)
}

/// The length of the typed text's listing.
pub fn text(text: &[u8], out: &mut [u8]) -> Result<usize, Refusal> {
    let parts = refusals::text(text)?;
    put(&nodes::listing(&parts), out)
}

/// Puts the listing at the start of the lent buffer, and says how long it is.
fn put(listing: &Listing, out: &mut [u8]) -> Result<usize, Refusal> {
    let bytes = listing.bytes();
    refusals::room(out, bytes.len())?;
    out[..bytes.len()].copy_from_slice(&bytes);
    Ok(bytes.len())
}

fn answer(question: Question, listing: &Listing, buffer: &mut [u8]) -> Answer {
    let Some(chain) = first_failing(question, listing) else {
        return Answer::Robust;
    };
    for (at, &(first, second)) in chain.iter().enumerate() {
        buffer[2 * at] = first as u8;
        buffer[2 * at + 1] = second as u8;
    }
    Answer::Open { first: chain[0].0, second: chain[0].1, count: chain.len() }
}

/// What would fail in the listing with this map by these rules: for each first node of a failing pair, upward, the chain to show of its
/// first one. The first chain would be shown, and their first nodes proposed. It is there for those who ask which answers turn on a rule.
pub fn failing_by(rules: &impl Rules, question: u64, listing: &[u8], map: &[u8]) -> Result<Vec<Vec<Pair>>, Refusal> {
    let question = refusals::question(question)?;
    let listing = refusals::listing(listing)?;
    let fenced = refusals::map(map, &listing)?;
    Ok(failing(question, &patched(&listing, &fenced), rules).collect())
}

/// The judge program's line for what it reads from standard input, without the line's end.
pub fn program(input: &[u8]) -> String {
    let (question, listing) = match input.split_first() {
        Some((&question, listing)) => (question, listing),
        None => (0, input),
    };
    let mut chain = [0; CHAIN_BUFFER];
    match judge(question as u64, listing, &mut chain) {
        Err(refusal) => format!("REFUSED {} {}", refusal.number, refusal.place),
        Ok(Answer::Robust) => "ROBUST".to_string(),
        Ok(Answer::Open { first, second, count }) => {
            let pairs: Vec<String> = chain[..2 * count].chunks(2).map(|pair| format!("{}-{}", pair[0], pair[1])).collect();
            format!("OPEN {first} {second} {count} {}", pairs.join(" "))
        }
    }
}
