//! One call, asked of both sides.

use inputs::{Call, Random};
use nyekushiro::raw;

use crate::{Service, Side};

/// Bytes on both sides of a lent buffer that are not lent.
const MARGIN: usize = 16;

/// The answer of both sides to the call, each lent a buffer with the same bytes; or in words how the answers differ, or what they
/// wrote there.
pub fn ask_both(service: Service, call: &Call, random: &mut Random) -> Result<raw::Answer, String> {
    let before: Vec<u8> = (0..service.room(call) + 2 * MARGIN).map(|_| random.byte()).collect();
    let proved = ask(service, Side::Proved, call, &before);
    let expected = ask(service, Side::Straightforward, call, &before);
    if proved == expected {
        return Ok(proved.0);
    }
    Err(format!("{service:?} differs\n  proved   {proved:?}\n  expected {expected:?}\n  before   {before:?}\n  {call:?}"))
}

/// The answer, and the lent buffer with its margins afterwards.
fn ask(service: Service, side: Side, call: &Call, before: &[u8]) -> (raw::Answer, Vec<u8>) {
    let mut buffer = before.to_vec();
    let end = buffer.len() - MARGIN;
    let answer = service.ask(side, call, &mut buffer[MARGIN..end]);
    (answer, buffer)
}

/// A number that the caller may set in the environment.
pub fn setting(name: &str, usual: u64) -> u64 {
    match std::env::var(name) {
        Ok(words) => words.parse().unwrap_or_else(|_| panic!("{name} is {words:?}: give a number")),
        Err(_) => usual,
    }
}
