//! Long texts: as many bytes as may come, and no more stack for them.

use std::thread;

use inputs::{items, length, nested_blanks, DEEPEST};
use nyekushiro::raw;

/// What a thread takes by itself, and more than the deepest call that bench/stack measures; far less than a byte for each item.
const STACK: usize = 64 << 10;

const LONG: usize = 64 << 20;

fn ask_on_a_small_stack(text: Vec<u8>) -> raw::Answer {
    let ask = move || raw::text(&text, &mut [0; raw::LISTING_BUFFER]);
    thread::Builder::new().stack_size(STACK).spawn(ask).unwrap().join().unwrap()
}

fn listing(nodes: usize) -> raw::Answer {
    raw::Answer { kind: raw::Answer::DONE, first: 0, second: 0, count: length(nodes) as u64 }
}

fn refused(number: u64, place: usize) -> raw::Answer {
    raw::Answer { kind: raw::Answer::REFUSED, first: number, second: place as u64, count: 0 }
}

#[test]
fn items_without_end() {
    assert_eq!(ask_on_a_small_stack(items(1)), listing(1));
    assert_eq!(ask_on_a_small_stack(items(LONG)), refused(6, 0));
}

#[test]
fn bad_text_after_items_without_end() {
    let mut text = items(LONG);
    text.pop();
    let breaks_off = text.len();
    assert_eq!(ask_on_a_small_stack(text.clone()), refused(17, breaks_off));
    text.extend(b"} {");
    assert_eq!(ask_on_a_small_stack(text), refused(17, breaks_off + 2));
}

#[test]
fn blanks_without_end_as_deep_as_can_be() {
    // three nodes a level, and the innermost fence
    let nodes = 3 * DEEPEST + 1;
    assert_eq!(ask_on_a_small_stack(nested_blanks(1)), listing(nodes));
    assert_eq!(ask_on_a_small_stack(nested_blanks(LONG)), listing(nodes));
}
