//! Texts of one shape and any length, for timings and for the stack.

/// Makes a text of about so many bytes, and never fewer.
pub type LongText = fn(usize) -> Vec<u8>;

/// One part of nothing but items.
pub fn items(length: usize) -> Vec<u8> {
    let item = b"r 1 ";
    [b"routine { ", &item.repeat(length.div_ceil(item.len()))[..], b"}"].concat()
}

/// As deep as a text may nest, in first blocks, with blanks inside.
pub fn nested_blanks(length: usize) -> Vec<u8> {
    let blanks = b" \r\n \n".iter().cycle().take(length).copied().collect::<Vec<_>>();
    [b"routine { ", &b"either { ".repeat(8)[..], &blanks, b"f", &b" } { f }".repeat(8), b" }"].concat()
}
