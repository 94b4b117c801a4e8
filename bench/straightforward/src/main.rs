//! `straightforward < INPUT`: the judge program's line, worked out by the text of the rules. INPUT is a byte for the question,
//! then the listing.

use std::io::{self, Read};

fn main() -> io::Result<()> {
    let mut input = Vec::new();
    io::stdin().read_to_end(&mut input)?;
    println!("{}", straightforward::program(&input));
    Ok(())
}
