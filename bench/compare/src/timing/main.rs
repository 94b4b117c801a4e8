//! `timing`: how long the proved services take beside the straightforward ones, on the same inputs and this machine.

mod listings;
mod texts;

fn main() {
    listings::print();
    println!();
    texts::print();
}
