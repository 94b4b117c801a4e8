//! The table of refusals, a function for each input of a service. A service asks for its inputs in the table's order.

use crate::entries::first_unreached;
use crate::listing::{Kind, Listing, Node, HEADING, MOST_NODES, MOST_ROUTINES, NONE, RECORD, VERSIONS};
use crate::need::Question;
use crate::nodes;
use crate::tree::{self, Block};

#[derive(Clone, Copy, Debug, PartialEq, Eq)]
pub struct Refusal {
    pub number: u64,
    pub place: u64,
}

fn refuse<T>(number: u64, place: usize) -> Result<T, Refusal> {
    Err(Refusal { number, place: place as u64 })
}

/// Refusal 1.
pub fn question(number: u64) -> Result<Question, Refusal> {
    match number {
        1 => Ok(Question::ScOnX86),
        2 => Ok(Question::ScOnArmv7),
        3 => Ok(Question::X86OnArmv7),
        4 => Ok(Question::Armv8OnArmv7),
        5 => Ok(Question::ScOnArmv8),
        6 => Ok(Question::X86OnArmv8),
        _ => refuse(1, 0),
    }
}

/// Refusals 2 to 12, and then 18.
pub fn listing(bytes: &[u8]) -> Result<Listing, Refusal> {
    if bytes.len() < HEADING {
        return refuse(2, 0);
    }
    if bytes[0..3] != [0x4F, 0x52, 0x44] {
        return refuse(3, 0);
    }
    let version = u16::from_le_bytes([bytes[3], bytes[4]]);
    if !VERSIONS.contains(&version) {
        return refuse(4, 0);
    }
    let (routines, count) = (bytes[5], bytes[6] as usize);
    limits(routines as usize, count)?;
    if bytes.len() != HEADING + RECORD * count {
        return refuse(7, 0);
    }
    let records: Vec<&[u8]> = bytes[HEADING..].chunks(RECORD).collect();
    let mut nodes = Vec::new();
    for number in 0..count {
        nodes.push(node(version, routines, &records, number)?);
    }
    let listing = Listing { version, routines, nodes };
    match first_unreached(&listing) {
        Some(number) => refuse(18, number),
        None => Ok(listing),
    }
}

/// Refusals 5 and 6.
fn limits(routines: usize, nodes: usize) -> Result<(), Refusal> {
    if routines == 0 || routines > MOST_ROUTINES {
        return refuse(5, 0);
    }
    if nodes > MOST_NODES {
        return refuse(6, 0);
    }
    Ok(())
}

/// Refusals 8 to 12, "all tried on node 0, then on node 1, and so on".
fn node(version: u16, routines: u8, records: &[&[u8]], number: usize) -> Result<Node, Refusal> {
    let record = records[number];
    let routine = record[0];
    if routine >= routines {
        return refuse(8, number);
    }
    let Some(kind) = Kind::of(version, record[1]) else {
        return refuse(9, number);
    };
    let location = u16::from_le_bytes([record[2], record[3]]);
    if !kind.is_access() && location != 0 {
        return refuse(10, number);
    }
    let (first, second) = (record[4], record[5]);
    for successor in [first, second] {
        if successor != NONE && records.get(successor as usize).is_none_or(|other| other[0] != routine) {
            return refuse(11, number);
        }
    }
    if second != NONE && (first == NONE || second <= first) {
        return refuse(12, number);
    }
    let link = |byte: u8| (byte != NONE).then_some(byte as usize);
    Ok(Node { routine, kind, location, successors: [link(first), link(second)] })
}

/// Refusals 17, 5 and 6, in that order: the blocks of a text's parts.
pub fn text(bytes: &[u8]) -> Result<Vec<Block>, Refusal> {
    let parts = tree::parts(bytes).or_else(|place| refuse(17, place))?;
    limits(parts.len(), parts.iter().map(nodes::count).sum())?;
    Ok(parts)
}

/// Refusals 13 to 15: after which nodes a fence is put.
pub fn map(bytes: &[u8], listing: &Listing) -> Result<Vec<bool>, Refusal> {
    if bytes.len() != listing.nodes.len() {
        return refuse(13, 0);
    }
    if let Some(index) = bytes.iter().position(|&byte| byte > 1) {
        return refuse(14, index);
    }
    let fenced: Vec<bool> = bytes.iter().map(|&byte| byte == 1).collect();
    places(&fenced)?;
    Ok(fenced)
}

/// Refusal 15, or how many places the map has.
pub fn places(fenced: &[bool]) -> Result<usize, Refusal> {
    let places = fenced.iter().filter(|&&fence| fence).count();
    if fenced.len() + places > MOST_NODES {
        return refuse(15, 0);
    }
    Ok(places)
}

/// Refusal 16.
pub fn room(lent: &[u8], wanted: usize) -> Result<(), Refusal> {
    if lent.len() < wanted {
        return refuse(16, 0);
    }
    Ok(())
}
