//! The listing: what its bytes mean, once they are known to be good, and the bytes of a listing.

/// Bytes of the heading.
pub const HEADING: usize = 7;
/// Bytes of a record.
pub const RECORD: usize = 6;
/// The most nodes of a listing.
pub const MOST_NODES: usize = 128;
/// The most routines of a listing.
pub const MOST_ROUTINES: usize = 16;
/// "Successor 255 means none."
pub const NONE: u8 = 255;

/// "A 16-bit version (1 or 2)"
pub const VERSIONS: [u16; 2] = [1, 2];

/// "0 plain, 1 read, 2 write, 3 read-modify-write that always completes (RMW), 4 full fence. Version 2 adds kind 5 acquire read,
/// 6 release write, 7 load fence, 8 store fence, 9 acquirePC read."
#[derive(Clone, Copy, Debug, PartialEq, Eq)]
pub enum Kind {
    Plain,
    Read,
    Write,
    Rmw,
    Fence,
    Acquire,
    Release,
    LoadFence,
    StoreFence,
    AcquirePc,
}

/// Some of the kinds, by number.
pub type Kinds = [bool; Kind::ALL.len()];

impl Kind {
    /// By number; version 1 has those up to the fence.
    pub const ALL: [Kind; 10] = [
        Kind::Plain,
        Kind::Read,
        Kind::Write,
        Kind::Rmw,
        Kind::Fence,
        Kind::Acquire,
        Kind::Release,
        Kind::LoadFence,
        Kind::StoreFence,
        Kind::AcquirePc,
    ];

    /// The kind that the byte says in a listing of this version.
    pub fn of(version: u16, byte: u8) -> Option<Kind> {
        let last = if version == 1 { Kind::Fence } else { Kind::AcquirePc };
        Kind::ALL[..=last as usize].get(byte as usize).copied()
    }

    /// "Kinds 1 to 3, 5, 6 and 9 are accesses."
    pub fn is_access(self) -> bool {
        matches!(self, Kind::Read | Kind::Write | Kind::Rmw | Kind::Acquire | Kind::Release | Kind::AcquirePc)
    }

    /// "Kinds 1, 5 and 9 count as reads"
    pub fn is_read(self) -> bool {
        matches!(self, Kind::Read | Kind::Acquire | Kind::AcquirePc)
    }

    /// "2 and 6 as writes, 3 as an RMW, which is neither"
    pub fn is_write(self) -> bool {
        matches!(self, Kind::Write | Kind::Release)
    }

    /// "A write or an RMW"
    pub fn writes(self) -> bool {
        self.is_write() || self == Kind::Rmw
    }
}

#[derive(Clone, Debug, PartialEq, Eq)]
pub struct Node {
    pub routine: u8,
    pub kind: Kind,
    pub location: u16,
    pub successors: [Option<usize>; 2],
}

impl Node {
    pub fn next(&self) -> impl Iterator<Item = usize> + '_ {
        self.successors.iter().flatten().copied()
    }
}

#[derive(Clone, Debug, PartialEq, Eq)]
pub struct Listing {
    pub version: u16,
    pub routines: u8,
    pub nodes: Vec<Node>,
}

impl Listing {
    /// The accesses' numbers, upward.
    pub fn accesses(&self) -> impl Iterator<Item = usize> + '_ {
        (0..self.nodes.len()).filter(|&node| self.nodes[node].kind.is_access())
    }

    /// The kinds that its nodes have.
    pub fn kinds(&self) -> Kinds {
        let mut kinds = Kinds::default();
        for node in &self.nodes {
            kinds[node.kind as usize] = true;
        }
        kinds
    }

    /// The listing's bytes.
    pub fn bytes(&self) -> Vec<u8> {
        let [version, high] = self.version.to_le_bytes();
        let mut bytes = vec![b'O', b'R', b'D', version, high, self.routines, self.nodes.len() as u8];
        for node in &self.nodes {
            let [low, high] = node.location.to_le_bytes();
            let link = |successor: Option<usize>| successor.map_or(NONE, |node| node as u8);
            bytes.extend([node.routine, node.kind as u8, low, high, link(node.successors[0]), link(node.successors[1])]);
        }
        bytes
    }
}
