//! Listings by chance: good ones, of every shape, in which every node is its routine's entry or reached from it; and some in which nobody
//! looks to that.

use crate::links::{in_order, link_in};
use crate::numbers::{
    is_access, ACQUIRE, ACQUIRE_PC, FENCE, LAST_CELL, LOAD_FENCE, NONE, PLAIN, READ, RELEASE, RMW, ROUTINES, STORE_FENCE,
    VERSIONS, WRITE,
};
use crate::random::Random;
use crate::rings::{go_on, Ring};
use crate::sketch::{bytes, Record};

/// How the nodes of a routine lead to each other.
#[derive(Clone, Copy)]
enum Links {
    /// to the next one
    Line,
    /// the lowest number to the highest, and each down to the one before
    Downward,
    /// to the next one, at times to a later one as well
    Branches,
    /// as branches, at times back
    Loops,
    /// as loops, but in any order after the lowest number
    AnyOrder,
    /// anywhere, itself included, or nowhere
    Anywhere,
    /// in pieces of a few nodes, to which nothing leads yet
    Pieces,
}

/// Those of a listing, most of them twice as often as others.
const LINKS: [Links; 12] = [
    Links::Line,
    Links::Line,
    Links::Downward,
    Links::Branches,
    Links::Branches,
    Links::Loops,
    Links::Loops,
    Links::AnyOrder,
    Links::Anywhere,
    Links::Anywhere,
    Links::Pieces,
    Links::Pieces,
];

/// Which locations the accesses have.
struct Palette {
    cells: usize,
    unknown_once_in: usize,
    block_once_in: usize,
}

/// What a listing's palette is chosen from.
struct Palettes {
    cells: &'static [usize],
    unknown_once_in: &'static [usize],
    block_once_in: &'static [usize],
}

/// The kinds of a listing's nodes, each as often as it stands there.
type Kinds = &'static [u8];

/// Which kinds the listings of a version have.
struct Choices {
    version: u8,
    mixed: &'static [Kinds],
    /// cells are read that few write, or nobody does
    few_writers: &'static [Kinds],
    /// the ends of a ring's pieces, and what may stand between them
    ends: &'static [[u8; 2]],
    between: Kinds,
    /// the accesses of short routines that hand something over
    accesses: Kinds,
}

const CHOICES: [Choices; VERSIONS.len()] = [
    Choices {
        version: 1,
        mixed: &[
            &[READ, WRITE],
            &[READ, WRITE, READ, WRITE, RMW, FENCE, PLAIN],
            &[READ, WRITE, RMW, RMW],
            &[READ, WRITE, FENCE, FENCE, PLAIN],
            &[WRITE, READ, READ, READ, READ, FENCE, RMW],
        ],
        few_writers: &[
            &[READ, READ, READ, READ, READ, WRITE],
            &[READ, READ, READ, READ, READ, RMW],
            &[READ, READ, READ, PLAIN, FENCE],
        ],
        ends: &[[READ, WRITE], [WRITE, READ], [WRITE, WRITE], [RMW, READ]],
        between: &[PLAIN, FENCE],
        accesses: &[READ, READ, WRITE, WRITE, RMW],
    },
    Choices {
        version: 2,
        mixed: &[
            &[READ, WRITE, ACQUIRE, RELEASE],
            &[WRITE, ACQUIRE, RELEASE, ACQUIRE_PC, LOAD_FENCE],
            &[READ, WRITE, READ, WRITE, LOAD_FENCE, STORE_FENCE],
            &[WRITE, RELEASE, ACQUIRE, STORE_FENCE],
            &[READ, RELEASE, ACQUIRE, LOAD_FENCE],
            &[RELEASE, ACQUIRE, ACQUIRE_PC, READ, RMW],
            &[RMW, RELEASE, ACQUIRE, LOAD_FENCE, STORE_FENCE],
            &[PLAIN, READ, WRITE, RMW, FENCE, ACQUIRE, RELEASE, LOAD_FENCE, STORE_FENCE, ACQUIRE_PC],
            &[READ, WRITE, RMW, FENCE],
        ],
        few_writers: &[
            &[READ, ACQUIRE, ACQUIRE_PC, READ, ACQUIRE, RELEASE],
            &[READ, READ, ACQUIRE, READ, ACQUIRE_PC, WRITE],
            &[READ, ACQUIRE_PC, READ, ACQUIRE, READ, RMW],
            &[READ, ACQUIRE, ACQUIRE_PC, PLAIN, LOAD_FENCE, STORE_FENCE],
        ],
        ends: &[[RELEASE, ACQUIRE_PC], [RELEASE, ACQUIRE], [WRITE, ACQUIRE], [RELEASE, WRITE], [READ, WRITE], [ACQUIRE, READ]],
        between: &[PLAIN, FENCE, LOAD_FENCE, STORE_FENCE],
        accesses: &[READ, WRITE, RMW, ACQUIRE, ACQUIRE, RELEASE, RELEASE, ACQUIRE_PC],
    },
];

const ANY: Palettes = Palettes { cells: &[1, 2, 3, 5, 12, 200], unknown_once_in: &[4, 20, 1000], block_once_in: &[2, 8, 1000] };
const FEW_CELLS: Palettes = Palettes { cells: &[1, 2, 3, 5], ..ANY };
/// Few accesses are of one known cell.
const VAGUE: Palettes = Palettes { cells: &[1, 2, 3], unknown_once_in: &[2, 4, 20], block_once_in: &[2, 2, 8] };

/// A good listing with this many nodes, of either version.
pub fn random_listing(random: &mut Random, nodes: usize) -> Vec<u8> {
    let version = random.one_of(&VERSIONS);
    random_listing_of(random, version, nodes)
}

/// A good listing of this version with this many nodes.
pub fn random_listing_of(random: &mut Random, version: u8, nodes: usize) -> Vec<u8> {
    let choices = Choices::of(version);
    if random.once_in(6) {
        return ring(random, choices, nodes);
    }
    if random.once_in(12) {
        return lonely_line(random, choices, nodes);
    }
    if nodes >= 4 && random.once_in(6) {
        return handed_over(random, choices, nodes);
    }
    let most = random.one_of(&[4, 4, 4, ROUTINES]);
    let routines = random.from_to(1, most);
    of_any_links(random, choices, nodes, routines, &ANY)
}

/// A good listing with this many nodes, of either version, with many blocks and unknown locations: pairs may be joined to themselves.
pub fn vague_listing(random: &mut Random, nodes: usize) -> Vec<u8> {
    let choices = Choices::of(random.one_of(&VERSIONS));
    let routines = random.from_to(1, 3);
    of_any_links(random, choices, nodes, routines, &VAGUE)
}

/// A good listing of this version in which two or three short routines hand something over: on what stands between two accesses, and on
/// their kinds, more hangs than in others.
pub fn short_routines(random: &mut Random, version: u8) -> Vec<u8> {
    let nodes = random.from_to(4, 12);
    handed_over(random, Choices::of(version), nodes)
}

/// A good listing of either version for the search through everything: at most five nodes and four accesses, or a ring of at most four
/// pieces, whose chains have more pairs.
pub fn tiny_listing(random: &mut Random) -> Vec<u8> {
    loop {
        let choices = Choices::of(random.one_of(&VERSIONS));
        if random.once_in(8) {
            let nodes = random.from_to(6, 9);
            return ring(random, choices, nodes);
        }
        let (nodes, routines) = (random.from_to(1, 5), random.from_to(1, 2));
        let listing = of_any_links(random, choices, nodes, routines, &FEW_CELLS);
        if Record::all(&listing).iter().filter(|record| is_access(record.kind)).count() <= 4 {
            return listing;
        }
    }
}

/// A listing with this many nodes, of either version, that breaks no rule before 18: a routine's entry need not lead to all of its nodes.
pub fn loose_listing(random: &mut Random, nodes: usize) -> Vec<u8> {
    let choices = Choices::of(random.one_of(&VERSIONS));
    let (routines, links) = (random.from_to(1, 3), random.one_of(&[Links::Anywhere, Links::Anywhere, Links::Pieces]));
    let records = records(random, nodes, routines, links, &ANY, choices.mixed);
    bytes(choices.version, routines as u8, &records)
}

/// A good listing of four routines with loops and every kind of its version.
pub fn woven(random: &mut Random, version: u8, nodes: usize) -> Vec<u8> {
    let choices = Choices::of(version);
    bytes(version, 4, &records(random, nodes, 4, Links::Loops, &ANY, choices.mixed))
}

impl Choices {
    fn of(version: u8) -> &'static Choices {
        CHOICES.iter().find(|choices| choices.version == version).expect("there is such a version")
    }
}

fn of_any_links(random: &mut Random, choices: &Choices, nodes: usize, routines: usize, palettes: &Palettes) -> Vec<u8> {
    let links = random.one_of(&LINKS);
    let kinds = if random.once_in(4) { choices.few_writers } else { choices.mixed };
    let mut records = records(random, nodes, routines, links, palettes, kinds);
    let routines = link_in(random, &mut records, routines);
    bytes(choices.version, routines as u8, &records)
}

/// Records that lead to each other, but for pieces and for those that lead anywhere: there a routine's entry need not lead to all.
fn records(
    random: &mut Random,
    nodes: usize,
    routines: usize,
    links: Links,
    palettes: &Palettes,
    kinds: &[Kinds],
) -> Vec<Record> {
    let owners = owners(random, nodes, routines);
    let own: Vec<Vec<u8>> = (0..routines).map(|routine| order(random, links, &owners, routine as u8)).collect();
    let palette = Palette {
        cells: random.one_of(palettes.cells),
        unknown_once_in: random.one_of(palettes.unknown_once_in),
        block_once_in: random.one_of(palettes.block_once_in),
    };
    let kinds = random.one_of(kinds);
    let record = |node: usize| {
        let routine = owners[node];
        let (first, second) = successors(random, links, &own[routine as usize], node as u8);
        let kind = random.one_of(kinds);
        let location = if is_access(kind) { palette.location(random) } else { 0 };
        Record { routine, kind, location, first, second }
    };
    (0..nodes).map(record).collect()
}

/// A routine for each node: one after another, or mixed.
fn owners(random: &mut Random, nodes: usize, routines: usize) -> Vec<u8> {
    let mut owners: Vec<u8> = (0..nodes).map(|_| random.below(routines) as u8).collect();
    if !random.once_in(3) {
        owners.sort_unstable();
    }
    owners
}

/// A routine's nodes in the order in which they lead to each other; the first is its entry and has the lowest number.
fn order(random: &mut Random, links: Links, owners: &[u8], routine: u8) -> Vec<u8> {
    let mut own: Vec<u8> = (0..).zip(owners).filter(|(_, owner)| **owner == routine).map(|(node, _)| node).collect();
    let Some((_, others)) = own.split_first_mut() else { return own };
    match links {
        Links::Downward => others.reverse(),
        Links::AnyOrder => shuffle(random, others),
        _ => {}
    }
    own
}

fn shuffle<T>(random: &mut Random, items: &mut [T]) {
    for at in (1..items.len()).rev() {
        items.swap(at, random.below(at + 1));
    }
}

impl Palette {
    fn location(&self, random: &mut Random) -> u16 {
        let number = random.from_to(1, self.cells) as u16;
        if random.once_in(self.unknown_once_in) {
            0
        } else if random.once_in(self.block_once_in) {
            LAST_CELL + number
        } else if random.once_in(50) {
            random.one_of(&[LAST_CELL, u16::MAX])
        } else {
            number
        }
    }
}

/// The successors of a node among its routine's nodes, `own`, which are in their order.
fn successors(random: &mut Random, links: Links, own: &[u8], node: u8) -> (u8, u8) {
    let at = own.iter().position(|&other| other == node).expect("a node is of its own routine");
    let next = own.get(at + 1).copied();
    let later = |random: &mut Random| own[random.from_to(at, own.len() - 1)];
    let any = |random: &mut Random| own[random.below(own.len())];
    let (one, other) = match links {
        Links::Line | Links::Downward => (next, None),
        Links::Branches => (next, random.once_in(3).then(|| later(random)).filter(|&other| other > node)),
        Links::Loops | Links::AnyOrder => (next, random.once_in(3).then(|| any(random))),
        Links::Anywhere => ((!random.once_in(4)).then(|| any(random)), random.once_in(2).then(|| any(random))),
        Links::Pieces => (if random.once_in(3) { None } else { next }, None),
    };
    in_order(one, other)
}

/// A ring of pieces of two or three nodes, in any order.
fn ring(random: &mut Random, choices: &Choices, nodes: usize) -> Vec<u8> {
    let ring = Ring::fitting(random.from_to(2, 3), random.from_to(1, ROUTINES), nodes);
    let mut cells: Vec<usize> = (0..ring.pieces).collect();
    shuffle(random, &mut cells);
    let (fenced, ends) = (random.once_in(4), random.one_of(choices.ends));
    let records = ring.records(nodes, |piece, at| match at {
        0 => (ends[0], 1 + cells[piece] as u16),
        _ if at + 1 == ring.size => (ends[1], 1 + ((cells[piece] + 1) % ring.pieces) as u16),
        _ => (if fenced { random.one_of(choices.between) } else { PLAIN }, 0),
    });
    bytes(choices.version, ring.routines as u8, &records)
}

/// Two or three lines that lead from one cell to the next and around, each of two accesses with at most two nodes between them, which
/// the first may lead past; and plain nodes after them where more are asked for.
fn handed_over(random: &mut Random, choices: &Choices, nodes: usize) -> Vec<u8> {
    let lines = random.from_to(2, 3).min(nodes / 2);
    let mut records = Vec::new();
    for line in 0..lines {
        let others = 2 * (lines - line - 1);
        let between = random.below(3).min(nodes - others - 2 - records.len());
        let (first, last) = (records.len() as u8, (records.len() + between) as u8 + 1);
        for number in first..=last {
            let (kind, location) = match number {
                _ if number == first => (random.one_of(choices.accesses), 1 + line),
                _ if number == last => (random.one_of(choices.accesses), 1 + (line + 1) % lines),
                _ if random.once_in(6) => (RMW, random.from_to(1, lines + 1)),
                _ if random.once_in(6) => (random.one_of(choices.accesses), random.from_to(1, lines + 1)),
                _ => (random.one_of(choices.between), 0),
            };
            let leads_past = number == first && between > 0 && random.once_in(4);
            let (first, second) = if number == last { (NONE, NONE) } else { (number + 1, if leads_past { last } else { NONE }) };
            records.push(Record { routine: line as u8, kind, location: location as u16, first, second });
        }
    }
    go_on(&mut records, nodes);
    bytes(choices.version, lines as u8, &records)
}

/// One line of accesses of which few meet: pairs without end, and hardly a chain.
fn lonely_line(random: &mut Random, choices: &Choices, nodes: usize) -> Vec<u8> {
    let kinds: Vec<u8> = random.one_of(choices.mixed).iter().copied().filter(|&kind| is_access(kind)).collect();
    let records: Vec<Record> = (0..nodes)
        .map(|node| {
            let location = if random.once_in(40) { random.below(4) } else { 1 + node } as u16;
            let first = if node + 1 < nodes { node as u8 + 1 } else { NONE };
            Record { routine: 0, kind: random.one_of(&kinds), location, first, second: NONE }
        })
        .collect();
    bytes(choices.version, 1, &records)
}
