//! The table of refusals, row by row: a smallest input, and its place.

use nyekushiro::raw;
use nyekushiro::{judge, judge_patch, propose, read, text, write, Place, Question, Reason, Refusal, Size};

/// A listing of one routine with these records.
fn listing(records: &[[u8; 6]]) -> Vec<u8> {
    [&[0x4F, 0x52, 0x44, 1, 0, 1, records.len() as u8], &records.concat()[..]].concat()
}

const PLAIN: [u8; 6] = [0, 0, 0, 0, 255, 255];

/// A plain node that leads to this one.
const fn to(next: u8) -> [u8; 6] {
    [0, 0, 0, 0, next, 255]
}

/// A listing of one routine with so many plain nodes, each of which leads to the next.
fn line(nodes: u8) -> Vec<u8> {
    let record = |node| if node + 1 < nodes { to(node + 1) } else { PLAIN };
    listing(&(0..nodes).map(record).collect::<Vec<_>>())
}

#[test]
fn every_row() {
    let full = line(128);
    let read = |bytes: &[u8]| read(bytes).unwrap_err();
    let node = Some(Place::Node(1));
    let rows: [(Refusal, Option<Place>); Reason::ALL.len()] = [
        // a `Question` is never refused, and a wrapper's own buffer neither
        (raw::judge(0, &[], &mut []).refusal().unwrap(), None),
        (read(b"ORD"), None),
        (read(b"ARD\x01\x00\x01\x00"), None),
        (read(b"ORD\x03\x00\x01\x00"), None),
        (read(b"ORD\x01\x00\x00\x00"), None),
        (read(b"ORD\x01\x00\x01\x81"), None),
        (read(b"ORD\x01\x00\x01\x01"), None),
        (read(&listing(&[PLAIN, [1, 0, 0, 0, 255, 255]])), node),
        (read(&listing(&[PLAIN, [0, 5, 0, 0, 255, 255]])), node),
        (read(&listing(&[PLAIN, [0, 4, 0, 1, 255, 255]])), node),
        (read(&listing(&[PLAIN, [0, 0, 0, 0, 2, 255]])), node),
        (read(&listing(&[PLAIN, [0, 0, 0, 0, 255, 0]])), node),
        (judge_patch(Question::ScOnX86, &listing(&[PLAIN]), &[]).unwrap_err(), None),
        (write(&line(2), &[1, 2]).unwrap_err(), Some(Place::Index(1))),
        (write(&full, &[&[1], &[0; 127][..]].concat()).unwrap_err(), None),
        (raw::write(&full, &[0; 128], &mut [0; raw::LISTING_BUFFER - 1]).refusal().unwrap(), None),
        (text(b"routine { }").unwrap_err(), Some(Place::Byte(10))),
        (read(&listing(&[PLAIN, PLAIN])), node),
    ];
    for (reason, (refusal, place)) in Reason::ALL.into_iter().zip(rows) {
        assert_eq!(refusal, Refusal { reason, place });
    }
}

/// Each service that takes a listing gives 18, after 12 on all nodes and before 13.
#[test]
fn unreached_nodes_are_refused_by_every_service() {
    let unreached = Refusal { reason: Reason::Unreached, place: Some(Place::Node(2)) };
    for nodes in
        [&[to(1), PLAIN, PLAIN][..], &[to(1), PLAIN, to(2)], &[to(1), PLAIN, to(3), to(2)], &[to(1), PLAIN, to(0), PLAIN]]
    {
        let listing = listing(nodes);
        assert_eq!(read(&listing).unwrap_err(), unreached);
        for question in Question::ALL {
            assert_eq!(judge(question, &listing).unwrap_err(), unreached);
            assert_eq!(judge_patch(question, &listing, &[]).unwrap_err(), unreached);
            assert_eq!(propose(question, &listing).unwrap_err(), unreached);
            assert_eq!(raw::propose(question.into(), &listing, &mut []).refusal().unwrap(), unreached);
        }
        assert_eq!(write(&listing, &[2]).unwrap_err(), unreached);
        assert_eq!(raw::write(&listing, &vec![0; nodes.len()], &mut []).refusal().unwrap(), unreached);
    }
    // a map with too many places; and node 2, which breaks 12, although node 1 is not reached
    let mut many = line(65);
    many[7 + 6 * 63 + 4] = 255;
    assert_eq!(write(&many, &[1; 65]).unwrap_err(), Refusal { reason: Reason::Unreached, place: Some(Place::Node(64)) });
    let later = listing(&[PLAIN, PLAIN, [0, 0, 0, 0, 255, 0]]);
    assert_eq!(read(&later).unwrap_err(), Refusal { reason: Reason::SecondSuccessor, place: Some(Place::Node(2)) });
}

#[test]
fn version_says_which_kinds_there_are() {
    let node = |version, kind, location| {
        let listing = [&[0x4F, 0x52, 0x44, version, 0, 1, 1][..], &[0, kind, location, 0, 255, 255]].concat();
        read(&listing).map_err(|refusal| refusal.reason)
    };
    for (version, last) in [(1, 4), (2, 9)] {
        for kind in 0..=255 {
            let one = Size { nodes: 1, routines: 1 };
            let expected = if kind <= last { Ok(one) } else { Err(Reason::Kind) };
            assert_eq!(node(version, kind, 0), expected, "version {version}, kind {kind}");
        }
    }
    // a load or store fence has no location; where the version has no such fence, that is said first
    for kind in [7, 8] {
        assert_eq!((node(1, kind, 1), node(2, kind, 1)), (Err(Reason::Kind), Err(Reason::Location)));
    }
}
