//! The table of refusals: a smallest input for each row, and the order of the rows.

use inputs::{bytes, kinds, sketch, Record, ACQUIRE, ACQUIRE_PC, LOAD_FENCE, NONE, QUESTIONS, STORE_FENCE, VERSIONS};
use straightforward::{judge, judge_patch, propose, read, write, Refusal};

const A: &str = "w1 r2; w2 r1";

fn refused<T>(number: u64, place: u64) -> Result<T, Refusal> {
    Err(Refusal { number, place })
}

/// A version 1 listing of two routines whose node 1 is this one; node 0, which leads to it, and node 2 are plain, of routine 0 and 1.
fn with_node(kind: u8, location: u16, first: u8, second: u8) -> Vec<u8> {
    in_version(1, kind, location, first, second)
}

fn in_version(version: u8, kind: u8, location: u16, first: u8, second: u8) -> Vec<u8> {
    let plain = |routine, first| Record { routine, kind: 0, location: 0, first, second: NONE };
    bytes(version, 2, &[plain(0, 1), Record { routine: 0, kind, location, first, second }, plain(1, NONE)])
}

fn with_byte(at: usize, byte: u8) -> Vec<u8> {
    let mut listing = sketch(A);
    listing[at] = byte;
    listing
}

#[test]
fn rows_of_the_listing() {
    let cases: &[(Vec<u8>, u64, u64)] = &[
        (vec![], 2, 0),
        (b"ORD\x01\x00\x01".to_vec(), 2, 0),
        (with_byte(0, b'o'), 3, 0),
        (with_byte(2, b'E'), 3, 0),
        (with_byte(3, 0), 4, 0),
        (with_byte(3, 3), 4, 0),
        (with_byte(4, 1), 4, 0),
        (with_byte(5, 0), 5, 0),
        (with_byte(5, 17), 5, 0),
        (with_byte(6, 129), 6, 0),
        (with_byte(6, 3), 7, 0),
        (with_byte(6, 5), 7, 0),
        (sketch(A)[..30].to_vec(), 7, 0),
        ([sketch(A), vec![0]].concat(), 7, 0),
        (with_byte(7, 2), 8, 0),
        (with_byte(5, 1), 8, 2),
        (with_node(5, 0, NONE, NONE), 9, 1),
        (with_node(9, 1, NONE, NONE), 9, 1),
        (in_version(2, 10, 0, NONE, NONE), 9, 1),
        (in_version(2, 255, 0, NONE, NONE), 9, 1),
        // a version 1 listing has no load fence, be its location what it may
        (with_node(LOAD_FENCE, 1, NONE, NONE), 9, 1),
        (with_node(0, 1, NONE, NONE), 10, 1),
        (with_node(4, 256, NONE, NONE), 10, 1),
        (in_version(2, 0, 1, NONE, NONE), 10, 1),
        (in_version(2, 4, 1, NONE, NONE), 10, 1),
        (in_version(2, LOAD_FENCE, 1, NONE, NONE), 10, 1),
        (in_version(2, STORE_FENCE, 65535, NONE, NONE), 10, 1),
        (with_node(1, 1, 3, NONE), 11, 1),
        (with_node(1, 1, 254, NONE), 11, 1),
        (with_node(1, 1, 2, NONE), 11, 1),
        (with_node(1, 1, 0, 2), 11, 1),
        (with_node(1, 1, NONE, 3), 11, 1),
        (with_node(1, 1, NONE, 0), 12, 1),
        (with_node(1, 1, 1, 0), 12, 1),
        (with_node(1, 1, 1, 1), 12, 1),
        (in_version(2, ACQUIRE, 1, 2, NONE), 11, 1),
        (in_version(2, ACQUIRE_PC, 1, NONE, 0), 12, 1),
        // the entry leads nowhere, or to some and not to all
        (sketch("p>255 p"), 18, 1),
        (sketch("w1>255 r2; w2 r1"), 18, 1),
        (sketch("l1 a2>255 q2"), 18, 2),
        (sketch("p>1,2 p>255 p>255 p"), 18, 3),
        // what leads to it is not reached either
        (sketch("p>255 p>2 p>1"), 18, 1),
        (sketch("p>255 p>1"), 18, 1),
        (sketch("p p>255 p>0 p>1"), 18, 2),
        // a node that leads to all, and is not the lowest
        (sketch("p>255 p>0"), 18, 1),
        (sketch("p p>255 p>0"), 18, 2),
        // the lowest of all routines
        (sketch("p; p>255 p; p>255 p"), 18, 2),
        (mixed(&[0, 1, 1, 0]), 18, 2),
        (mixed(&[1, 0, 0, 1]), 18, 2),
    ];
    for (listing, number, place) in cases {
        assert_eq!(read(listing), refused(*number, *place), "{listing:?}");
        assert_eq!(judge(1, listing, &mut []), refused(*number, *place), "{listing:?}");
        assert_eq!(write(listing, &[9], &mut []), refused(*number, *place), "{listing:?}");
    }
}

/// A version 1 listing of two routines in which each node is of this one and leads nowhere.
fn mixed(routines: &[u8]) -> Vec<u8> {
    let record = |&routine: &u8| Record { routine, kind: 0, location: 0, first: NONE, second: NONE };
    bytes(1, 2, &routines.iter().map(record).collect::<Vec<_>>())
}

#[test]
fn good_at_the_edge() {
    for version in VERSIONS {
        for kind in 0..kinds(version) {
            assert_eq!(read(&in_version(version, kind, 0, NONE, NONE)), Ok((3, 2)), "version {version}, kind {kind}");
        }
    }
    for listing in
        [with_byte(3, 2), with_byte(5, 16), with_node(1, 65535, 0, 1), with_node(2, 0, 1, NONE), b"ORD\x01\x00\x01\x00".to_vec()]
    {
        assert!(read(&listing).is_ok(), "{listing:?}");
    }
    // entries alone, in any order of the routines; numbers that fall, on the way or back; what is reached past two others
    for listing in
        [mixed(&[0]), mixed(&[1]), mixed(&[1, 0]), sketch("p>3 p>255 p>1 p>2"), sketch("p>1 p>0"), sketch("p>2 p>255 p>1,2")]
    {
        assert!(read(&listing).is_ok(), "{listing:?}");
    }
}

/// "after 12 on all nodes, before 13"
#[test]
fn unreached_nodes_come_after_all_nodes_and_before_the_map() {
    // node 1 is not reached, and node 2 breaks 12, or 9
    for (kind, first, second, number) in [(0, NONE, 0, 12), (9, NONE, NONE, 9), (0, NONE, NONE, 18)] {
        let mut listing = sketch("p>255 p>255 p");
        listing[19 + 1] = kind;
        listing[19 + 4] = first;
        listing[19 + 5] = second;
        let place = if number == 18 { 1 } else { 2 };
        assert_eq!(read(&listing), refused(number, place));
        assert_eq!(propose(1, &listing, &mut []), refused(number, place));
    }
    // a map that is too short, that has another byte, that has too many places; no room for the answer
    let listing = sketch("p>255 p");
    for map in [&[][..], &[2, 0], &[0, 0]] {
        assert_eq!(judge_patch(1, &listing, map, &mut []), refused(18, 1));
        assert_eq!(write(&listing, map, &mut []), refused(18, 1));
    }
    assert_eq!(judge(1, &listing, &mut []), refused(18, 1));
    let many = sketch(&format!("{}p>255 p", "p ".repeat(63)));
    assert_eq!(write(&many, &[1; 65], &mut []), refused(18, 64));
    // and the question comes before all
    assert_eq!(judge(7, &listing, &mut []), refused(1, 0));
}

#[test]
fn question_comes_first() {
    for question in [0, QUESTIONS as u64 + 1, 257, (1 << 32) | 1, u64::MAX] {
        assert_eq!(judge(question, &[], &mut []), refused(1, 0));
        assert_eq!(judge_patch(question, &[], &[9], &mut []), refused(1, 0));
        assert_eq!(propose(question, &[], &mut []), refused(1, 0));
    }
    for question in 1..=QUESTIONS as u64 {
        assert_eq!(judge(question, &[], &mut []), refused(2, 0));
    }
}

#[test]
fn nodes_are_tried_one_after_the_other() {
    // node 0 breaks 12, node 1 breaks 8
    let mut listing = sketch("p p");
    listing[7 + 4] = NONE;
    listing[7 + 5] = 0;
    listing[13] = 1;
    assert_eq!(read(&listing), refused(12, 0));
    // node 0 leads to a node whose routine is not that of node 0, whatever rule 8 will say of it
    listing[7 + 4] = 1;
    listing[7 + 5] = NONE;
    assert_eq!(read(&listing), refused(11, 0));
}

#[test]
fn rows_of_the_map() {
    let listing = sketch(A);
    let cases: &[(&[u8], u64, u64)] = &[(&[0, 0, 0], 13, 0), (&[9; 5], 13, 0), (&[0, 2, 0, 3], 14, 1), (&[1, 1, 1, 255], 14, 3)];
    for &(map, number, place) in cases {
        assert_eq!(judge_patch(1, &listing, map, &mut []), refused(number, place), "{map:?}");
        assert_eq!(write(&listing, map, &mut []), refused(number, place), "{map:?}");
    }
    let (many, map) = (sketch(&"p ".repeat(65)), [1; 65]);
    assert_eq!(judge_patch(1, &many, &map, &mut []), refused(15, 0));
    assert_eq!(write(&many, &map, &mut []), refused(15, 0));
    assert_eq!(write(&many, &[&[0; 2], &map[..63]].concat(), &mut [0; 775]), Ok(775));
}

#[test]
fn lent_buffers() {
    let listing = sketch(A);
    assert_eq!(judge(3, &listing, &mut [0; 257]), refused(16, 0));
    assert_eq!(judge_patch(3, &listing, &[0; 4], &mut [0; 257]), refused(16, 0));
    assert_eq!(propose(3, &listing, &mut [0; 3]), refused(16, 0));
    assert_eq!(write(&listing, &[0; 4], &mut [0; 30]), refused(16, 0));
    assert_eq!(write(&listing, &[0, 0, 0, 1], &mut [0; 36]), refused(16, 0));
}

#[test]
fn too_many_places_before_too_little_room() {
    // every node but the last is the first of a failing pair
    let listing = sketch(&"w0 ".repeat(66));
    assert_eq!(propose(2, &listing, &mut []), refused(15, 0));
    assert_eq!(propose(2, &sketch(&"w0 ".repeat(64)), &mut []), refused(16, 0));
    assert_eq!(propose(2, &sketch(&"w0 ".repeat(64)), &mut [0; 64]), Ok(63));
}
