//! The numbers of the inputs are those of both sides.

use inputs as ours;
use nyekushiro::{raw, Question};
use straightforward as plain;

#[test]
fn of_the_listing() {
    assert_eq!((ours::HEADING, ours::RECORD), (plain::HEADING, plain::RECORD));
    assert_eq!((ours::ROUTINES, ours::NODES), (plain::MOST_ROUTINES, plain::MOST_NODES));
    assert_eq!((ours::NONE, ours::DEEPEST), (plain::NONE, plain::DEEPEST));
    assert_eq!((ours::NODES, ours::length(ours::NODES)), (raw::MAP_BUFFER, raw::LISTING_BUFFER));
    assert_eq!(ours::VERSIONS.map(u16::from), plain::VERSIONS);
    let kinds = [
        (ours::PLAIN, plain::Kind::Plain),
        (ours::READ, plain::Kind::Read),
        (ours::WRITE, plain::Kind::Write),
        (ours::RMW, plain::Kind::Rmw),
        (ours::FENCE, plain::Kind::Fence),
        (ours::ACQUIRE, plain::Kind::Acquire),
        (ours::RELEASE, plain::Kind::Release),
        (ours::LOAD_FENCE, plain::Kind::LoadFence),
        (ours::STORE_FENCE, plain::Kind::StoreFence),
        (ours::ACQUIRE_PC, plain::Kind::AcquirePc),
    ];
    for (number, kind) in kinds {
        assert_eq!((plain::Kind::of(2, number), ours::is_access(number)), (Some(kind), kind.is_access()));
        assert_eq!((ours::READS.contains(&number), ours::WRITES.contains(&number)), (kind.is_read(), kind.is_write()));
    }
    for version in ours::VERSIONS {
        let last = (0..=255).rev().find(|&kind| plain::Kind::of(version.into(), kind).is_some());
        assert_eq!(last, Some(ours::kinds(version) - 1));
    }
}

#[test]
fn of_the_services() {
    assert_eq!([plain::CHAIN_BUFFER, raw::CHAIN_BUFFER], [ours::CHAIN_BUFFER; 2]);
    let questions: Vec<u64> = Question::ALL.into_iter().map(u64::from).collect();
    assert_eq!(questions, (1..=ours::QUESTIONS as u64).collect::<Vec<_>>());
}
