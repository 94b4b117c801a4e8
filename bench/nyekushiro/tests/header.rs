//! The names and numbers of include/nyekushiro.h are the wrapper's.

use nyekushiro::{raw, Reason};

const HEADER: &str = include_str!("../../../include/nyekushiro.h");

/// The constants whose names start with `prefix`, each without it, and their numbers.
fn constants(prefix: &str) -> Vec<(&'static str, u64)> {
    let lines = HEADER.lines().filter_map(|line| line.trim().strip_prefix(prefix)?.split_once(" = "));
    lines.map(|(name, rest)| (name, rest.split([',', ' ']).next().unwrap().parse().unwrap())).collect()
}

fn constant(name: &str) -> u64 {
    let found = constants(name);
    assert_eq!(found.len(), 1, "the header has {name} once");
    found[0].1
}

/// What the header defines the macro `name` as.
fn macro_of(name: &str) -> &'static str {
    HEADER.lines().find_map(|line| line.strip_prefix(&format!("#define {name} "))).unwrap()
}

#[test]
fn version() {
    assert_eq!(macro_of("NYEKUSHIRO_VERSION"), format!("{:?}", env!("CARGO_PKG_VERSION")));
    assert_eq!(macro_of("NYEKUSHIRO_VERSION_MAJOR"), env!("CARGO_PKG_VERSION_MAJOR"));
    assert_eq!(macro_of("NYEKUSHIRO_VERSION_MINOR"), env!("CARGO_PKG_VERSION_MINOR"));
    assert_eq!(macro_of("NYEKUSHIRO_VERSION_PATCH"), env!("CARGO_PKG_VERSION_PATCH"));
}

#[test]
fn buffers() {
    assert_eq!(constant("NYEKUSHIRO_CHAIN_BUFFER"), raw::CHAIN_BUFFER as u64);
    assert_eq!(constant("NYEKUSHIRO_MAP_BUFFER"), raw::MAP_BUFFER as u64);
    assert_eq!(constant("NYEKUSHIRO_LISTING_BUFFER"), raw::LISTING_BUFFER as u64);
}

#[test]
fn kinds_of_answers() {
    assert_eq!([constant("NYEKUSHIRO_DONE"), constant("NYEKUSHIRO_ROBUST")], [raw::Answer::DONE; 2]);
    assert_eq!(constant("NYEKUSHIRO_OPEN"), raw::Answer::OPEN);
    assert_eq!(constants("NYEKUSHIRO_REFUSED")[0], ("", raw::Answer::REFUSED));
}

#[test]
fn refusals() {
    let named = constants("NYEKUSHIRO_REFUSED_").into_iter().map(|(name, number)| (name.replace('_', ""), number));
    let ours = Reason::ALL.map(|reason| (format!("{reason:?}").to_uppercase(), reason.number()));
    assert_eq!(named.collect::<Vec<_>>(), ours);
}
