//! The header, this package and the list of changes are of one version.

const HEADER: &str = include_str!("../../include/card.h");
const CHANGES: &str = include_str!("../../CHANGELOG.md");
const VERSION: &str = env!("CARGO_PKG_VERSION");

#[test]
fn the_header_has_it() {
    let line = format!("#define CARD_VERSION \"{VERSION}\"");
    assert!(HEADER.lines().any(|other| other == line));
}

/// Above all others, as the newest.
#[test]
fn the_changes_begin_with_it() {
    let newest = CHANGES.lines().find_map(|line| line.strip_prefix("## ")).unwrap();
    assert_eq!(newest.split([',', ' ']).next(), Some(VERSION));
}
