//! The bench program of this package on the sessions whose answers are stored beside the proved one.

use card_model::bench::{parse, Bench};
use card_model::call::{Call, MODEL};

fn answers(lines: &[u8]) -> String {
    Bench::new(&MODEL).session(lines)
}

#[test]
fn document_01_session() {
    let lines = include_bytes!("../../../crates/bench_sample/stdin");
    assert_eq!(answers(lines), include_str!("../../../crates/bench_sample/stdout"));
}

#[test]
fn all_four_statuses() {
    let lines = include_bytes!("../../../crates/bench_status/stdin");
    assert_eq!(answers(lines), include_str!("../../../crates/bench_status/stdout"));
}

/// Calls before the first format, cards too long, lines off the grammar, a last line without its newline.
#[test]
fn lines_off_the_grammar() {
    let lines = include_bytes!("../../../crates/bench_bad/stdin");
    assert_eq!(answers(lines), include_str!("../../../crates/bench_bad/stdout"));
}

#[test]
fn no_line_in_an_empty_text() {
    assert_eq!(answers(b""), "");
    assert_eq!(answers(b"\n"), "code=10 bib=0 at=0 status=0 time=0 reads=0\n");
}

#[test]
fn numbers_of_a_line() {
    let largest = Call::Look { bib: u32::MAX, at: 0 };
    assert_eq!(parse(b"op=look bib=4294967295 at=0"), Some(largest));
    for line in
        ["op=look bib=4294967296 at=0", "op=look bib=+1 at=0", "op=look bib=01 at=0", "op=look bib= at=0"]
    {
        assert_eq!(parse(line.as_bytes()), None, "{line}");
    }
}
