//! The constants of the wrapper are those of include/optlines.h, which is read as text.

use optlines::large::{self, Form};
use optlines::{Fate, Mode, Refusal};
use optlines::{BLOCKS, BRACKETS, BYTES, LINES, RECORD, RECORDS, STACK, TEXT};
use std::fs;

fn header() -> String {
    let path = concat!(env!("CARGO_MANIFEST_DIR"), "/../../include/optlines.h");
    fs::read_to_string(path).unwrap_or_else(|why| panic!("{path}: {why}"))
}

/// A number of C, and nothing else.
fn number(text: &str) -> usize {
    text.parse()
        .unwrap_or_else(|_| panic!("{text:?} is no number"))
}

#[test]
fn every_define() {
    let text = header();
    let defined = text
        .lines()
        .filter_map(|line| line.strip_prefix("#define OPTLINES_"));
    let mut found: Vec<(&str, usize)> = defined
        .filter(|rest| *rest != "H")
        .map(|rest| {
            rest.split_once(' ')
                .unwrap_or_else(|| panic!("{rest:?} has no value"))
        })
        .map(|(name, value)| (name, number(value)))
        .collect();
    found.sort_unstable();
    let wanted = [
        ("BLOCKS", BLOCKS),
        ("BRACKETS", BRACKETS),
        ("BYTES", BYTES),
        ("JOINED", Mode::Joined as usize),
        ("LARGE_BLOCKS", large::BLOCKS),
        ("LARGE_BYTES", large::BYTES),
        ("LARGE_LINES", large::LINES),
        ("LARGE_NOTES", large::NOTES),
        ("LARGE_NO_LINE", 4_294_967_295), // none in Rust
        ("LARGE_OWNERS", large::OWNERS),
        ("LARGE_PLACES", large::PLACES),
        ("LARGE_RECORD", large::RECORD),
        ("LARGE_RECORDS", large::RECORDS),
        ("LARGE_TEXT", large::TEXT),
        ("LINES", LINES),
        ("NO_LINE", 65_535), // none in Rust
        ("OL", Form::Ol as usize),
        ("OL_LINES", large::OL_LINES),
        ("OM", Form::Om as usize),
        ("PLAIN", Mode::Plain as usize),
        ("RECORD", RECORD),
        ("RECORDS", RECORDS),
        ("STACK", STACK),
        ("STRICT", Mode::Strict as usize),
        ("STRICT_JOINED", Mode::StrictJoined as usize),
        ("TEXT", TEXT),
    ];
    assert_eq!(found, wanted);
}

#[test]
fn every_number() {
    let text = header();
    let entries = text
        .lines()
        .filter_map(|line| line.strip_prefix("    OPTLINES_"));
    let found: Vec<(&str, usize)> = entries
        .filter_map(|entry| entry.trim_end_matches(',').split_once(" = "))
        .map(|(name, value)| (name, number(value)))
        .collect();
    let of = |refusal: Refusal| usize::from(refusal.number());
    let wanted = [
        ("DONE", 0),
        ("BAD_PASS", of(Refusal::BadPass)),
        ("TOO_LONG", of(Refusal::TooLong)),
        ("SHORT_WORK", of(Refusal::ShortWork)),
        ("NOT_UTF8", of(Refusal::NotUtf8(0))),
        ("TOO_MANY_LINES", of(Refusal::TooManyLines)),
        ("CROWDED", of(Refusal::Crowded(0))),
        ("SHORT_RESULT", of(Refusal::ShortResult(0))),
        ("SHORT_RECORDS", of(Refusal::ShortRecords(0))),
        ("CUT", of(Refusal::Cut(0))),
        ("OVERLONG", of(Refusal::Overlong(0))),
        ("OUTSIDE", of(Refusal::Outside(0))),
        ("BAD_MODE", of(Refusal::BadMode)),
        ("WIDE_LINES", of(Refusal::WideLines)),
        ("OVERLAP", 255), // of the inline function for C alone
        ("EQUAL", Fate::Equal as usize),
        ("CHANGED", Fate::Changed as usize),
        ("INSIDE", Fate::Inside as usize),
        ("GONE", Fate::Gone as usize),
    ];
    assert_eq!(found, wanted);
}
