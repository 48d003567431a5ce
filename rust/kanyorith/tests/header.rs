//! The C header and the package agree: version, sizes, and the numbers of the refusals.

use std::path::Path;

use kanyorith::{CURSOR_SIZE, KEY_SIZE, LISTED_SIZE, RECORD_SIZE, Refusal, VALUE_SIZE};

fn header() -> String {
    let path = Path::new(env!("CARGO_MANIFEST_DIR")).join("../../include/kanyorith.h");
    std::fs::read_to_string(path).expect("the repository has the header")
}

/// What a macro stands for, without quotation marks.
fn defined(header: &str, name: &str) -> String {
    let text = format!("#define {name} ");
    let value = header.lines().find_map(|line| line.strip_prefix(&text));
    value.unwrap_or_else(|| panic!("the header defines {name}")).trim_matches('"').to_string()
}

/// The value of a name that an enumeration has.
fn listed(header: &str, name: &str) -> u64 {
    let mut words =
        header.split(|c: char| !(c.is_alphanumeric() || c == '_' || c == '=')).filter(|word| !word.is_empty());
    while let Some(word) = words.next() {
        if word == name && words.next() == Some("=") {
            return words.next().and_then(|value| value.parse().ok()).expect("a number");
        }
    }
    panic!("the header lists {name}");
}

#[test]
fn version() {
    let header = header();
    assert_eq!(defined(&header, "KANYORITH_VERSION"), env!("CARGO_PKG_VERSION"));
    assert_eq!(defined(&header, "KANYORITH_VERSION_MAJOR"), env!("CARGO_PKG_VERSION_MAJOR"));
    assert_eq!(defined(&header, "KANYORITH_VERSION_MINOR"), env!("CARGO_PKG_VERSION_MINOR"));
    assert_eq!(defined(&header, "KANYORITH_VERSION_PATCH"), env!("CARGO_PKG_VERSION_PATCH"));
}

#[test]
fn sizes() {
    let header = header();
    for (name, size) in [
        ("KANYORITH_KEY_SIZE", KEY_SIZE),
        ("KANYORITH_VALUE_SIZE", VALUE_SIZE),
        ("KANYORITH_LISTED_SIZE", LISTED_SIZE),
        ("KANYORITH_RECORD_SIZE", RECORD_SIZE),
        ("KANYORITH_CURSOR_SIZE", CURSOR_SIZE),
    ] {
        assert_eq!(listed(&header, name), size as u64, "{name}");
    }
}

#[test]
fn refusals() {
    let header = header();
    for (name, refusal) in [
        ("KANYORITH_TRAY_FRAME", Refusal::TrayFrame),
        ("KANYORITH_KEY_ORDER", Refusal::KeyOrder { record: 0 }),
        ("KANYORITH_RECORD_KIND", Refusal::RecordKind { record: 0 }),
        ("KANYORITH_INDEX_FRAME", Refusal::IndexFrame),
        ("KANYORITH_SEGMENT", Refusal::Segment { segment: 0 }),
        ("KANYORITH_SEGMENT_SIZE", Refusal::SegmentSize { d: 0 }),
        ("KANYORITH_ROOM", Refusal::Room { needed: 0 }),
        ("KANYORITH_BOUNDS", Refusal::FoldBounds { last: 0 }),
        ("KANYORITH_BOUNDS", Refusal::PrefixLength { length: 0 }),
        ("KANYORITH_PREFIX_END", Refusal::PrefixEnd { length: 0 }),
        ("KANYORITH_LOST", Refusal::Lost { segment: 0, selector: 0 }),
        ("KANYORITH_CURSOR", Refusal::Cursor { segment: 0 }),
        ("KANYORITH_RUN_LENGTH", Refusal::RunLength { count: 0 }),
    ] {
        assert_eq!(listed(&header, name), u64::from(refusal.number()), "{name}");
    }
}
