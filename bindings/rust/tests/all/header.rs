//! The crate's numbers and texts are those of the C header.

use crate::common::read;
use std::collections::BTreeMap;
use trail::{DeclaredSort, Kind, Record, Refusal, Sort, Time};

fn header() -> String {
    String::from_utf8(read("include/trail.h")).unwrap()
}

/// What `#define SLT_.. VALUE` says, by name, macros with arguments aside.
fn defined() -> BTreeMap<String, String> {
    let header = header();
    let lines = header
        .lines()
        .filter_map(|line| line.strip_prefix("#define SLT_"));
    let pairs = lines.filter_map(|line| line.split_once(' '));
    let plain = pairs.filter(|(name, _)| !name.contains('('));
    plain
        .map(|(name, value)| (name.to_string(), value.to_string()))
        .collect()
}

/// The part of the header after `from`, up to `};`.
fn block(from: &str) -> String {
    let header = header();
    let (_, after) = header.split_once(from).unwrap();
    after.split_once("};").unwrap().0.to_string()
}

/// The names of an enum, without `SLT_`, and their numbers.
fn enumerated(name: &str) -> Vec<(String, u32)> {
    let block = block(&format!("enum {name} {{"));
    let lines = block
        .lines()
        .filter_map(|line| line.trim().strip_prefix("SLT_"));
    let pairs = lines.map(|line| line.split_once(" = ").unwrap());
    pairs
        .map(|(name, rest)| {
            let digits: String = rest.chars().take_while(char::is_ascii_digit).collect();
            (name.to_string(), digits.parse().unwrap())
        })
        .collect()
}

/// `NotEventFile` as `NOT_EVENT_FILE`.
fn upper(name: &str) -> String {
    let mut upper = String::new();
    for letter in name.chars() {
        if letter.is_uppercase() && !upper.is_empty() {
            upper.push('_');
        }
        upper.extend(letter.to_uppercase());
    }
    upper
}

#[test]
fn numbers() {
    let ours = [
        ("ENTITY_WIDTH", trail::ENTITY_WIDTH as u64),
        ("VERSION_WIDTH", trail::VERSION_WIDTH as u64),
        ("EDGE_WIDTH", trail::EDGE_WIDTH as u64),
        ("MOST_ENTITIES", trail::MOST_ENTITIES.into()),
        ("MOST_VERSIONS", trail::MOST_VERSIONS.into()),
        ("MOST_EDGES", trail::MOST_EDGES.into()),
        ("MOST_ACCEPTED", trail::MOST_ACCEPTED.into()),
        ("HEADER_LENGTH", trail::HEADER_LENGTH as u64),
        ("RECORD_LENGTH", trail::RECORD_LENGTH as u64),
        ("BATCH_STACK", trail::BATCH_STACK as u64),
    ];
    let mut theirs = defined();
    for (name, number) in ours {
        assert_eq!(theirs.remove(name), Some(number.to_string()), "{name}");
    }
    assert_eq!(
        theirs.remove("NONE"),
        Some(format!("UINT32_C(0x{:X})", trail::NONE))
    );
    assert_eq!(
        theirs.remove("VERSION"),
        Some(format!("{:?}", env!("CARGO_PKG_VERSION")))
    );
    // The other calls run on the same thread.
    for name in ["TRACE_STACK", "LOG_STACK"] {
        let stack: usize = theirs.remove(name).unwrap().parse().unwrap();
        assert!(stack <= trail::BATCH_STACK, "{name}");
    }
    assert!(theirs.is_empty(), "not compared: {theirs:?}");
}

#[test]
fn sorts() {
    let ours = [Sort::Object, Sort::Subject, Sort::SignedObject]
        .map(|sort| (upper(&format!("{sort:?}")), sort.number()));
    assert_eq!(enumerated("slt_sort"), ours);
}

#[test]
fn kinds() {
    let first_byte = |record: Record| u32::from(record.encode()[0]);
    let event = |kind| Record::Event {
        kind,
        source: 0,
        target: 1,
        time: Time(1),
    };
    let mut ours = vec![(
        "DECLARATION".to_string(),
        first_byte(Record::Declaration {
            entity: 0,
            sort: DeclaredSort::Object,
        }),
    )];
    for kind in [
        Kind::Read,
        Kind::Write,
        Kind::Load,
        Kind::Fork,
        Kind::Execve,
    ] {
        assert_eq!(kind.number(), first_byte(event(kind)));
        ours.push((kind.word().to_uppercase(), kind.number()));
    }
    ours.push((
        "SIGNATURE".to_string(),
        first_byte(Record::Signature { entity: 0 }),
    ));
    assert_eq!(enumerated("slt_kind"), ours);
}

#[test]
fn refusals() {
    let ours = Refusal::ALL.map(|refusal| (upper(&format!("{refusal:?}")), refusal.number()));
    let theirs = enumerated("slt_refusal");
    assert_eq!(theirs[0], ("NOT_REFUSED".to_string(), 0));
    assert_eq!(theirs[1..], ours);
}

#[test]
fn refusals_in_words() {
    let block = block("slt_refusal_text[] = {");
    let texts: Vec<&str> = block
        .lines()
        .map(|line| line.trim().trim_end_matches(',').trim_matches('"'))
        .collect();
    let texts: Vec<&str> = texts.into_iter().filter(|text| !text.is_empty()).collect();
    assert_eq!(texts[0], "not refused");
    assert_eq!(texts[1..], Refusal::ALL.map(Refusal::text));
}
