use super::{State, TakenFile, Unreadable};
use crate::moment::Moment;
use crate::recording::sample::Sample;
use sha2::{Digest, Sha256};
use trail::{DeclaredSort, Kind};

const CHECKSUM_LENGTH: usize = 32;
/// Where the rows of a state begin, and how many bytes those of the small one have.
const ROWS: usize = 44;
const SMALL_ROWS: usize = 8 * 2 + 16 * 3 + 24 * 2;

/// A state from numbers: a subject for each odd sort, and events between entities as their sorts allow.
pub fn state(
    start: Option<i64>,
    sorts: &[u8],
    bases: &[Vec<u8>],
    events: &[(u16, u16, u32)],
    taken: Vec<TakenFile>,
) -> State {
    let mut state = State::empty(start.and_then(Moment::start_from_hundredths)).unwrap();
    let mut sample = Sample::new();
    let is_subject = |entity: u16| sorts[usize::from(entity)] % 2 == 1;
    for sort in sorts {
        let sort = if sort % 2 == 1 {
            DeclaredSort::Subject
        } else {
            DeclaredSort::Object
        };
        sample = sample.declare(sort, b"");
    }
    let mut time = 0;
    for (source, target, pause) in events {
        let (source, target) = (source % sorts.len() as u16, target % sorts.len() as u16);
        time += pause;
        let kind = match (is_subject(source), is_subject(target)) {
            (false, true) => Kind::Read,
            (true, false) => Kind::Write,
            (true, true) if source != target => Kind::Fork,
            _ => continue,
        };
        sample = sample.event(kind, source, target, time + 1);
    }
    state.trail.batch(&sample.recording("a").file).unwrap();
    for entity in 0..sorts.len() {
        state
            .names
            .push_made(bases.get(entity).map_or(b"", Vec::as_slice));
    }
    state.taken = taken;
    state
}

pub fn with_right_checksum(mut bytes: Vec<u8>) -> Vec<u8> {
    let end = bytes.len() - CHECKSUM_LENGTH;
    let checksum = Sha256::digest(&bytes[..end]);
    bytes[end..].copy_from_slice(&checksum);
    bytes
}

fn small() -> State {
    let taken = TakenFile {
        digest: [7; 32],
        records: 4,
        events: 2,
        name: b"a.slt".to_vec(),
    };
    let bases = [b"/a".to_vec(), b"/bin/x[1]".to_vec()];
    state(
        Some(100),
        &[0, 1],
        &bases,
        &[(0, 1, 1), (1, 0, 1)],
        vec![taken],
    )
}

#[test]
fn the_bytes_are_laid_out_as_documented() {
    let bytes = small().encode();
    let names = b"/a\n/bin/x[1]\n";
    assert_eq!(
        bytes.len(),
        8 + 4 + 4 + 8 + 20 + SMALL_ROWS + 8 + names.len() + 4 + (44 + 5) + 32
    );
    assert_eq!(&bytes[..8], b"SLTSTATE");
    assert_eq!(bytes[8..12], [1, 0, 0, 0]);
    assert_eq!(bytes[12..24], [1, 0, 0, 0, 100, 0, 0, 0, 0, 0, 0, 0]);
    assert_eq!(
        bytes[24..44],
        [2, 0, 0, 0, 3, 0, 0, 0, 2, 0, 0, 0, 2, 0, 0, 0, 3, 0, 0, 0]
    );
    let at = ROWS + SMALL_ROWS;
    assert_eq!(bytes[at..at + 8], [13, 0, 0, 0, 0, 0, 0, 0]);
    assert_eq!(&bytes[at + 8..at + 21], names);
    assert_eq!(bytes[at + 21..at + 25], [1, 0, 0, 0]);
    assert_eq!(bytes[at + 25..at + 57], [7; 32]);
    assert_eq!(
        bytes[at + 57..at + 69],
        [4, 0, 0, 0, 2, 0, 0, 0, 5, 0, 0, 0]
    );
    assert_eq!(&bytes[at + 69..at + 74], b"a.slt");
    assert_eq!(with_right_checksum(bytes.clone()), bytes);
}

/// The state with some bytes put in, its checksum made right.
fn changed(at: usize, put: &[u8]) -> Unreadable {
    let mut bytes = small().encode();
    bytes[at..at + put.len()].copy_from_slice(put);
    State::decode(&with_right_checksum(bytes)).unwrap_err()
}

#[test]
fn each_damage_has_its_words() {
    const NAMES: usize = ROWS + SMALL_ROWS + 8;
    let long = [small().encode(), vec![0; 3]].concat();
    for (error, words) in [
        (
            State::decode(b"").unwrap_err(),
            "it does not begin as the state of a trail does",
        ),
        (
            changed(0, b"X"),
            "it does not begin as the state of a trail does",
        ),
        (
            changed(8, &[2]),
            "it is of format 2, and this program knows format 1",
        ),
        (
            State::decode(&long).unwrap_err(),
            "it is too long: 3 bytes follow where its counts say that it ends",
        ),
        (
            changed(12, &[2]),
            "its start is no moment of the years 1970 to 2099",
        ),
        (
            changed(12, &[0]),
            "its start is no moment of the years 1970 to 2099",
        ),
        (
            changed(23, &[0x80]),
            "its start is no moment of the years 1970 to 2099",
        ),
        (changed(40, &[1]), "its tables are not sound"),
        (changed(NAMES + 2, b"x"), "it has 1 names for 2 entities"),
        (changed(NAMES, b"\n"), "it has 3 names for 2 entities"),
        (
            changed(NAMES + 12, b"x"),
            "its names are not those of a trail: the last name is not ended",
        ),
        (
            changed(NAMES + 3, b"/bin/xx;2"),
            "its names are not those of a trail: name 2 is not the next of its base",
        ),
    ] {
        assert_eq!(error.to_string(), words);
    }
    let mut bytes = small().encode();
    bytes[ROWS] ^= 1;
    assert_eq!(
        State::decode(&bytes).unwrap_err().to_string(),
        "its checksum differs"
    );
}

/// Lengths that no file has ask for no memory.
#[test]
fn great_counts_are_cut_short() {
    let names = ROWS + SMALL_ROWS;
    for at in [24, 28, 32, names, names + 4, names + 8 + 13] {
        let error = changed(at, &[0xff; 4]);
        assert!(
            matches!(error, Unreadable::CutShort { .. }),
            "{at}: {error}"
        );
    }
    assert!(matches!(
        changed(names, &[0xff; 8]),
        Unreadable::CutShort { .. }
    ));
}
