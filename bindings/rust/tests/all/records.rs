//! Records and their bytes. What decodes is what the library does not refuse with 4.

use crate::common::{worked_trail, Numbers};
use trail::{DeclaredSort, Kind, Record, Refusal, Sort, Time, Trail, RECORD_LENGTH};

const KINDS: [Kind; 5] = [
    Kind::Read,
    Kind::Write,
    Kind::Load,
    Kind::Fork,
    Kind::Execve,
];

/// Records of each kind, with numbers at their ends.
fn examples() -> Vec<Record> {
    let numbers = [0, 1, 2, 255, 256, 4095, u16::MAX];
    let times = [0, 1, 7, 255, 256, 65536, u32::MAX].map(Time);
    let mut records = Vec::new();
    for entity in numbers {
        records.push(Record::Declaration {
            entity,
            sort: DeclaredSort::Object,
        });
        records.push(Record::Declaration {
            entity,
            sort: DeclaredSort::Subject,
        });
        records.push(Record::Signature { entity });
        for kind in KINDS {
            for (target, time) in numbers.into_iter().zip(times) {
                records.push(Record::Event {
                    kind,
                    source: entity,
                    target,
                    time,
                });
            }
        }
    }
    records
}

#[test]
fn bytes_of_each_kind() {
    let declaration = Record::Declaration {
        entity: 0x0201,
        sort: DeclaredSort::Subject,
    };
    assert_eq!(declaration.encode(), [0, 1, 1, 2, 0, 0, 0, 0, 0, 0, 0, 0]);
    let event = Record::Event {
        kind: Kind::Execve,
        source: 0x0201,
        target: 0x0403,
        time: Time(0x08070605),
    };
    assert_eq!(event.encode(), [5, 0, 1, 2, 3, 4, 0, 0, 5, 6, 7, 8]);
    let signature = Record::Signature { entity: 0x0201 };
    assert_eq!(signature.encode(), [6, 0, 1, 2, 0, 0, 0, 0, 0, 0, 0, 0]);
}

#[test]
fn decoding_gives_what_was_encoded() {
    for record in examples() {
        assert_eq!(Record::decode(record.encode()), Some(record));
    }
}

#[test]
fn declared_sorts_are_sorts() {
    assert_eq!(Sort::from(DeclaredSort::Object), Sort::Object);
    assert_eq!(Sort::from(DeclaredSort::Subject), Sort::Subject);
}

/// The library, asked through the worked trail, takes the bytes for a record of a file of version 2.
fn library_decodes(trail: &Trail, bytes: [u8; RECORD_LENGTH]) -> bool {
    let file = [b"SLT\x02\0\0\0\0".as_slice(), &bytes].concat();
    let answer = trail.clone().batch(&file);
    answer.map_err(|refused| refused.refusal) != Err(Refusal::BadField)
}

/// Decodes as the library does, and what it decodes has these bytes. Says whether it does.
fn assert_decodes_alike(trail: &Trail, bytes: [u8; RECORD_LENGTH]) -> bool {
    let record = Record::decode(bytes);
    assert_eq!(record.is_some(), library_decodes(trail, bytes), "{bytes:?}");
    if let Some(record) = record {
        assert_eq!(record.encode(), bytes);
    }
    record.is_some()
}

#[test]
fn any_byte_changed_decodes_as_in_the_library() {
    let trail = worked_trail();
    let mut decoded = [0, 0];
    for kind in 0..=7 {
        let base = [kind, 0, 1, 0, 0, 0, 0, 0, 0, 0, 0, 0];
        for place in 0..RECORD_LENGTH {
            for value in (0..=255).filter(|value| place == 0 || value % 5 == 0 || *value < 10) {
                let mut bytes = base;
                bytes[place] = value;
                decoded[usize::from(assert_decodes_alike(&trail, bytes))] += 1;
            }
        }
    }
    assert!(decoded.iter().all(|count| *count > 1000), "{decoded:?}");
}

#[test]
fn random_bytes_decode_as_in_the_library() {
    let trail = worked_trail();
    let mut numbers = Numbers(20261117);
    let mut decoded = [0, 0];
    for _ in 0..10000 {
        // Bytes are 0 more often than not, and kinds low, so that many decode.
        let mut bytes = [(); RECORD_LENGTH].map(|()| match numbers.below(4) {
            0 => numbers.next() as u8,
            1 => 1,
            _ => 0,
        });
        bytes[0] = numbers.below(9) as u8;
        decoded[usize::from(assert_decodes_alike(&trail, bytes))] += 1;
    }
    assert!(decoded.iter().all(|count| *count > 500), "{decoded:?}");
}
