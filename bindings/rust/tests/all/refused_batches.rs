//! Refused batches: the number, the record, its offset, and what was taken in before it.

use crate::common::{assert_same_rows, grown, offset_of, worked_file, worked_trail};
use trail::{
    DeclaredSort, EventFile, Kind, Record, Refusal, RefusedBatch, Taken, Time, Trail,
    HEADER_LENGTH, RECORD_LENGTH,
};

/// The records of the worked file.
const RECORDS: usize = 11;

/// The first `records` records of the worked file.
fn worked_start(records: usize) -> Vec<u8> {
    worked_file()[..offset_of(records + 1)].to_vec()
}

/// Takes the file into a fresh trail, which it leaves as the records before the refused one do.
fn refused_worked_file(file: &[u8]) -> RefusedBatch {
    let mut trail = Trail::new().unwrap();
    let refused = trail.batch(file).unwrap_err();
    let mut before = Trail::new().unwrap();
    assert_eq!(
        before.batch(&worked_start(refused.taken.records as usize)),
        Ok(refused.taken)
    );
    assert_same_rows(&trail, &before);
    refused
}

/// The worked trail refuses the record.
fn refused_record(record: Record) -> Refusal {
    let mut trail = worked_trail();
    let file: EventFile = [record].into_iter().collect();
    let refused = trail.batch(file.as_bytes()).unwrap_err();
    assert_eq!(
        (refused.record, refused.offset, refused.taken),
        (1, HEADER_LENGTH, Taken::default())
    );
    assert_same_rows(&trail, &worked_trail());
    refused.refusal
}

fn event(kind: Kind, source: u16, target: u16, time: u32) -> Record {
    Record::Event {
        kind,
        source,
        target,
        time: Time(time),
    }
}

#[test]
fn before_any_record() {
    let of_the_file = |refusal| RefusedBatch {
        refusal,
        record: 0,
        offset: 0,
        taken: Taken::default(),
    };
    for length in 0..HEADER_LENGTH {
        let refused = refused_worked_file(&worked_file()[..length]);
        assert_eq!(refused, of_the_file(Refusal::NotEventFile));
    }
    for place in [0, 1, 2, 5, 6, 7] {
        let mut file = worked_file();
        file[place] ^= 1;
        assert_eq!(
            refused_worked_file(&file),
            of_the_file(Refusal::NotEventFile)
        );
    }
    for version in [[0, 0], [3, 0], [1, 1], [2, 1]] {
        let mut file = worked_file();
        file[3..5].copy_from_slice(&version);
        assert_eq!(
            refused_worked_file(&file),
            of_the_file(Refusal::WrongVersion)
        );
    }
}

#[test]
fn cut_at_each_length() {
    for length in HEADER_LENGTH..=worked_file().len() {
        let records = (length - HEADER_LENGTH) / RECORD_LENGTH;
        let start = &worked_file()[..length];
        if offset_of(records + 1) == length {
            assert_eq!(
                grown(start).counts(),
                grown(&worked_start(records)).counts()
            );
        } else {
            let refused = refused_worked_file(start);
            assert_eq!(refused.refusal, Refusal::CutShort);
            assert_eq!(refused.record as usize, records + 1);
            assert_eq!(refused.offset, offset_of(records + 1));
            assert_eq!(refused.taken.records as usize, records);
        }
    }
}

#[test]
fn bad_field_in_each_record() {
    for record in 1..=RECORDS {
        let mut file = worked_file();
        file[offset_of(record) + 6] = 1;
        let refused = refused_worked_file(&file);
        assert_eq!(
            (refused.refusal, refused.record as usize),
            (Refusal::BadField, record)
        );
        assert_eq!(
            (refused.offset, refused.taken.records as usize),
            (offset_of(record), record - 1)
        );
    }
}

#[test]
fn what_was_tried_before() {
    let mut file = worked_file();
    file[offset_of(RECORDS)] = 7;
    let refused = refused_worked_file(&file);
    assert_eq!(
        refused.taken,
        Taken {
            records: 10,
            tried: 9
        }
    );
}

#[test]
fn each_refusal_of_a_record() {
    let declaration = |entity| Record::Declaration {
        entity,
        sort: DeclaredSort::Object,
    };
    assert_eq!(
        refused_record(event(Kind::Read, 4, 1, 8)),
        Refusal::Undeclared
    );
    assert_eq!(
        refused_record(event(Kind::Write, 1, 4, 8)),
        Refusal::Undeclared
    );
    assert_eq!(
        refused_record(Record::Signature { entity: 4 }),
        Refusal::Undeclared
    );
    assert_eq!(refused_record(declaration(3)), Refusal::NotNext);
    assert_eq!(refused_record(declaration(5)), Refusal::NotNext);
    assert_eq!(
        refused_record(event(Kind::Fork, 1, 1, 8)),
        Refusal::SourceIsTarget
    );
    assert_eq!(
        refused_record(event(Kind::Write, 0, 1, 8)),
        Refusal::WrongSort
    );
    assert_eq!(
        refused_record(Record::Signature { entity: 1 }),
        Refusal::WrongSort
    );
    assert_eq!(
        refused_record(event(Kind::Read, 0, 1, 6)),
        Refusal::TooEarly
    );
    assert_eq!(
        refused_record(event(Kind::Read, 0, 1, 0)),
        Refusal::TooEarly
    );
}

#[test]
fn too_early_between_files() {
    let mut trail = worked_trail();
    let mut file = EventFile::new();
    file.event(Kind::Read, 0, 1, Time(7));
    file.event(Kind::Read, 0, 1, Time(9));
    file.event(Kind::Read, 0, 1, Time(8));
    let refused = trail.batch(file.as_bytes()).unwrap_err();
    assert_eq!(
        (refused.refusal, refused.record, refused.offset),
        (Refusal::TooEarly, 3, 32)
    );
    assert_eq!(refused.taken.records, 2);
    assert_eq!((trail.counts().accepted, trail.counts().last), (9, Time(9)));
}

#[test]
fn a_signature_in_a_file_of_version_1() {
    let mut file = EventFile::new();
    file.sign(2);
    let mut bytes = file.into_bytes();
    bytes[3] = 1;
    let refused = worked_trail().batch(&bytes).unwrap_err();
    assert_eq!((refused.refusal, refused.record), (Refusal::BadField, 1));
}

#[test]
fn in_words() {
    let mut file = worked_file();
    file[64] = 0;
    let refused = refused_worked_file(&file);
    assert_eq!(
        refused.to_string(),
        "record 5 (byte 56) refused with 9: time 0, or earlier than the last accepted time; 4 before it taken in"
    );
    assert_eq!(
        refused_worked_file(b"").to_string(),
        "file refused with 1: not an event file"
    );
    assert_eq!(
        Refusal::Undeclared.to_string(),
        "5: an entity is not declared"
    );
}
