//! The kept log of trails with signatures.

use crate::common::{fresh, grown, log_of, signed, worked_tables};
use reference::generate::{sign_all, sign_where, sound_tables, tables_with_entities};
use reference::kept_log::log_length;
use reference::{worked_signed_file, FileBuilder, LogAnswer, Random, Tables};

/// The declarations and the kept events of the worked trail.
fn worked_log(file: FileBuilder) -> FileBuilder {
    let file = file.object(0).subject(1).object(2).object(3);
    let file = file.read(0, 1, 1).write(1, 2, 2);
    file.read(3, 1, 5).write(1, 2, 6)
}

/// The worked trail with these objects signed.
fn worked_with_signed(objects: &[u32]) -> Tables {
    let mut tables = worked_tables();
    sign_where(&mut tables, |number| objects.contains(&number));
    tables
}

#[test]
fn signed_report_has_116_bytes() {
    let tables = grown(&worked_signed_file().bytes());
    let log = log_of(&tables);
    assert_eq!(log.len(), 116);
    assert_eq!(log[..8], [0x53, 0x4C, 0x54, 2, 0, 0, 0, 0]);
    assert_eq!(log[104..], [6, 0, 2, 0, 0, 0, 0, 0, 0, 0, 0, 0]);
    assert_eq!(log, worked_log(FileBuilder::version_2()).sign(2).bytes());
}

#[test]
fn none_one_and_all_signed() {
    let none = worked_log(FileBuilder::new());
    assert_eq!(log_of(&worked_with_signed(&[])), none.bytes());
    let file = worked_log(FileBuilder::version_2());
    let three = file.clone().sign(3);
    assert_eq!(log_of(&worked_with_signed(&[3])), three.bytes());
    let all = file.sign(0).sign(2).sign(3);
    assert_eq!(log_of(&worked_with_signed(&[3, 2, 0])), all.bytes());
}

/// By number, whatever the order of the signatures was.
#[test]
fn signatures_stand_last_by_number() {
    let file = FileBuilder::version_2().object(0).sign(0).object(1);
    let file = file.object(2).sign(2).subject(3).read(2, 3, 4).sign(1);
    let expected = FileBuilder::version_2().object(0).object(1);
    let expected = expected.object(2).subject(3).read(2, 3, 4);
    let expected = expected.sign(0).sign(1).sign(2).bytes();
    assert_eq!(log_of(&grown(&file.bytes())), expected);
}

#[test]
fn each_shorter_output_is_refused() {
    for objects in [&[][..], &[2], &[0, 3], &[0, 2, 3]] {
        let tables = worked_with_signed(objects);
        let length = 104 + 12 * objects.len();
        assert_eq!(log_length(tables.view()), length);
        for short in 0..length {
            let mut out = vec![7; short];
            let (refusal, length) = (15, 0);
            assert_eq!(tables.kept_log(&mut out), LogAnswer { refusal, length });
            assert_eq!(out, vec![7; short]);
        }
        let mut out = vec![7; length + 9];
        assert_eq!(tables.kept_log(&mut out).length as usize, length);
        assert_eq!(out[length..], [7; 9]);
    }
}

#[test]
fn log_length_is_that_of_the_log() {
    let mut random = Random::new(91);
    for _ in 0..300 {
        let tables = sound_tables(&mut random);
        assert_eq!(log_length(tables.view()), log_of(&tables).len());
    }
}

#[test]
fn a_subject_alone_and_a_signed_object_alone() {
    let subject = grown(&FileBuilder::new().subject(0).bytes());
    assert_eq!(log_of(&subject)[3], 1);
    let object = grown(&FileBuilder::version_2().object(0).bytes());
    assert_eq!(log_of(&object), FileBuilder::new().object(0).bytes());
    let signed = FileBuilder::version_2().object(0).sign(0).bytes();
    assert_eq!(log_of(&grown(&signed)), signed);
}

#[test]
fn all_entities_but_one_signed() {
    let mut tables = tables_with_entities(4_096);
    sign_all(&mut tables);
    let log = log_of(&tables);
    assert_eq!(log.len(), 8 + 12 * (4_096 + 4_095));
    assert_eq!(log[log.len() - 12..][..4], [6, 0, 0xFF, 0x0F]);
    let mut again = fresh(4_096);
    assert_eq!(again.batch(&log).refusal, 0);
    assert_eq!(signed(&again), signed(&tables));
    assert_eq!(log_of(&again), log);
}
