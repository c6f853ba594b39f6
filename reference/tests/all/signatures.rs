//! Signatures, worked by hand.

use crate::common::{backward, forward, fresh, grown, signed, times, worked_tables};
use reference::generate::{grown_tables, set_count, sign_all, sound_tables};
use reference::{worked_signed_file, BatchAnswer, Declaration, Event, FileBuilder, FullList};
use reference::{Kind, Random, Sort, Tables};

/// Object 0, subject 1, object 2 and subject 3.
fn declarations() -> FileBuilder {
    let file = FileBuilder::version_2();
    file.object(0).subject(1).object(2).subject(3)
}

/// The answer for a file taken into a fresh trail: the refusal and the records
/// taken in. The full list must give the same.
fn answer_of(file: FileBuilder) -> (u32, u32) {
    let file = file.bytes();
    let answer = fresh(20).batch(&file);
    let capacity = fresh(20).view().capacity();
    assert_eq!(FullList::new().batch(capacity, &file), answer);
    (answer.refusal, answer.taken)
}

#[test]
fn a_signature_changes_the_sort_alone() {
    let before = worked_tables();
    let mut tables = before.clone();
    let answer = tables.batch(&FileBuilder::version_2().sign(2).bytes());
    let expected = BatchAnswer {
        refusal: 0,
        taken: 1,
        tried: 0,
    };
    assert_eq!(answer, expected);
    assert_eq!(tables.entities[4], 2);
    tables.entities[4] = 0;
    assert_eq!(tables, before);
}

#[test]
fn a_signature_needs_no_row_and_no_event() {
    let mut tables = fresh(1);
    let file = FileBuilder::version_2().object(0).sign(0).bytes();
    assert_eq!(tables.batch(&file).taken, 2);
    let mut full = worked_tables();
    full.counts.accepted = 1_000_000;
    set_count(&mut full, 3, 999_994);
    full.entities.truncate(8);
    full.versions.truncate(20);
    full.edges.truncate(24);
    let answer = full.batch(&FileBuilder::version_2().sign(0).sign(3).bytes());
    assert_eq!((answer.refusal, answer.taken), (0, 2));
    assert_eq!(signed(&full), [0, 3]);
}

#[test]
fn kind_6_only_in_version_2() {
    let mut file = declarations().sign(0).bytes();
    assert_eq!(fresh(9).batch(&file).refusal, 0);
    file[3] = 1;
    let answer = fresh(9).batch(&file);
    assert_eq!((answer.refusal, answer.taken), (4, 4));
}

#[test]
fn versions_other_than_1_and_2() {
    for version in [0, 3, 4, 6, 256, 257, 258, 512, 513, 0xFFFF_u16] {
        let mut file = declarations().sign(0).bytes();
        file[3..5].copy_from_slice(&version.to_le_bytes());
        let expected = BatchAnswer::nothing_taken(2);
        assert_eq!(fresh(9).batch(&file), expected);
    }
}

#[test]
fn a_declared_sort_of_2_is_refused_in_both_versions() {
    let declaration = [0, 2, 0, 0, 0, 0, 0, 0, 0, 0, 0, 0];
    for file in [FileBuilder::new(), FileBuilder::version_2()] {
        assert_eq!(answer_of(file.raw(&declaration)), (4, 0));
    }
}

#[test]
fn undeclared_subject_signed() {
    assert_eq!(answer_of(declarations().sign(4)), (5, 4));
    assert_eq!(answer_of(declarations().sign(u16::MAX)), (5, 4));
    assert_eq!(answer_of(declarations().sign(1)), (8, 4));
    assert_eq!(answer_of(declarations().sign(0).sign(3)), (8, 5));
    assert_eq!(answer_of(declarations().sign(0).sign(2)), (0, 6));
    assert_eq!(answer_of(declarations().sign(0).sign(0)), (17, 5));
    assert_eq!(answer_of(declarations().sign(0).sign(2).sign(0)), (17, 6));
}

/// In another batch, of either version, the object is signed still.
#[test]
fn signed_in_a_batch_before() {
    let tables = grown(&worked_signed_file().bytes());
    let refusal_of = |file: FileBuilder| {
        let answer = tables.clone().batch(&file.bytes());
        assert_eq!((answer.taken, answer.tried), (0, 0));
        answer.refusal
    };
    assert_eq!(refusal_of(FileBuilder::version_2().sign(2)), 17);
    assert_eq!(refusal_of(FileBuilder::version_2().write(1, 2, 8)), 17);
    assert_eq!(refusal_of(FileBuilder::new().write(1, 2, 8)), 17);
    assert_eq!(refusal_of(FileBuilder::new().sign(2)), 4);
}

/// Subject 1 wrote object 2, which is signed then.
fn written_and_signed() -> FileBuilder {
    declarations().write(1, 2, 5).sign(2)
}

#[test]
fn events_into_a_signed_object() {
    let file = written_and_signed();
    assert_eq!(answer_of(file.clone().write(3, 2, 6)), (17, 6));
    assert_eq!(answer_of(file.clone().write(1, 2, 6)), (17, 6));
    let repeat_before = declarations().write(1, 2, 5).write(1, 2, 6);
    assert_eq!(answer_of(repeat_before.clone().sign(2)), (0, 7));
    assert_eq!(answer_of(repeat_before.sign(2).write(1, 2, 7)), (17, 7));
    assert_eq!(answer_of(file.write(1, 0, 6)), (0, 7));
}

/// 5, 7 and 8 come before 17; 9 comes after it.
#[test]
fn the_order_around_17() {
    let file = written_and_signed();
    assert_eq!(answer_of(file.clone().write(4, 2, 0)), (5, 6));
    assert_eq!(answer_of(file.clone().write(2, 2, 0)), (7, 6));
    assert_eq!(answer_of(file.clone().write(0, 2, 0)), (8, 6));
    assert_eq!(answer_of(file.clone().fork(1, 2, 0)), (8, 6));
    assert_eq!(answer_of(file.clone().read(0, 2, 0)), (8, 6));
    assert_eq!(answer_of(file.clone().write(1, 2, 0)), (17, 6));
    assert_eq!(answer_of(file.clone().write(1, 2, 4)), (17, 6));
    assert_eq!(answer_of(file.clone().write(3, 2, 4)), (17, 6));
    assert_eq!(answer_of(file.clone().write(3, 2, 5)), (17, 6));
    assert_eq!(answer_of(file.clone().write(1, 0, 4)), (9, 6));
    assert_eq!(answer_of(file.clone().read(2, 1, 4)), (9, 6));
    assert_eq!(answer_of(file.read(2, 1, 5)), (0, 7));
}

/// Each kind between entities of each sort, all objects among them signed.
#[test]
fn signed_objects_are_objects_to_each_kind() {
    for kind in Kind::ALL {
        for source in Sort::ALL {
            for target in Sort::ALL {
                let refusal = match (source, target) == kind.sorts() {
                    false => 8,
                    true if target == Sort::Object => 17,
                    true => 0,
                };
                assert_eq!(refusal_between_signed(kind, [source, target]), refusal);
            }
        }
    }
}

/// The refusal of an event from entity 0 to entity 1, of these sorts.
fn refusal_between_signed(kind: Kind, sorts: [Sort; 2]) -> u32 {
    let mut file = FileBuilder::version_2();
    for (number, sort) in (0..).zip(sorts) {
        file = file.declaration(Declaration { number, sort });
    }
    for (number, sort) in (0..).zip(sorts) {
        if sort == Sort::Object {
            file = file.sign(number);
        }
    }
    let (source, target, time) = (0, 1, 1);
    let event = Event {
        kind,
        source,
        target,
        time,
    };
    answer_of(file.event(event)).0
}

#[test]
fn events_out_of_a_signed_object() {
    let file = written_and_signed();
    let file = file.read(2, 3, 6).load(2, 3, 7).execve(2, 3, 8);
    let tables = grown(&file.bytes());
    let edges = tables.view().edge_rows().map(|row| row.numbers());
    let expected = [[1, 2, 2, 5, 1, 5], [2, 3, 1, 6, 2, 7], [2, 3, 5, 8, 1, 8]];
    assert_eq!(edges.collect::<Vec<_>>(), expected);
    assert_eq!(signed(&tables), [2]);
}

/// The same trail without its signatures.
fn unsigned(tables: &Tables) -> Tables {
    let mut tables = tables.clone();
    for entity in signed(&tables) {
        tables.entities[entity as usize * 2] = 0;
    }
    tables
}

#[test]
fn signatures_change_no_trace() {
    let mut random = Random::new(90);
    for _ in 0..30 {
        let mut tables = match random.below(2) {
            0 => grown_tables(&mut random, 30),
            _ => sound_tables(&mut random),
        };
        sign_all(&mut tables);
        let unsigned = unsigned(&tables);
        for entity in 0..tables.counts.entities {
            for time in times(tables.counts.last.min(60)) {
                let [of_signed, of_unsigned] =
                    [&tables, &unsigned].map(|tables| backward(tables, entity, time));
                assert_eq!(of_signed, of_unsigned);
                let [of_signed, of_unsigned] =
                    [&tables, &unsigned].map(|tables| forward(tables, &[entity], time));
                assert_eq!(of_signed, of_unsigned);
            }
        }
    }
}
