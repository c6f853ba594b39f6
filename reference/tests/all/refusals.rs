//! Each refusal number, for each call where it can occur, in its order.

use crate::common::{fresh, worked_tables};
use reference::generate::{
    any_call, any_lengths, lend_anew, refused_batch, set_count, sound_tables, unsound_tables,
    BatchFault,
};
use reference::sound::Clause;
use reference::{
    worked_declarations, worked_file, Answer, FileBuilder, Kind, Random, Record, Sort, Tables,
};

/// The numbers each call can be refused with.
const BATCH: [u32; 15] = [1, 2, 3, 4, 5, 6, 7, 8, 9, 10, 11, 12, 13, 16, 17];
const TRACE: [u32; 3] = [5, 14, 16];
const LOG: [u32; 2] = [15, 16];

#[test]
fn each_batch_fault_gives_its_number() {
    let mut random = Random::new(20);
    for fault in BatchFault::ALL {
        for _ in 0..30 {
            let case = refused_batch(&mut random, fault);
            let mut tables = case.tables.clone();
            let answer = tables.batch(&case.file);
            let expected = (case.refusal, case.taken);
            assert_eq!((answer.refusal, answer.taken), expected, "{fault:?}");
        }
    }
}

#[test]
fn a_refused_batch_shows_the_records_before() {
    let mut random = Random::new(21);
    for fault in BatchFault::ALL {
        let case = refused_batch(&mut random, fault);
        let mut tables = case.tables.clone();
        tables.batch(&case.file);
        let mut expected = case.tables.clone();
        if case.taken > 0 {
            let good_bytes = 8 + 12 * case.taken as usize;
            assert_eq!(expected.batch(&case.file[..good_bytes]).refusal, 0);
        }
        assert_eq!(tables, expected, "{fault:?}");
    }
}

/// How often each call was refused with each number.
#[derive(Default)]
struct Seen {
    batch: [u32; 18],
    backward: [u32; 18],
    forward: [u32; 18],
    log: [u32; 18],
}

impl Seen {
    fn note(&mut self, answer: Answer) {
        let numbers = match answer {
            Answer::Batch(_) => &mut self.batch,
            Answer::Backward(_) => &mut self.backward,
            Answer::Forward(_) => &mut self.forward,
            Answer::KeptLog(_) => &mut self.log,
        };
        numbers[answer.refusal() as usize] += 1;
    }
}

/// Asserts that exactly these numbers were seen, and 0 too.
fn assert_seen(seen: [u32; 18], numbers: &[u32]) {
    for number in 0..=17 {
        let can_occur = number == 0 || numbers.contains(&number);
        assert_eq!(seen[number as usize] > 0, can_occur, "number {number}");
    }
}

fn run_any_call(random: &mut Random, seen: &mut Seen, tables: &Tables) {
    let mut call = any_call(random, tables);
    seen.note(call.run(&mut tables.clone()));
}

#[test]
fn each_number_occurs_for_each_call_where_it_can() {
    let mut random = Random::new(22);
    let mut seen = Seen::default();
    for fault in BatchFault::ALL {
        let mut case = refused_batch(&mut random, fault);
        seen.note(Answer::Batch(case.tables.batch(&case.file)));
    }
    for _ in 0..1_500 {
        let tables = sound_tables(&mut random);
        run_any_call(&mut random, &mut seen, &tables);
        let lengths = any_lengths(&mut random, tables.counts);
        let short = lend_anew(&mut random, &tables, lengths);
        run_any_call(&mut random, &mut seen, &short);
    }
    assert_seen(seen.batch, &BATCH);
    assert_seen(seen.backward, &TRACE);
    assert_seen(seen.forward, &TRACE);
    assert_seen(seen.log, &LOG);
}

#[test]
fn unsound_tables_come_before_all_else() {
    let mut random = Random::new(23);
    for clause in Clause::ALL {
        let mut tables = unsound_tables(&mut random, clause);
        assert_eq!(tables.batch(&[]).refusal, 16);
        assert_eq!(tables.backward(u32::MAX, 0, &mut [], &mut []).refusal, 16);
        assert_eq!(tables.forward(&[u32::MAX], 0, &mut [], &mut []).refusal, 16);
        assert_eq!(tables.kept_log(&mut []).refusal, 16);
    }
}

#[test]
fn undeclared_comes_before_short_buffers() {
    let tables = worked_tables();
    for entity in [4, 65_536, u32::MAX] {
        assert_eq!(tables.backward(entity, 0, &mut [], &mut []).refusal, 5);
        assert_eq!(tables.forward(&[entity], 0, &mut [], &mut []).refusal, 5);
    }
}

#[test]
fn either_buffer_too_short() {
    let tables = worked_tables();
    for (work, marks, refusal) in [(5, 4, 0), (4, 4, 14), (5, 3, 14), (4, 3, 14), (0, 0, 14)] {
        let (mut work, mut marks) = (vec![7; work], vec![7; marks]);
        let answer = tables.backward(2, 6, &mut work, &mut marks);
        assert_eq!(answer.refusal, refusal);
        let answer = tables.forward(&[2], 6, &mut work, &mut marks);
        assert_eq!(answer.refusal, refusal);
    }
}

#[test]
fn each_kind_asks_for_its_sorts() {
    for kind in Kind::ALL {
        for source_sort in Sort::ALL {
            for target_sort in Sort::ALL {
                let refusal = refusal_of_event(kind, source_sort, target_sort);
                let is_right = (source_sort, target_sort) == kind.sorts();
                assert_eq!(refusal, if is_right { 0 } else { 8 });
            }
        }
    }
}

/// The refusal of an event between two entities of these sorts.
fn refusal_of_event(kind: Kind, source_sort: Sort, target_sort: Sort) -> u32 {
    let mut declarations = FileBuilder::new();
    for (number, sort) in [source_sort, target_sort].into_iter().enumerate() {
        let number = number as u16;
        declarations = declarations.declaration(reference::Declaration { number, sort });
    }
    let event = reference::Event {
        kind,
        source: 0,
        target: 1,
        time: 1,
    };
    let file = declarations.record(Record::Event(event)).bytes();
    fresh(10).batch(&file).refusal
}

#[test]
fn accepted_stops_at_a_million() {
    let mut tables = worked_tables();
    tables.counts.accepted = 999_999;
    set_count(&mut tables, 3, 999_993);
    let file = FileBuilder::new().read(3, 1, 8).read(3, 1, 9).bytes();
    let answer = tables.batch(&file);
    assert_eq!((answer.refusal, answer.taken), (13, 1));
    assert_eq!((tables.counts.accepted, tables.counts.last), (1_000_000, 8));
    assert_eq!(tables.view().edge(2).numbers(), [3, 4, 1, 5, 3, 8]);
    let declaration = FileBuilder::new().object(4).bytes();
    assert_eq!(tables.batch(&declaration).refusal, 0);
}

#[test]
fn last_time_of_all() {
    let mut tables = worked_tables();
    let file = FileBuilder::new().read(3, 1, u32::MAX).read(3, 1, u32::MAX);
    let answer = tables.batch(&file.read(3, 1, u32::MAX - 1).bytes());
    assert_eq!((answer.refusal, answer.taken), (9, 2));
    assert_eq!(tables.counts.last, u32::MAX);
}

#[test]
fn version_row_is_asked_for_only_where_one_is_made() {
    let mut tables = fresh(10);
    tables.versions.truncate(4 * 4);
    let answer = tables.batch(&worked_file());
    assert_eq!((answer.refusal, answer.taken), (11, 8));
    assert_eq!(tables.counts.edges, 2);
}

#[test]
fn a_declaration_after_events() {
    let mut tables = fresh(10);
    let file = worked_declarations().read(0, 1, 5).subject(4).read(0, 4, 6);
    let answer = tables.batch(&file.bytes());
    assert_eq!((answer.refusal, answer.taken), (0, 7));
    assert_eq!(tables.versions[16..20], [4, 0, 6, u32::MAX]);
}
