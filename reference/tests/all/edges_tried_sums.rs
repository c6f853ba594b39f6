//! How many edges a batch tries in all: refused ones, parts of a file, and
//! sums past 32 bits.

use crate::common::worked_tables;
use reference::capacity::{EDGE_ROW, MOST_EDGES, VERSION_ROW};
use reference::file::HEADER_BYTES;
use reference::generate::calls::batch_on;
use reference::generate::{
    filled_edges, grown_tables, refused_batch, set_count, sound_tables, unsound_tables,
    with_repeats_of_oldest, BatchFault,
};
use reference::peer::Trail;
use reference::record::RECORD_BYTES;
use reference::sound::Clause;
use reference::{long_batch, BatchAnswer, Call, FileBuilder, Random, TableLengths, Tables};
use std::mem::{offset_of, size_of};

#[test]
fn the_answer_has_16_bytes() {
    assert_eq!(size_of::<BatchAnswer>(), 16);
    let offsets = [
        offset_of!(BatchAnswer, refusal),
        offset_of!(BatchAnswer, taken),
        offset_of!(BatchAnswer, tried),
    ];
    assert_eq!(offsets, [0, 4, 8]);
}

/// 0 with 16, 1 and 2.
#[test]
fn a_refused_batch_gives_that_of_the_records_before() {
    let mut random = Random::new(48);
    let mut some = [0; 18];
    for fault in BatchFault::ALL {
        for _ in 0..30 {
            let case = refused_batch(&mut random, fault);
            let refused = case.tables.clone().batch(&case.file);
            let good = HEADER_BYTES + RECORD_BYTES * case.taken as usize;
            let expected = match refused.refusal {
                1 | 2 => 0,
                _ => case.tables.clone().batch(&case.file[..good]).tried,
            };
            assert_eq!(refused.tried, expected, "{fault:?}");
            some[refused.refusal as usize] += u32::from(refused.tried > 0);
        }
    }
    let with_records = some[3..=13].iter().chain(&some[17..]);
    assert!(with_records.clone().all(|count| *count > 10), "{some:?}");
    for clause in Clause::ALL {
        let mut tables = unsound_tables(&mut random, clause);
        let answer = tables.batch(&FileBuilder::new().bytes());
        assert_eq!(answer, BatchAnswer::nothing_taken(16));
    }
}

/// The read at 8 tries two edges; the record after it is refused, for each
/// reason that an event can have, and counts none.
#[test]
fn a_refused_event_counts_none() {
    let read = || FileBuilder::version_2().read(3, 1, 8);
    let (roomy, no_version, no_edge) = ([9, 9], [5, 9], [9, 4]);
    let refused = [
        (read().raw(&[1, 0, 0]), roomy, 3),
        (read().raw(&[6; 12]), roomy, 4),
        (read().sign(4), roomy, 5),
        (read().sign(1), roomy, 8),
        (read().read(0, 4, 9), roomy, 5),
        (read().read(1, 1, 9), roomy, 7),
        (read().read(1, 0, 9), roomy, 8),
        (read().read(3, 1, 7), roomy, 9),
        (read().write(1, 3, 9), no_version, 11),
        (read().write(1, 0, 9), no_edge, 12),
    ];
    let answer_of = |tables: &mut Tables, file: FileBuilder| {
        let answer = tables.batch(&file.bytes());
        (answer.refusal, answer.taken, answer.tried)
    };
    for (file, [versions, edges], refusal) in refused {
        let mut tables = worked_tables();
        tables.versions.truncate(versions * VERSION_ROW);
        tables.edges.truncate(edges * EDGE_ROW);
        assert_eq!(answer_of(&mut tables, file), (refusal, 1, 2));
    }
    let file = read().sign(2).write(1, 2, 9);
    assert_eq!(answer_of(&mut worked_tables(), file), (17, 2, 2));
    let mut tables = worked_tables();
    tables.counts.accepted = 999_999;
    set_count(&mut tables, 3, 999_993);
    let file = read().read(3, 1, 9);
    assert_eq!(answer_of(&mut tables, file), (13, 1, 2));
}

/// A batch in two parts, the first of so many records.
fn in_two_parts(tables: &mut Tables, file: &[u8], records: usize) -> [BatchAnswer; 2] {
    let (first, rest) = file.split_at(HEADER_BYTES + RECORD_BYTES * records);
    let first = tables.batch(first);
    [first, tables.batch(&[&file[..HEADER_BYTES], rest].concat())]
}

#[test]
fn the_numbers_of_the_parts_add_up() {
    let mut random = Random::new(49);
    let mut added = 0;
    for _ in 0..400 {
        let tables = match random.below(2) {
            0 => grown_tables(&mut random, 40),
            _ => sound_tables(&mut random),
        };
        let Call::Batch { file } = batch_on(&mut random, &tables) else {
            continue;
        };
        let mut whole = tables.clone();
        let answer = whole.batch(&file);
        if file.len() < HEADER_BYTES {
            continue;
        }
        for records in 0..=answer.taken as usize {
            let mut parted = tables.clone();
            let parts = in_two_parts(&mut parted, &file, records);
            assert_eq!(parts[0].tried + parts[1].tried, answer.tried);
            assert_eq!((parts[1].refusal, &parted), (answer.refusal, &whole));
            added += u32::from(parts.iter().all(|part| part.tried > 0));
        }
    }
    assert!(added > 300, "{added}");
}

/// 16,384 repeats of the oldest of 262,144 edges try 2^32 edges, one by one;
/// here is one more, and an event refused after all edges are tried for it.
#[test]
fn the_sum_has_64_bits() {
    let lengths = TableLengths::of_rows(5, 40_000, MOST_EDGES);
    let mut tables = Tables::fresh(lengths);
    let filled = long_batch(&mut tables, &filled_edges().bytes());
    assert_eq!((filled.refusal, filled.tried), (0, 0));
    assert_eq!(tables.counts.edges as usize, MOST_EDGES);
    let file = with_repeats_of_oldest(FileBuilder::new(), 16_385);
    let refused = file.write(1, 0, u32::MAX).bytes();
    let (mut long, mut peer) = (tables.clone(), Trail::of_tables(&tables));
    let answer = tables.batch(&refused);
    let expected = ((1 << 32) + 262_144, 16_385, 12);
    assert_eq!((answer.tried, answer.taken, answer.refusal), expected);
    assert_eq!(answer, long_batch(&mut long, &refused));
    assert_eq!(answer, peer.batch(tables.view().capacity(), &refused));
    assert!(tables == long);
}

/// The number is of the batch alone, whatever the trail took in before.
#[test]
fn it_begins_at_0_in_each_batch() {
    let mut tables = worked_tables();
    for time in 8..20 {
        let file = FileBuilder::new().read(3, 1, time).bytes();
        assert_eq!(tables.batch(&file).tried, 2);
    }
}
