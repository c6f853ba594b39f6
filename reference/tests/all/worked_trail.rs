//! The cases of the worked trail, over tables and over the full list.

use crate::common::{backward, forward, fresh, log_of, worked_list, worked_tables};
use reference::full_list::StandsFor;
use reference::rows::NO_VERSION;
use reference::{
    worked_declarations, worked_file, BackwardAnswer, BatchAnswer, Counts, FileBuilder,
    ForwardAnswer, FullList, LogAnswer, TableLengths, Tables,
};

const COUNTS: Counts = Counts {
    entities: 4,
    versions: 5,
    edges: 4,
    accepted: 7,
    last: 7,
};

const ENTITIES: [u32; 8] = [0, 0, 1, 4, 0, 2, 0, 3];

const VERSIONS: [[u32; 4]; 5] = [
    [0, 0, 0, NO_VERSION],
    [1, 0, 1, NO_VERSION],
    [2, 0, 6, NO_VERSION],
    [3, 0, 0, NO_VERSION],
    [1, 5, 5, 1],
];

const EDGES: [[u32; 6]; 4] = [
    [0, 1, 1, 1, 2, 3],
    [1, 2, 2, 2, 2, 4],
    [3, 4, 1, 5, 2, 7],
    [4, 2, 2, 6, 1, 6],
];

fn assert_backward(entity: u32, time: u32, expected: [u8; 4]) {
    let count = expected.iter().map(|mark| u32::from(*mark)).sum();
    let answer = BackwardAnswer { refusal: 0, count };
    let (of_tables, _, marks) = backward(&worked_tables(), entity, time);
    assert_eq!((of_tables, marks.as_slice()), (answer, &expected[..]));
    let mut marks = [7; 4];
    let of_list = worked_list().backward(entity, time, 5, &mut marks);
    assert_eq!((of_list, marks), (answer, expected));
}

fn assert_forward(members: &[u32], time: u32, expected: [u8; 4], intake: u32) {
    let count = expected.iter().map(|mark| u32::from(*mark)).sum();
    let answer = ForwardAnswer {
        refusal: 0,
        count,
        intake,
    };
    let of_tables = forward(&worked_tables(), members, time);
    assert_eq!(of_tables.answer, answer);
    assert_eq!(of_tables.marks, expected);
    let mut marks = [7; 4];
    let of_list = worked_list().forward(members, time, 5, &mut marks);
    assert_eq!((of_list, marks), (answer, expected));
}

/// The edges tried for each event: none is there at 1; at 2, 5 and 6 there is
/// no hit; at 3 and 7 the hit is the second newest edge, at 4 the newest.
const TRIED: [u64; 7] = [0, 1, 2, 1, 2, 3, 2];

/// The worked file into tables with this many edge rows.
fn with_edge_rows(rows: usize) -> (BatchAnswer, Tables) {
    let mut tables = Tables::fresh(TableLengths::of_rows(10, 10, rows));
    let answer = tables.batch(&worked_file());
    (answer, tables)
}

#[test]
fn p1_rows() {
    let tables = worked_tables();
    assert_eq!(tables.counts, COUNTS);
    assert_eq!(tables.entities[..8], ENTITIES);
    assert_eq!(tables.versions[..20], VERSIONS.concat());
    assert_eq!(tables.edges[..24], EDGES.concat());
    assert_eq!(worked_list().counts(), COUNTS);
    let stands_for = EDGES.map(|edge| StandsFor {
        count: edge[4],
        last: edge[5],
    });
    assert_eq!(worked_list().stands_for(), stands_for);
}

#[test]
fn p2_backward_2_at_1() {
    assert_backward(2, 1, [0, 0, 1, 0]);
}

#[test]
fn p3_backward_2_at_4_and_5() {
    assert_backward(2, 4, [1, 1, 1, 0]);
    assert_backward(2, 5, [1, 1, 1, 0]);
}

#[test]
fn p4_backward_2_at_6() {
    assert_backward(2, 6, [1, 1, 1, 1]);
}

#[test]
fn p5_forward_3_at_0() {
    assert_forward(&[3], 0, [0, 1, 1, 1], 0);
}

#[test]
fn p6_forward_1_at_4() {
    assert_forward(&[1], 4, [0, 1, 1, 0], 1);
}

#[test]
fn p7_forward_1_at_5() {
    assert_forward(&[1], 5, [0, 1, 1, 0], 5);
}

#[test]
fn p8_forward_0_at_4() {
    assert_forward(&[0], 4, [1, 1, 1, 0], 0);
}

#[test]
fn p9_first_event_at_time_0_and_1() {
    let answer_at = |time: u32| {
        let mut tables = fresh(10);
        let answer = tables.batch(&worked_declarations().read(0, 1, time).bytes());
        (answer.refusal, answer.taken, tables.counts.accepted)
    };
    assert_eq!(answer_at(0), (9, 4, 0));
    assert_eq!(answer_at(1), (0, 5, 1));
}

#[test]
fn p10_four_edge_rows() {
    let (answer, tables) = with_edge_rows(4);
    assert_eq!((answer.refusal, answer.taken), (0, 11));
    assert_eq!((answer.tried, with_edge_rows(8).0), (11, answer));
    assert_eq!(tables.counts, COUNTS);
}

#[test]
fn p11_three_edge_rows() {
    let (answer, tables) = with_edge_rows(3);
    assert_eq!((answer.refusal, answer.taken), (12, 9));
    assert_eq!(answer.tried, 6);
    let expected = Counts {
        edges: 3,
        accepted: 5,
        last: 5,
        ..COUNTS
    };
    assert_eq!(tables.counts, expected);
}

/// The file up to each event, on tables and on the full list, and each event
/// in a batch of its own.
#[test]
fn edges_tried_for_each_event() {
    let file = worked_file();
    let mut alone = fresh(10);
    alone.batch(&worked_declarations().bytes());
    for events in 1..=TRIED.len() {
        let (last, end) = (8 + 12 * (3 + events), 8 + 12 * (4 + events));
        let sum: u64 = TRIED[..events].iter().sum();
        let answer = fresh(10).batch(&file[..end]);
        assert_eq!(answer.tried, sum);
        let capacity = fresh(10).view().capacity();
        assert_eq!(FullList::new().batch(capacity, &file[..end]), answer);
        let event = [&file[..8], &file[last..end]].concat();
        assert_eq!(alone.batch(&event).tried, TRIED[events - 1]);
    }
    assert_eq!(TRIED.iter().sum::<u64>(), 11);
}

#[test]
fn empty_file_and_header_alone() {
    let mut tables = fresh(10);
    let empty = tables.batch(&[]);
    assert_eq!((empty.refusal, empty.taken, empty.tried), (1, 0, 0));
    let header = tables.batch(&FileBuilder::new().bytes());
    assert_eq!((header.refusal, header.taken, header.tried), (0, 0, 0));
    assert_eq!(tables, fresh(10));
}

#[test]
fn kept_log_has_104_bytes() {
    let expected = worked_declarations()
        .read(0, 1, 1)
        .write(1, 2, 2)
        .read(3, 1, 5)
        .write(1, 2, 6)
        .bytes();
    let log = log_of(&worked_tables());
    assert_eq!(log.len(), 104);
    assert_eq!(log, expected);
}

#[test]
fn kept_log_in_103_bytes_is_refused() {
    let mut out = [7; 103];
    let answer = worked_tables().kept_log(&mut out);
    let (refusal, length) = (15, 0);
    assert_eq!(answer, LogAnswer { refusal, length });
    assert_eq!(out, [7; 103]);
}

#[test]
fn split_into_any_two_files() {
    let file = worked_file();
    for records in 0..=11 {
        let (first, rest) = file.split_at(8 + 12 * records);
        let mut tables = fresh(100);
        let first = tables.batch(first);
        let second = tables.batch(&[&file[..8], rest].concat());
        assert_eq!((first.refusal, first.taken), (0, records as u32));
        assert_eq!((second.refusal, second.taken), (0, 11 - records as u32));
        assert_eq!(first.tried + second.tried, 11);
        assert_eq!(tables, worked_tables());
    }
}
