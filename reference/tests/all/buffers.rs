//! What a call may write and what it leaves as it was.

use reference::capacity::{EDGE_ROW, ENTITY_ROW, VERSION_ROW};
use reference::generate::{
    any_call, any_lengths, grown_tables, lend_anew, sound_tables, unsound_tables,
};
use reference::sound::Clause;
use reference::{Answer, Call, Random, Tables};

/// Tables of all sorts: grown, sound, too short, unsound.
fn any_tables(random: &mut Random) -> Tables {
    let tables = match random.below(2) {
        0 => grown_tables(random, 40),
        _ => sound_tables(random),
    };
    match random.below(6) {
        0 => {
            let lengths = any_lengths(random, tables.counts);
            lend_anew(random, &tables, lengths)
        }
        1 => {
            let clause = Clause::ALL[random.below(Clause::ALL.len())];
            unsound_tables(random, clause)
        }
        _ => tables,
    }
}

/// Some calls and the tables they were made on: each before and after.
fn calls(seed: u64) -> Vec<(Tables, Call, Tables, Call, Answer)> {
    let mut random = Random::new(seed);
    let mut made = Vec::new();
    for _ in 0..1_500 {
        let before = any_tables(&mut random);
        let call = any_call(&mut random, &before);
        let (mut after, mut called) = (before.clone(), call.clone());
        let answer = called.run(&mut after);
        made.push((before, call, after, called, answer));
    }
    made
}

#[test]
fn traces_and_writer_leave_the_tables() {
    for (before, _, after, _, answer) in calls(30) {
        if !matches!(answer, Answer::Batch(_)) {
            assert_eq!(before, after);
        }
    }
}

#[test]
fn refused_traces_and_writer_write_nothing() {
    let mut refused = 0;
    for (_, call, _, called, answer) in calls(31) {
        if answer.refusal() != 0 && !matches!(answer, Answer::Batch(_)) {
            refused += 1;
            assert_eq!(call, called);
            assert_answer_is_empty(answer);
        }
    }
    assert!(refused > 100);
}

fn assert_answer_is_empty(answer: Answer) {
    match answer {
        Answer::Batch(_) => {}
        Answer::Backward(answer) => assert_eq!(answer.count, 0),
        Answer::Forward(answer) => assert_eq!((answer.count, answer.intake), (0, 0)),
        Answer::KeptLog(answer) => assert_eq!(answer.length, 0),
    }
}

#[test]
fn a_batch_refused_before_any_record_writes_nothing() {
    for (before, _, after, _, answer) in calls(32) {
        if let Answer::Batch(answer) = answer {
            if answer.taken == 0 {
                assert_eq!(before, after);
            }
        }
    }
}

#[test]
fn rows_past_the_counts_are_left() {
    for (before, _, after, _, answer) in calls(33) {
        if matches!(answer, Answer::Batch(_)) && answer.refusal() != 16 {
            let counts = after.counts;
            let entities = counts.entities as usize * ENTITY_ROW;
            let versions = counts.versions as usize * VERSION_ROW;
            let edges = counts.edges as usize * EDGE_ROW;
            assert_eq!(before.entities[entities..], after.entities[entities..]);
            assert_eq!(before.versions[versions..], after.versions[versions..]);
            assert_eq!(before.edges[edges..], after.edges[edges..]);
        }
    }
}

#[test]
fn rows_in_use_change_only_in_sort_latest_end_count_and_last() {
    let (mut counted, mut signed) = (0, 0);
    for (before, _, after, _, answer) in calls(34) {
        if matches!(answer, Answer::Batch(_)) && answer.refusal() != 16 {
            let (old, new) = (before.view(), after.view());
            for number in 0..before.counts.entities {
                match (old.entity(number).sort, new.entity(number).sort) {
                    (0, 2) => signed += 1,
                    (old, new) => assert_eq!(old, new),
                }
            }
            for number in 0..before.counts.versions {
                let (old, mut new) = (old.version(number), new.version(number));
                assert!(old.end <= new.end);
                new.end = old.end;
                assert_eq!(old, new);
            }
            for number in 0..before.counts.edges {
                let (old, mut new) = (old.edge(number), new.edge(number));
                assert!(old.count <= new.count && old.last <= new.last);
                match old.count < new.count {
                    true => assert!(before.counts.last <= new.last),
                    false => assert_eq!(old.last, new.last),
                }
                counted += new.count - old.count;
                (new.count, new.last) = (old.count, old.last);
                assert_eq!(old, new);
            }
        }
    }
    assert!(counted > 100 && signed > 10, "{counted} {signed}");
}

#[test]
fn buffers_hold_marks_up_to_the_counts() {
    let mut traced = 0;
    for (before, call, _, called, answer) in calls(35) {
        let count = match answer {
            Answer::Backward(answer) if answer.refusal == 0 => answer.count,
            Answer::Forward(answer) if answer.refusal == 0 => answer.count,
            _ => continue,
        };
        traced += 1;
        let ((old_work, old_marks), (work, marks)) = (buffers(&call), buffers(&called));
        let versions = before.counts.versions as usize;
        let entities = before.counts.entities as usize;
        assert_eq!(old_work[versions..], work[versions..]);
        assert_eq!(old_marks[entities..], marks[entities..]);
        assert!(work[..versions].iter().all(|mark| *mark <= 1));
        assert!(marks[..entities].iter().all(|mark| *mark <= 1));
        let ones = marks[..entities].iter().filter(|mark| **mark == 1);
        assert_eq!(ones.count() as u32, count);
        assert_marks_follow_work(&before, work, marks);
    }
    assert!(traced > 100);
}

fn buffers(call: &Call) -> (&[u8], &[u8]) {
    match call {
        Call::Backward { work, marks, .. } | Call::Forward { work, marks, .. } => (work, marks),
        _ => panic!("only traces have these buffers"),
    }
}

/// An entity is marked exactly if one of its versions is.
fn assert_marks_follow_work(tables: &Tables, work: &[u8], marks: &[u8]) {
    let mut expected = vec![0; tables.counts.entities as usize];
    for (number, version) in tables.view().version_rows().enumerate() {
        expected[version.entity as usize] |= work[number];
    }
    assert_eq!(marks[..expected.len()], expected);
}

#[test]
fn bytes_after_the_kept_log_are_left() {
    for (_, call, _, called, answer) in calls(36) {
        if let (Call::KeptLog { out: old }, Call::KeptLog { out }, Answer::KeptLog(answer)) =
            (call, called, answer)
        {
            let length = answer.length as usize;
            assert_eq!(old[length..], out[length..]);
        }
    }
}
