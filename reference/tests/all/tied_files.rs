//! Ties in generated files and lists of calls.

use crate::common::fresh;
use reference::file::HEADER_BYTES;
use reference::generate::{
    at_one_time, at_rising_times, call_list, event_file, grown_tables, long_file, long_signed_file,
    refused_batch, BatchFault, RecordSource, Ties,
};
use reference::record::RECORD_BYTES;
use reference::{worked_file, Call, Capacity, FullList, Kind, Random};

/// The times of the events of a file.
fn times_of(file: &[u8]) -> Vec<u32> {
    let records = file[HEADER_BYTES..].chunks_exact(RECORD_BYTES);
    let events = records.filter(|record| (1..=5).contains(&record[0]));
    let time = |record: &[u8]| u32::from_le_bytes([record[8], record[9], record[10], record[11]]);
    events.map(time).collect()
}

/// How many times are that of the event before.
fn ties_in(times: &[u32]) -> usize {
    let pairs = times.windows(2);
    pairs.filter(|pair| pair[0] == pair[1]).count()
}

/// The most events of a tick.
fn longest_run(times: &[u32]) -> usize {
    let runs = times.chunk_by(|one, next| one == next);
    runs.map(<[u32]>::len).max().unwrap_or(0)
}

#[test]
fn each_choice_of_ties() {
    let mut random = Random::new(120);
    for _ in 0..20 {
        let mut times = |ties: Ties| {
            let mut source = RecordSource::fresh().with_ties(ties);
            let file = event_file(&mut random, &mut source, 90);
            assert_eq!(fresh(100).batch(&file).refusal, 0);
            times_of(&file)
        };
        assert_eq!(ties_in(&times(Ties::Never)), 0);
        let often = times(Ties::Often);
        let ties = ties_in(&often);
        assert!(
            often.len() / 6 < ties && ties < often.len() / 2,
            "{often:?}"
        );
        let runs = times(Ties::Runs);
        assert!(longest_run(&runs) >= 10 && longest_run(&runs) < runs.len());
        let all = times(Ties::Always);
        assert_eq!(longest_run(&all), all.len());
    }
}

#[test]
fn the_greatest_time_stays() {
    let mut random = Random::new(121);
    for ties in Ties::ALL {
        assert_eq!(ties.next_time(&mut random, u32::MAX), u32::MAX);
        assert!(ties.next_time(&mut random, 0) > 0);
    }
}

#[test]
fn long_files_have_ties() {
    let mut random = Random::new(122);
    let files = [
        long_file(&mut random, 20, &Kind::ALL, 900),
        long_signed_file(&mut random, 20, 900),
    ];
    for file in files {
        let ties = ties_in(&times_of(&file));
        assert!(200 < ties && ties < 400, "{ties}");
    }
}

/// Inside of files and at their borders.
#[test]
fn lists_of_calls_have_ties() {
    let (mut inside, mut borders) = (0, 0);
    for seed in 0..100 {
        let mut random = Random::new(seed);
        let mut list = FullList::new();
        for lent in call_list(&mut random, 12) {
            if let Call::Batch { file } = &lent.call {
                let before = list.accepted.len();
                list.batch(Capacity::of(lent.lengths), file);
                let times: Vec<u32> = list.events().iter().map(|event| event.time).collect();
                inside += ties_in(&times[before..]);
                let border = before.saturating_sub(1)..times.len().min(before + 1);
                borders += ties_in(&times[border]);
            }
        }
    }
    assert!(inside > 500 && borders > 50, "{inside} {borders}");
}

#[test]
fn grown_tables_have_ties_of_versions() {
    let mut random = Random::new(123);
    let mut equal = 0;
    for _ in 0..100 {
        let tables = grown_tables(&mut random, 60);
        let view = tables.view();
        let later = view.version_rows().filter(|row| row.start > 0);
        let tied = later.filter(|row| view.version(row.previous).start == row.start);
        equal += tied.count();
    }
    assert!(equal > 50, "{equal}");
}

#[test]
fn events_moved_in_time() {
    let file = worked_file();
    assert_eq!(times_of(&at_one_time(&file, 9)), [9; 7]);
    assert_eq!(times_of(&at_rising_times(&file, 3)), [4, 5, 6, 7, 8, 9, 10]);
    assert_eq!(at_rising_times(&file, 0), file);
    assert_eq!(at_one_time(&file, 9)[..56], file[..56]);
}

/// Time 0 at the first event of all, and an earlier time above 0.
#[test]
fn batches_refused_for_their_times() {
    let mut random = Random::new(124);
    let mut just_before = 0;
    for _ in 0..50 {
        let mut at_first = refused_batch(&mut random, BatchFault::TimeZeroAtFirst);
        assert_eq!(at_first.tables.batch(&at_first.file).refusal, 9);
        let counts = at_first.tables.counts;
        assert_eq!((counts.accepted, counts.last), (0, 0));
        let mut lower = refused_batch(&mut random, BatchFault::TimeLower);
        assert_eq!(lower.tables.batch(&lower.file).refusal, 9);
        let record = &lower.file[HEADER_BYTES + RECORD_BYTES * lower.taken as usize..];
        let time = u32::from_le_bytes([record[8], record[9], record[10], record[11]]);
        let last = lower.tables.counts.last;
        assert!(0 < time && time < last);
        just_before += u32::from(time == last - 1);
    }
    assert!(just_before > 10, "{just_before}");
}

/// The record at fault is in the tick of the last event now and then, for each
/// other fault of an event.
#[test]
fn faults_other_than_of_time_in_the_tick_of_the_last_event() {
    let mut random = Random::new(125);
    for fault in [
        BatchFault::SourceSort,
        BatchFault::IntoSigned,
        BatchFault::NoEdgeRow,
        BatchFault::NoVersionRowForEvent,
        BatchFault::AcceptedFull,
    ] {
        let mut in_tick = 0;
        for _ in 0..40 {
            let mut case = refused_batch(&mut random, fault);
            assert_eq!(case.tables.batch(&case.file).refusal, fault.refusal());
            let times =
                times_of(&case.file[..HEADER_BYTES + RECORD_BYTES * (case.taken as usize + 1)]);
            in_tick += u32::from(times.last() == Some(&case.tables.counts.last));
        }
        assert!(5 < in_tick && in_tick < 35, "{in_tick}");
    }
}
