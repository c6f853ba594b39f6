//! Equal edge times and equal starts in sound tables, worked by hand, and what
//! is not sound all the same.

use crate::common::{backward, broken_by, forward, fresh};
use reference::generate::{in_one_tick, set_count, sound_tables, unsound_tables};
use reference::rows::{EdgeRow, EntityRow, VersionRow, NO_VERSION};
use reference::sound::{broken_clauses, is_sound, Clause};
use reference::{FileBuilder, Kind, Random, Tables};

/// The worked trail with these times of its four edges, each of them also the
/// last.
fn with_edge_times(times: [u32; 4]) -> Vec<Clause> {
    broken_by(|tables| {
        for (number, time) in (0..).zip(times) {
            let row = tables.view().edge(number);
            let last = time;
            tables.set_edge(number, EdgeRow { time, last, ..row });
        }
    })
}

#[test]
fn edge_times_need_only_not_fall() {
    for sound in [[1, 2, 5, 6], [1, 1, 5, 5], [3, 3, 3, 4], [7; 4], [1; 4]] {
        assert_eq!(with_edge_times(sound), []);
    }
    for falling in [[2, 1, 5, 6], [1, 5, 4, 6], [1, 1, 7, 6], [7, 7, 7, 1]] {
        assert_eq!(with_edge_times(falling), [Clause::EdgeTimesDoNotFall]);
    }
}

#[test]
fn no_edge_has_time_0() {
    for with_0 in [[0, 2, 5, 6], [0, 0, 5, 6], [0; 4]] {
        assert_eq!(with_edge_times(with_0), [Clause::EdgeTimeAtLeastOne]);
    }
    let both = [Clause::EdgeTimeAtLeastOne, Clause::EdgeTimesDoNotFall];
    assert_eq!(with_edge_times([1, 0, 5, 6]), both);
}

/// An object with four versions of these starts and previous ones.
fn with_versions(rows: [(u32, u32); 4]) -> Vec<Clause> {
    let entities = [EntityRow { sort: 0, latest: 3 }];
    let versions = rows.map(|(start, previous)| VersionRow {
        entity: 0,
        start,
        end: 9,
        previous,
    });
    broken_clauses(Tables::of_rows(&entities, &versions, &[], 0, 9).view())
}

const NONE: u32 = NO_VERSION;

#[test]
fn starts_along_previous_need_only_not_fall() {
    for sound in [
        [(0, NONE), (3, 0), (5, 1), (7, 2)],
        [(0, NONE), (3, 0), (3, 1), (3, 2)],
        [(0, NONE), (3, 0), (3, 1), (3, 1)],
        [(0, NONE), (9, 0), (9, 1), (2, 0)],
    ] {
        assert_eq!(with_versions(sound), []);
    }
    for falling in [
        [(0, NONE), (3, 0), (2, 1), (7, 2)],
        [(0, NONE), (3, 0), (3, 1), (2, 2)],
        [(0, NONE), (9, 0), (9, 1), (1, 1)],
    ] {
        assert_eq!(with_versions(falling), [Clause::PreviousStartsNoLater]);
    }
}

/// Previous is none exactly when start is 0.
#[test]
fn only_a_first_version_has_start_0() {
    let several = [(0, NONE), (0, NONE), (3, 0), (0, NONE)];
    assert_eq!(with_versions(several), []);
    for with_previous in [
        [(0, NONE), (0, 0), (3, 0), (4, 2)],
        [(0, NONE), (3, 0), (3, 1), (0, 0)],
        [(0, NONE), (3, 0), (3, 1), (0, 2)],
    ] {
        let broken = with_versions(with_previous);
        assert_eq!(broken, [Clause::NoPreviousWhereStartIsZero]);
    }
    let without = [(0, NONE), (3, 0), (3, NONE), (3, 1)];
    assert_eq!(
        with_versions(without),
        [Clause::PreviousWhereStartIsNotZero]
    );
}

/// Object 0 has versions 0, 1 and 2, the last two of one tick; subject 1 has
/// version 3. Nobody grew them: no edge leaves version 1.
fn two_starts_in_one_tick() -> Tables {
    let entities = [
        EntityRow { sort: 0, latest: 2 },
        EntityRow { sort: 1, latest: 3 },
    ];
    let version = |entity, start, previous| VersionRow {
        entity,
        start,
        end: 9,
        previous,
    };
    let versions = [
        version(0, 0, NO_VERSION),
        version(0, 4, 0),
        version(0, 4, 1),
        version(1, 0, NO_VERSION),
    ];
    let edges = [(3, 1, Kind::Write), (2, 3, Kind::Read), (3, 2, Kind::Write)];
    let edges = edges.map(|(from, to, kind)| EdgeRow::new(from, to, kind, 4));
    let tables = Tables::of_rows(&entities, &versions, &edges, 3, 9);
    assert!(is_sound(tables.view()));
    tables
}

/// The start version is the highest-numbered of the tick.
#[test]
fn traces_of_equal_starts() {
    let tables = two_starts_in_one_tick();
    assert_eq!(forward(&tables, &[0], 3).work, [1, 1, 1, 1]);
    let at_tick = forward(&tables, &[0], 4);
    assert_eq!((at_tick.answer.intake, at_tick.work), (4, vec![0, 1, 1, 1]));
    assert_eq!(backward(&tables, 0, 3).1, [1, 0, 0, 0]);
    assert_eq!(backward(&tables, 0, 4).1, [1, 1, 1, 1]);
}

/// The edge from version 3 to object 0 makes the write a repeat, the newest of
/// two in the tick.
#[test]
fn the_newest_edge_of_a_tick_counts_a_repeat() {
    let mut tables = two_starts_in_one_tick();
    let answer = tables.batch(&FileBuilder::new().write(1, 0, 9).bytes());
    assert_eq!((answer.refusal, answer.tried), (0, 1));
    assert_eq!(tables.view().edge(0).count, 1);
    assert_eq!(tables.view().edge(2).numbers(), [3, 2, 2, 4, 2, 9]);
}

#[test]
fn tables_in_one_tick_are_sound() {
    let mut random = Random::new(110);
    let mut edges = 0;
    for _ in 0..300 {
        let mut tables = sound_tables(&mut random);
        in_one_tick(&mut tables);
        assert!(is_sound(tables.view()));
        edges += tables.counts.edges;
    }
    assert!(edges > 500, "{edges}");
}

/// How many pairs of numbers next to each other are equal.
fn equal_pairs(numbers: impl Iterator<Item = u32>) -> usize {
    let numbers: Vec<u32> = numbers.collect();
    let pairs = numbers.windows(2);
    pairs.filter(|pair| pair[0] == pair[1]).count()
}

/// How many versions start in the tick of their previous.
fn equal_starts(tables: &Tables) -> usize {
    let view = tables.view();
    let later = view.version_rows().filter(|row| row.previous != NO_VERSION);
    later
        .filter(|row| view.version(row.previous).start == row.start)
        .count()
}

#[test]
fn sound_tables_have_many_equal_times_and_starts() {
    let mut random = Random::new(111);
    let (mut times, mut starts, mut one_tick) = (0, 0, 0);
    for _ in 0..500 {
        let tables = sound_tables(&mut random);
        let equal = equal_pairs(tables.view().edge_rows().map(|row| row.time));
        times += equal;
        starts += equal_starts(&tables);
        one_tick += usize::from(equal > 1 && equal + 1 == tables.counts.edges as usize);
    }
    assert!(times > 500 && starts > 200, "{times} {starts}");
    assert!(one_tick > 20, "{one_tick}");
}

/// By one and by more; several first edges at time 0; a start of 0 with a
/// previous in a first version and in a later one.
#[test]
fn unsound_tables_miss_by_one_and_by_more() {
    let mut random = Random::new(112);
    let (mut falls, mut starts, mut at_0, mut of_start_0) = ([0; 2], [0; 2], [0; 2], [0; 2]);
    for _ in 0..200 {
        let tables = unsound_tables(&mut random, Clause::EdgeTimesDoNotFall);
        let times: Vec<u32> = tables.view().edge_rows().map(|row| row.time).collect();
        let fall = times
            .windows(2)
            .filter_map(|pair| pair[0].checked_sub(pair[1]))
            .max();
        falls[usize::from(fall > Some(1))] += 1;
        let tables = unsound_tables(&mut random, Clause::PreviousStartsNoLater);
        let view = tables.view();
        let later = view.version_rows().filter(|row| row.previous != NO_VERSION);
        let fall = later.filter_map(|row| view.version(row.previous).start.checked_sub(row.start));
        starts[usize::from(fall.max() > Some(1))] += 1;
        let tables = unsound_tables(&mut random, Clause::EdgeTimeAtLeastOne);
        let zeros = tables.view().edge_rows().filter(|row| row.time == 0);
        at_0[usize::from(zeros.count() > 1)] += 1;
        let tables = unsound_tables(&mut random, Clause::NoPreviousWhereStartIsZero);
        let (view, mut rows) = (tables.view(), tables.view().version_rows());
        let row = rows.find(|row| row.start == 0 && row.previous != NO_VERSION);
        let previous = row.and_then(|row| (row.previous < view.counts.versions).then_some(row));
        let of_same = previous.is_some_and(|row| view.version(row.previous).entity == row.entity);
        of_start_0[usize::from(of_same)] += 1;
    }
    for seen in [falls, starts, at_0, of_start_0] {
        assert!(seen.iter().all(|count| *count > 10), "{seen:?}");
    }
}

/// A batch at a tied time on tables with all accepted events but one.
#[test]
fn the_last_event_of_all_in_the_tick_of_the_one_before() {
    let mut tables = fresh(9);
    let file = FileBuilder::new().object(0).subject(1).read(0, 1, 5);
    assert_eq!(tables.batch(&file.bytes()).refusal, 0);
    tables.counts.accepted = 999_999;
    set_count(&mut tables, 0, 999_999);
    let file = FileBuilder::new().read(0, 1, 5).read(0, 1, 5).bytes();
    let answer = tables.batch(&file);
    assert_eq!((answer.refusal, answer.taken), (13, 1));
    assert_eq!(tables.view().edge(0).numbers(), [0, 1, 1, 5, 1_000_000, 5]);
}
