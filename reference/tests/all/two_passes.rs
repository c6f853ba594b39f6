//! On grown tables a trace takes two passes: the first finds all, the second
//! finds no more. The passes here are those of the library.

use crate::common::{backward, forward};
use reference::generate::{
    call_list, grown_tables, lend_anew, long_file, sound_tables, tables_of_late_first_forks,
};
use reference::rows::{EdgeRow, NO_VERSION};
use reference::trace::start_version;
use reference::{Kind, Random, TableLengths, TableView, Tables};
use std::collections::BTreeSet;

/// The marks of a trace under way, a byte for each version.
struct Passes<'a> {
    view: TableView<'a>,
    marked: Vec<u8>,
}

impl Passes<'_> {
    /// With the start versions of these entities marked.
    fn new<'a>(view: TableView<'a>, entities: &[u32], time: u32) -> Passes<'a> {
        let mut marked = vec![0; view.counts.versions as usize];
        for entity in entities {
            marked[start_version(view, *entity, time) as usize] = 1;
        }
        Passes { view, marked }
    }

    fn is_marked(&self, number: u32) -> bool {
        number != NO_VERSION && self.marked[number as usize] == 1
    }

    fn mark(&mut self, number: u32) {
        if number != NO_VERSION {
            self.marked[number as usize] = 1;
        }
    }

    fn previous(&self, number: u32) -> u32 {
        self.view.version(number).previous
    }

    /// The edges from the last to the first, then the version steps likewise.
    /// An edge into a marked version also marks the version before it.
    fn backward_pass(&mut self, is_followed: impl Fn(EdgeRow) -> bool) {
        for edge in (0..self.view.counts.edges).rev() {
            let edge = self.view.edge(edge);
            if self.is_marked(edge.to) {
                if is_followed(edge) {
                    self.mark(edge.from);
                }
                self.mark(self.previous(edge.to));
            }
        }
        for number in (0..self.view.counts.versions).rev() {
            if self.is_marked(number) {
                self.mark(self.previous(number));
            }
        }
    }

    /// The edges from the first to the last, then the version steps likewise.
    /// An edge marks the version it enters also if the one before it is marked.
    fn forward_pass(&mut self) {
        for edge in self.view.edge_rows() {
            if self.is_marked(self.previous(edge.to)) || self.is_marked(edge.from) {
                self.mark(edge.to);
            }
        }
        for number in 0..self.view.counts.versions {
            if self.is_marked(self.previous(number)) {
                self.mark(number);
            }
        }
    }

    /// Passes until one changes nothing; that one is counted too.
    fn repeat(&mut self, pass: impl Fn(&mut Self)) -> u32 {
        let mut passes = 0;
        loop {
            let before = self.marked.clone();
            pass(self);
            passes += 1;
            if self.marked == before {
                return passes;
            }
        }
    }
}

/// The passes of a backward trace and its work buffer.
fn backward_passes(tables: &Tables, entity: u32, time: u32) -> (u32, Vec<u8>) {
    let start = start_version(tables.view(), entity, time);
    let mut passes = Passes::new(tables.view(), &[entity], time);
    let is_followed = |edge: EdgeRow| edge.to != start || edge.time <= time;
    let count = passes.repeat(|passes| passes.backward_pass(is_followed));
    (count, passes.marked)
}

/// The passes of a forward trace and its work buffer.
fn forward_passes(tables: &Tables, members: &[u32], time: u32) -> (u32, Vec<u8>) {
    let mut passes = Passes::new(tables.view(), members, time);
    let count = passes.repeat(Passes::forward_pass);
    (count, passes.marked)
}

/// A time from each span in which no start and no edge falls.
fn times(tables: &Tables) -> BTreeSet<u32> {
    let view = tables.view();
    let starts = view.version_rows().map(|version| version.start);
    let edges = view.edge_rows().map(|edge| edge.time);
    starts.chain(edges).chain([0]).collect()
}

/// The most passes of a trace of any entity at any time, and forward of each
/// two neighbours and of all at once. The marks must be those of the reference.
fn most_passes(tables: &Tables) -> u32 {
    let mut most = 0;
    let entities: Vec<u32> = (0..tables.counts.entities).collect();
    let lists = entities.chunks(1).chain(entities.windows(2));
    let lists: Vec<&[u32]> = lists.chain([entities.as_slice()]).collect();
    for time in times(tables) {
        for entity in &entities {
            let (passes, work) = backward_passes(tables, *entity, time);
            assert_eq!(backward(tables, *entity, time).1, work);
            most = most.max(passes);
        }
        for members in &lists {
            let (passes, work) = forward_passes(tables, members, time);
            assert_eq!(forward(tables, members, time).work, work);
            most = most.max(passes);
        }
    }
    most
}

#[test]
fn tables_grown_by_one_batch() {
    let mut random = Random::new(80);
    let trails = (0..150).map(|_| grown_tables(&mut random, 60));
    assert_eq!(trails.map(|tables| most_passes(&tables)).max(), Some(2));
}

#[test]
fn tables_grown_by_lists_of_calls() {
    let mut most = 0;
    for seed in 0..70 {
        let mut random = Random::new(seed);
        let mut tables = Tables::fresh(TableLengths::of_rows(0, 0, 0));
        for mut lent in call_list(&mut random, 12) {
            tables = lend_anew(&mut random, &tables, lent.lengths);
            lent.call.run(&mut tables);
        }
        most = most.max(most_passes(&tables));
    }
    assert_eq!(most, 2);
}

#[test]
fn tables_grown_by_a_long_file() {
    let mut random = Random::new(81);
    let file = long_file(&mut random, 60, &Kind::ALL, 3_000);
    let mut tables = Tables::fresh(TableLengths::of_rows(60, 3_000, 3_000));
    assert_eq!(tables.batch(&file).refusal, 0);
    let last = tables.counts.last;
    let mut most = 0;
    for entity in 0..tables.counts.entities {
        for time in [0, 1, last / 3, last / 2, last - 1, last] {
            most = most.max(backward_passes(&tables, entity, time).0);
            most = most.max(forward_passes(&tables, &[entity], time).0);
        }
    }
    assert_eq!(most, 2);
}

#[test]
fn tables_nobody_grew_may_take_more() {
    let mut random = Random::new(82);
    let tables = (0..200).map(|_| sound_tables(&mut random));
    let most = tables.map(|tables| most_passes(&tables)).max();
    assert!(most > Some(2), "{most:?}");
}

#[test]
fn at_worst_there_are_as_many_passes_as_versions() {
    let tables = tables_of_late_first_forks(50);
    assert_eq!(backward_passes(&tables, 49, 100).0, 50);
    assert_eq!(forward_passes(&tables, &[0], 0).0, 50);
}
