//! Event files of real programs' runs, from `examples/`.

use crate::batches::{from_fresh, largest_tables};
use crate::library;
use crate::line::{Goal, Line};
use reference::{Counts, Tables};
use std::collections::HashSet;
use std::fs;
use std::path::Path;

const NAMES: [&str; 4] = ["build.slt", "git.slt", "python.slt", "shell.slt"];
/// Batches a run; the files are short.
const TIMES: u32 = 200;

/// What is left of a file's events and entities.
pub struct Reduction {
    pub name: &'static str,
    pub counts: Counts,
    /// The edges of a log with one edge for each two entities.
    pub pairs: usize,
}

impl Reduction {
    /// Accepted to kept events.
    pub fn factor(&self) -> f64 {
        f64::from(self.counts.accepted) / f64::from(self.counts.edges)
    }

    pub fn by_pairs(&self) -> f64 {
        f64::from(self.counts.accepted) / self.pairs as f64
    }

    /// Versions an entity.
    pub fn versions(&self) -> f64 {
        f64::from(self.counts.versions) / f64::from(self.counts.entities)
    }

    /// The same, if each event made a version.
    pub fn naive(&self) -> f64 {
        1.0 + f64::from(self.counts.accepted) / f64::from(self.counts.entities)
    }
}

pub fn real_files() -> Vec<Line> {
    let line = |name| {
        let title = format!("examples/{name}");
        from_fresh(&title, Goal::None, &file_of(name), TIMES)
    };
    NAMES.map(line).into_iter().collect()
}

pub fn reductions() -> Vec<Reduction> {
    let reduction = |name| {
        let mut tables = largest_tables();
        let answer = library::batch(&mut tables, &file_of(name));
        assert_eq!(answer.refusal, 0, "examples are taken in whole");
        Reduction {
            name,
            counts: tables.counts,
            pairs: pairs_of(&tables),
        }
    };
    NAMES.map(reduction).into_iter().collect()
}

fn file_of(name: &str) -> Vec<u8> {
    let examples = Path::new(env!("CARGO_MANIFEST_DIR")).join("../examples");
    fs::read(examples.join(name)).expect("the example is there")
}

/// The first event from an entity to another is always kept.
fn pairs_of(tables: &Tables) -> usize {
    let view = tables.view();
    let entity = |number: u32| view.version(number).entity;
    let pairs = view
        .edge_rows()
        .map(|edge| (entity(edge.from), entity(edge.to)));
    pairs.collect::<HashSet<_>>().len()
}
