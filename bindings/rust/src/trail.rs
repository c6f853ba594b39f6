//! The trail: its counts and tables, and the calls on them.

use crate::rows::{all_rows, row};
use crate::tables::{Numbers, Tables};
use crate::worker::{OnWorker, Worker};
use crate::{
    ffi, Counts, EdgeNo, EdgeRow, EntityNo, EntityRow, ForwardTrace, FromRowsError, HeldFile,
    Refusal, RefusedBatch, Sort, Taken, Time, Trace, VersionNo, VersionRow, HEADER_LENGTH,
    RECORD_LENGTH,
};
use std::fmt;
use std::io;
use std::sync::Arc;

/// A trail with the greatest capacity. Its counts and tables are sound, always.
///
/// A clone shares the tables until one of the two takes a batch in, and the thread on which the library runs. Traces may be asked
/// from several threads at once; the library answers one after another.
#[derive(Clone)]
pub struct Trail {
    counts: Counts,
    tables: Arc<Tables>,
    worker: Arc<Worker>,
}

impl Trail {
    /// A fresh trail. Fails if the thread for the library cannot be started.
    pub fn new() -> io::Result<Trail> {
        Ok(Trail {
            counts: Counts::default(),
            tables: Arc::new(Tables::fresh()),
            worker: Arc::new(Worker::start()?),
        })
    }

    /// The trail with these counts and rows; a table may be longer than its rows in use. Refused if the library does not
    /// find them sound. Vectors are taken over as they are, and copied when the first batch needs the greatest capacity.
    ///
    /// ```
    /// # let trail = trail::Trail::new()?;
    /// let kept = (trail.counts(), trail.entity_rows().to_vec(), trail.version_rows().to_vec(), trail.edge_rows().to_vec());
    /// let again = trail::Trail::from_rows(kept.0, kept.1, kept.2, kept.3)?;
    /// assert_eq!(again.kept_log(), trail.kept_log());
    /// # Ok::<(), Box<dyn std::error::Error>>(())
    /// ```
    pub fn from_rows(
        counts: Counts,
        entities: impl Into<Vec<u32>>,
        versions: impl Into<Vec<u32>>,
        edges: impl Into<Vec<u32>>,
    ) -> Result<Trail, FromRowsError> {
        let tables = Tables {
            entities: Numbers::Own(entities.into()),
            versions: Numbers::Own(versions.into()),
            edges: Numbers::Own(edges.into()),
        };
        Trail::from_tables(counts, tables)
    }

    /// The trail with these counts whose rows in use stand in a file from byte `at` on: entities, versions and edges, each number in
    /// four bytes, the lowest first. Refused if the file ends before, or if the library does not find them sound. They are read where
    /// they stand until the first batch, or until they are detached.
    pub fn from_file(
        counts: Counts,
        file: &Arc<HeldFile>,
        at: usize,
    ) -> Result<Trail, FromRowsError> {
        match Tables::in_file(counts, file, at) {
            None => Err(FromRowsError::Unsound),
            Some(tables) => Trail::from_tables(counts, tables),
        }
    }

    /// Copies the rows if they stand in a file, which the trail then needs no more.
    pub fn detach(&mut self) {
        if self.tables.stand_in_a_file() {
            self.tables = Arc::new(self.tables.copy_rows(self.counts));
        }
    }

    fn from_tables(counts: Counts, tables: Tables) -> Result<Trail, FromRowsError> {
        let worker = Worker::start().map_err(FromRowsError::Thread)?;
        let mut lent = tables;
        let sound = worker.run(&mut lent, move |lent, on_worker| {
            is_sound(on_worker, counts, lent)
        });
        match sound {
            false => Err(FromRowsError::Unsound),
            true => Ok(Trail {
                counts,
                tables: Arc::new(lent),
                worker: Arc::new(worker),
            }),
        }
    }

    /// Takes the records of an event file in, in order until the first one refused. The records before that one stay in the
    /// trail; to take all or nothing, take the file into a clone.
    ///
    /// ```
    /// use trail::{DeclaredSort, EventFile, Refusal, Trail};
    ///
    /// let mut file = EventFile::new();
    /// file.declare(0, DeclaredSort::Object);
    /// file.declare(0, DeclaredSort::Object);
    /// let refused = Trail::new()?.batch(file.as_bytes()).unwrap_err();
    /// assert_eq!((refused.refusal, refused.record, refused.offset), (Refusal::NotNext, 2, 20));
    /// assert_eq!(refused.taken.records, 1);
    /// # Ok::<(), std::io::Error>(())
    /// ```
    pub fn batch(&mut self, file: &[u8]) -> Result<Taken, RefusedBatch> {
        let mut counts = self.counts;
        let file = file.to_vec();
        let (counts, answer) = self.worker.run(&mut self.tables, move |tables, on_worker| {
            let tables = for_writing(tables, counts);
            let answer = ffi::batch(on_worker, &mut counts, tables, &file);
            (counts, answer)
        });
        self.counts = counts;
        let taken = Taken {
            records: answer.taken,
            tried: answer.tried,
        };
        match Refusal::of_answer(answer.refusal) {
            Ok(()) => Ok(taken),
            Err(refusal) => Err(RefusedBatch::new(refusal, taken)),
        }
    }

    /// The backward trace of an entity at a time: the entities with a causal path to it by then, itself among them. Refused if the
    /// entity is not declared.
    pub fn backward(&self, entity: EntityNo, time: Time) -> Result<Trace, Refusal> {
        let counts = self.counts;
        let (answer, trace) = self.ask(move |tables, on_worker| {
            let mut trace = Trace::none(counts);
            let (work, marks) = (&mut trace.versions, &mut trace.entities);
            let answer = ffi::backward(on_worker, counts, tables, entity.0, time.0, work, marks);
            (answer, trace)
        });
        let count = answer.count;
        Refusal::of_answer(answer.refusal).map(|()| Trace { count, ..trace })
    }

    /// The forward trace of the members at a time: the entities with a causal path from one of them through events after its
    /// intake, the members among them. The order of the members and repeats among them change nothing. Refused if one is not
    /// declared.
    pub fn forward(&self, members: &[EntityNo], time: Time) -> Result<ForwardTrace, Refusal> {
        let counts = self.counts;
        let members: Vec<u32> = members.iter().map(|member| member.0).collect();
        let (answer, trace) = self.ask(move |tables, on_worker| {
            let mut trace = Trace::none(counts);
            let (work, marks) = (&mut trace.versions, &mut trace.entities);
            let answer = ffi::forward(on_worker, counts, tables, &members, time.0, work, marks);
            (answer, trace)
        });
        let count = answer.count;
        Refusal::of_answer(answer.refusal).map(|()| ForwardTrace {
            trace: Trace { count, ..trace },
            intake: Time(answer.intake),
        })
    }

    /// The kept log: an event file with all declarations, all edges in order as events, and the signatures. Counts and last times
    /// of the edges are not in it.
    pub fn kept_log(&self) -> Vec<u8> {
        let counts = self.counts;
        let length = self.kept_log_length();
        let (answer, log) = self.ask(move |tables, on_worker| {
            let mut log = vec![0; length];
            let answer = ffi::kept_log(on_worker, counts, tables, &mut log);
            (answer, log)
        });
        assert_eq!(
            (answer.refusal, answer.length as usize),
            (0, length),
            "the log of sound tables has this length"
        );
        log
    }

    fn kept_log_length(&self) -> usize {
        let signed = self
            .entities()
            .filter(|(_, row)| row.sort == Sort::SignedObject)
            .count();
        HEADER_LENGTH
            + RECORD_LENGTH * (self.counts.entities as usize + self.counts.edges as usize + signed)
    }

    pub fn counts(&self) -> Counts {
        self.counts
    }

    /// The row of an entity; `None` if it is not declared.
    pub fn entity(&self, entity: EntityNo) -> Option<EntityRow> {
        row(self.entity_rows(), entity.0)
    }

    /// The row of a version; `None` if there is none of that number.
    pub fn version(&self, version: VersionNo) -> Option<VersionRow> {
        row(self.version_rows(), version.0)
    }

    /// The row of an edge; `None` if there is none of that number.
    pub fn edge(&self, edge: EdgeNo) -> Option<EdgeRow> {
        row(self.edge_rows(), edge.0)
    }

    /// The entities, by number.
    pub fn entities(&self) -> impl Iterator<Item = (EntityNo, EntityRow)> + '_ {
        all_rows(self.entity_rows())
    }

    /// The versions, by number.
    pub fn versions(&self) -> impl Iterator<Item = (VersionNo, VersionRow)> + '_ {
        all_rows(self.version_rows())
    }

    /// The edges, by number.
    pub fn edges(&self) -> impl Iterator<Item = (EdgeNo, EdgeRow)> + '_ {
        all_rows(self.edge_rows())
    }

    /// The entity rows in use, as numbers.
    pub fn entity_rows(&self) -> &[u32] {
        self.tables.entity_rows(self.counts)
    }

    /// The version rows in use, as numbers.
    pub fn version_rows(&self) -> &[u32] {
        self.tables.version_rows(self.counts)
    }

    /// The edge rows in use, as numbers.
    pub fn edge_rows(&self) -> &[u32] {
        self.tables.edge_rows(self.counts)
    }

    /// Does a job on the worker that reads the tables.
    fn ask<A: Send + 'static>(
        &self,
        job: impl FnOnce(&Tables, &OnWorker) -> A + Send + 'static,
    ) -> A {
        self.worker
            .run(&mut Arc::clone(&self.tables), move |tables, on_worker| {
                job(tables, on_worker)
            })
    }
}

impl fmt::Debug for Trail {
    fn fmt(&self, f: &mut fmt::Formatter<'_>) -> fmt::Result {
        f.debug_struct("Trail")
            .field("counts", &self.counts)
            .finish_non_exhaustive()
    }
}

/// The tables, for writing: a copy with the rows in use if others share them, or if they cannot be written as they are.
fn for_writing(tables: &mut Arc<Tables>, counts: Counts) -> [&mut [u32]; 3] {
    let mut writable = Arc::get_mut(tables);
    if writable
        .as_mut()
        .and_then(|tables| tables.for_writing())
        .is_none()
    {
        *tables = Arc::new(tables.copy_rows(counts));
    }
    let tables = Arc::get_mut(tables).expect("none but the job has them");
    tables.for_writing().expect("a copy can be written")
}

/// The library's own test: it refuses to write the kept log to no bytes, with 16 if the tables are not sound.
fn is_sound(on_worker: &OnWorker, counts: Counts, tables: &Tables) -> bool {
    let answer = ffi::kept_log(on_worker, counts, tables, &mut []);
    Refusal::of_answer(answer.refusal) != Err(Refusal::Unsound)
}
