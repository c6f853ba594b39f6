//! The four calls of the library's archive, made on copies of all that is
//! lent. Each copy stands between guard values, and a call that changes one
//! is reported.

use crate::answers::Counts;
use crate::call::{Answer, Call};
use crate::tables::Tables;
use guarded::Guarded;
pub use guarded::Overrun;

mod guarded;
pub mod interface;

/// The archive, with the number of calls made so far. Each call gets other
/// guard values.
#[derive(Debug, Default)]
pub struct Archive {
    calls: u64,
}

impl Archive {
    pub fn new() -> Archive {
        Archive::default()
    }

    /// Makes the call. Whatever the archive wrote is found in the tables and
    /// in the buffers of the call, those lent to be read only included.
    pub fn run(&mut self, call: &mut Call, tables: &mut Tables) -> Result<Answer, Overrun> {
        self.calls += 1;
        let mut lent = LentTables::of(tables, self.calls);
        let answer = match call {
            Call::Batch { file } => lent.batch(file),
            Call::Backward {
                entity,
                time,
                work,
                marks,
            } => lent.backward(*entity, *time, work, marks),
            Call::Forward {
                members,
                time,
                work,
                marks,
            } => lent.forward(members, *time, work, marks),
            Call::KeptLog { out } => lent.kept_log(out),
        };
        lent.give_back(tables)?;
        answer
    }
}

/// Copies of the counts and tables between guard values.
struct LentTables {
    counts: Guarded<u32>,
    entities: Guarded<u32>,
    versions: Guarded<u32>,
    edges: Guarded<u32>,
    salt: u64,
}

impl LentTables {
    fn of(tables: &Tables, salt: u64) -> LentTables {
        LentTables {
            counts: Guarded::new(&interface::numbers_of(tables.counts), salt),
            entities: Guarded::new(&tables.entities, salt),
            versions: Guarded::new(&tables.versions, salt),
            edges: Guarded::new(&tables.edges, salt),
            salt,
        }
    }

    fn give_back(&self, tables: &mut Tables) -> Result<(), Overrun> {
        let mut counts = [0; interface::COUNTS_NUMBERS];
        self.counts.give_back("counts", &mut counts)?;
        tables.counts = interface::counts_of(counts);
        self.entities.give_back("entities", &mut tables.entities)?;
        self.versions.give_back("versions", &mut tables.versions)?;
        self.edges.give_back("edges", &mut tables.edges)
    }

    fn counts(&self) -> Counts {
        let mut counts = [0; interface::COUNTS_NUMBERS];
        counts.copy_from_slice(self.counts.lent());
        interface::counts_of(counts)
    }

    fn batch(&mut self, file: &mut [u8]) -> Result<Answer, Overrun> {
        let mut lent_file = Guarded::new(file, self.salt);
        // Sound: each pointer and length belong to a live allocation of their
        // own, and the counts are five numbers in a row.
        let answer = unsafe {
            interface::slt_batch(
                self.counts.pointer().cast(),
                self.entities.pointer(),
                self.entities.length(),
                self.versions.pointer(),
                self.versions.length(),
                self.edges.pointer(),
                self.edges.length(),
                lent_file.pointer(),
                lent_file.length(),
            )
        };
        lent_file.give_back("file", file)?;
        Ok(Answer::Batch(answer))
    }

    fn backward(
        &mut self,
        entity: u32,
        time: u32,
        work: &mut [u8],
        marks: &mut [u8],
    ) -> Result<Answer, Overrun> {
        let mut lent_work = Guarded::new(work, self.salt);
        let mut lent_marks = Guarded::new(marks, self.salt);
        // Sound: each pointer and length belong to a live allocation of their
        // own.
        let answer = unsafe {
            interface::slt_backward(
                self.counts(),
                self.entities.pointer(),
                self.entities.length(),
                self.versions.pointer(),
                self.versions.length(),
                self.edges.pointer(),
                self.edges.length(),
                entity,
                time,
                lent_work.pointer(),
                lent_work.length(),
                lent_marks.pointer(),
                lent_marks.length(),
            )
        };
        lent_work.give_back("work", work)?;
        lent_marks.give_back("marks", marks)?;
        Ok(Answer::Backward(answer))
    }

    fn forward(
        &mut self,
        members: &mut [u32],
        time: u32,
        work: &mut [u8],
        marks: &mut [u8],
    ) -> Result<Answer, Overrun> {
        let mut lent_members = Guarded::new(members, self.salt);
        let mut lent_work = Guarded::new(work, self.salt);
        let mut lent_marks = Guarded::new(marks, self.salt);
        // Sound: each pointer and length belong to a live allocation of their
        // own.
        let answer = unsafe {
            interface::slt_forward(
                self.counts(),
                self.entities.pointer(),
                self.entities.length(),
                self.versions.pointer(),
                self.versions.length(),
                self.edges.pointer(),
                self.edges.length(),
                lent_members.pointer(),
                lent_members.length(),
                time,
                lent_work.pointer(),
                lent_work.length(),
                lent_marks.pointer(),
                lent_marks.length(),
            )
        };
        lent_members.give_back("members", members)?;
        lent_work.give_back("work", work)?;
        lent_marks.give_back("marks", marks)?;
        Ok(Answer::Forward(answer))
    }

    fn kept_log(&mut self, out: &mut [u8]) -> Result<Answer, Overrun> {
        let mut lent_out = Guarded::new(out, self.salt);
        // Sound: each pointer and length belong to a live allocation of their
        // own.
        let answer = unsafe {
            interface::slt_kept_log(
                self.counts(),
                self.entities.pointer(),
                self.entities.length(),
                self.versions.pointer(),
                self.versions.length(),
                self.edges.pointer(),
                self.edges.length(),
                lent_out.pointer(),
                lent_out.length(),
            )
        };
        lent_out.give_back("out", out)?;
        Ok(Answer::KeptLog(answer))
    }
}
