//! What comes before the record at which a batch is refused.

use crate::capacity::{TableLengths, EDGE_ROW, ENTITY_ROW, MOST_ACCEPTED, VERSION_ROW};
use crate::file_builder::FileBuilder;
use crate::file_version::FileVersion;
use crate::generate::batch_faults::BatchFault;
use crate::generate::edge_counts::raise_accepted;
use crate::generate::files::any_version;
use crate::generate::grown_tables::grown_tables;
use crate::generate::lengths::{lend_anew, roomy_lengths};
use crate::generate::records::RecordSource;
use crate::random::Random;
use crate::record::{Event, Kind, Record, Sort};
use crate::tables::Tables;

/// One in this many bases has no records: a batch before took them in.
const BATCH_BEFORE_ONE_IN: usize = 4;

/// The time from which events are made, so that there is an earlier one above
/// 0.
const FIRST_TIME: u32 = 2;

/// A grown trail and records it takes in. After them `object`, `subject` and
/// `written` are the last entities, and the last event is the write from
/// `subject` to `written`, the only event of the three. Where the fault asks
/// for it, both objects are signed then, and `subject` reads `object`; or
/// there is no event at all, not even the write.
pub struct Base {
    pub version: FileVersion,
    pub tables: Tables,
    pub records: Vec<Record>,
    pub after: Tables,
    pub object: u16,
    pub subject: u16,
    pub written: u16,
    /// A time for the next event: the last time or the one after it.
    pub time: u32,
}

impl Base {
    pub fn new(random: &mut Random, fault: BatchFault) -> Base {
        let grown = grown_for(random, fault);
        let tables = lend_anew(random, &grown, roomy_lengths(grown.counts));
        let mut source = RecordSource::after_tables(&tables);
        let version = fault.version(random);
        let mut records = Vec::new();
        if !fault.is_at_first_event() {
            source.last = source.last.max(FIRST_TIME);
            let count = random.below(6);
            records.extend(source.records(random, version, count));
        }
        for sort in [Sort::Object, Sort::Subject, Sort::Object] {
            records.push(source.declaration_of(sort));
        }
        let written = source.sorts.len() as u16 - 1;
        let (object, subject) = (written - 2, written - 1);
        if !fault.is_at_first_event() {
            let write = source.event_of(random, Kind::Write, subject, written);
            records.push(Record::Event(write));
        }
        if fault.signs() {
            records.extend([object, written].map(|entity| source.signature_of(entity)));
        }
        if fault.reads_signed() {
            let read = source.event_of(random, Kind::Read, object, subject);
            records.push(Record::Event(read));
        }
        let after = taken_in(&tables, version, &records);
        let last = after.counts.last;
        let base = Base {
            version,
            after,
            tables,
            records,
            object,
            subject,
            written,
            time: random.between(last.max(1), last + 1),
        };
        match random.one_in(BATCH_BEFORE_ONE_IN) {
            true => base.with_batch_before(random, fault),
            false => base,
        }
    }

    /// The records are taken in by a batch before; an event or a declaration
    /// at fault may then stand in a file of either version.
    fn with_batch_before(self, random: &mut Random, fault: BatchFault) -> Base {
        let version = match fault.is_signature() {
            true => self.version,
            false => any_version(random),
        };
        Base {
            version,
            tables: self.after.clone(),
            records: Vec::new(),
            ..self
        }
    }

    /// The tables before the file, with no row left after its good records
    /// where the fault asks for that.
    pub fn tables_for(&self, random: &mut Random, fault: BatchFault) -> Tables {
        let mut lengths = roomy_lengths(self.after.counts);
        let full = full_lengths(&self.after);
        if fault.fills_entities() {
            lengths.entities = full.entities + random.below(ENTITY_ROW);
        }
        if fault.fills_versions() {
            lengths.versions = full.versions + random.below(VERSION_ROW);
        }
        if fault.fills_edges() {
            lengths.edges = full.edges + random.below(EDGE_ROW);
        }
        let mut tables = lend_anew(random, &self.tables, lengths);
        if fault.fills_accepted() {
            let added = self.after.counts.accepted - self.tables.counts.accepted;
            raise_accepted(random, &mut tables, MOST_ACCEPTED - added)
                .expect("the base has an edge");
        }
        tables
    }

    /// An event at a time that is accepted.
    pub fn event(&self, kind: Kind, source: u16, target: u16) -> Event {
        let time = self.time;
        Event {
            kind,
            source,
            target,
            time,
        }
    }

    /// The next number to declare.
    pub fn next(&self) -> u16 {
        self.written + 1
    }
}

/// A grown trail, with an edge if accepted events are to be counted at one;
/// without an event if there is to be none.
fn grown_for(random: &mut Random, fault: BatchFault) -> Tables {
    if fault.is_at_first_event() {
        return grown_tables(random, 1);
    }
    loop {
        let count = random.below(30);
        let grown = grown_tables(random, count);
        if grown.counts.edges > 0 || !fault.fills_accepted() {
            return grown;
        }
    }
}

fn taken_in(tables: &Tables, version: FileVersion, records: &[Record]) -> Tables {
    let mut after = tables.clone();
    let file = FileBuilder::of_version(version).records(records);
    let answer = after.batch(&file.bytes());
    assert_eq!((answer.refusal, answer.taken), (0, records.len() as u32));
    after
}

/// Lengths that hold the rows in use and no more.
fn full_lengths(tables: &Tables) -> TableLengths {
    let counts = tables.counts;
    TableLengths::of_rows(
        counts.entities as usize,
        counts.versions as usize,
        counts.edges as usize,
    )
}
