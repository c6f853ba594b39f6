//! Events in one tick, also by the full list, and by the same events at
//! strictly rising times: what a trace gives at some time, it gives there at
//! the place of the last event up to that time.

use crate::calls::{times_of, traces, BufferLengths};
use crate::comparison::{Compared, Comparison};
use crate::difference::{differ, Difference};
use crate::every_file::fresh;
use crate::lists::ListTrail;
use crate::made::Made;
use crate::round_trip::taken_in_again;
use reference::file::HEADER_BYTES;
use reference::generate::{
    any_version, at_one_time, at_rising_times, event_file, RecordSource, Ties,
};
use reference::record::RECORD_BYTES;
use reference::{worked_file, Answer, Call, Event, FileBuilder, Random, Record};
use reference::{TableLengths, Tables};

/// Trails of each choice of ties.
const TRAILS: usize = 5;
/// Batches of a trail.
const BATCHES: usize = 3;
/// More than the most records of a batch after its first event.
const RECORDS: usize = 12;
/// Records of a long trail in one tick.
const LONG: usize = 150;
/// Rows in each table.
const ROWS: usize = 160;

/// Trails with ties of each choice, by several batches with their borders in a
/// tick; a long trail and the worked trail in one tick.
pub fn events_in_one_tick(comparison: &mut Comparison, random: &mut Random) -> Compared {
    for ties in Ties::ALL {
        for _ in 0..TRAILS {
            by_batches(comparison, random, ties)?;
        }
    }
    let mut source = RecordSource::fresh().with_ties(Ties::Always);
    let long = event_file(random, &mut source, LONG);
    let worked = [1, 9, u32::MAX].map(|time| at_one_time(&worked_file(), time));
    for file in worked.into_iter().chain([long]) {
        let mut trails = BothTrails::fresh(random);
        trails.batch(comparison, file)?;
        trails.finish(comparison)?;
    }
    Ok(())
}

fn by_batches(comparison: &mut Comparison, random: &mut Random, ties: Ties) -> Compared {
    let mut trails = BothTrails::fresh(random);
    for _ in 0..BATCHES {
        let mut source = RecordSource::after_list(&trails.tied.list).with_ties(ties);
        let file = file_from_last_tick(random, &mut source);
        trails.batch(comparison, file)?;
        trails.refused(comparison)?;
    }
    trails.finish(comparison)
}

/// A file whose first event has the last time, if there was an event before.
fn file_from_last_tick(random: &mut Random, source: &mut RecordSource) -> Vec<u8> {
    let (version, ties, last) = (any_version(random), source.ties, source.last);
    source.ties = Ties::Always;
    let mut records = Vec::new();
    while !matches!(records.last(), Some(Record::Event(_))) {
        records.push(source.record(random, version));
    }
    assert!(last == 0 || source.last == last, "the border is in a tick");
    source.ties = ties;
    let more = random.below(RECORDS);
    records.extend(source.records(random, version, more));
    FileBuilder::of_version(version).records(&records).bytes()
}

/// A trail, and one of the same records at rising times.
struct BothTrails {
    tied: ListTrail,
    rising: ListTrail,
}

impl BothTrails {
    fn fresh(random: &mut Random) -> BothTrails {
        let [tied, rising] =
            [(); 2].map(|_| fresh(random, TableLengths::of_rows(ROWS, ROWS, ROWS)));
        BothTrails { tied, rising }
    }

    /// Takes the file in whole; the rows of both trails are the same but for
    /// times.
    fn batch(&mut self, comparison: &mut Comparison, file: Vec<u8>) -> Compared {
        let rising = at_rising_times(&file, self.tied.tables.counts.accepted);
        take_in(comparison, &mut self.rising, rising)?;
        let before = self.tied.tables.clone();
        take_in(comparison, &mut self.tied, file.clone())?;
        let rows = [&self.tied, &self.rising].map(|trail| rows_but_times(&trail.tables));
        match differ("rows, by rising times", &rows[0], &rows[1]) {
            Some(place) => Err(Difference::new(&before, &Call::Batch { file }, place)),
            None => Ok(()),
        }
    }

    /// The last event once more, before its time and at time 0.
    fn refused(&mut self, comparison: &mut Comparison) -> Compared {
        let event = self.tied.list.accepted.last().map(|last| last.event);
        let event = event.expect("each batch has an event");
        for time in [event.time - 1, 0] {
            let file = FileBuilder::new().event(Event { time, ..event });
            let before = self.tied.taken();
            let file = file.bytes();
            self.tied.call(comparison, Call::Batch { file })?;
            assert_eq!(self.tied.taken(), before, "the time is too early");
        }
        Ok(())
    }

    /// All traces, by the full list and by the other trail, and the kept log.
    fn finish(&mut self, comparison: &mut Comparison) -> Compared {
        taken_in_again(
            comparison,
            &self.tied.tables,
            self.tied.tables.view().lengths(),
        )?;
        self.tied.all_traces(comparison)?;
        for time in times_of(&self.tied.tables) {
            for entity in 0..self.tied.tables.counts.entities {
                self.traces(comparison, entity, time)?;
            }
        }
        Ok(())
    }

    /// Both traces of the entity, and those of the other trail at the place of
    /// the last event up to the time.
    fn traces(&self, comparison: &mut Comparison, entity: u32, time: u32) -> Compared {
        let lengths = BufferLengths::of(self.tied.tables.counts);
        let in_by_time = |event: &Event| event.time <= time;
        let place = self
            .tied
            .list
            .events()
            .into_iter()
            .filter(in_by_time)
            .count();
        let tied = traces(entity, time, lengths);
        let rising = traces(entity, place as u32, lengths);
        for (tied, rising) in tied.into_iter().zip(rising) {
            let by_rising = comparison.call(&self.rising.tables, rising)?;
            let made = comparison.call(&self.tied.tables, tied.clone())?;
            let difference = differ("marks, by rising times", marks(&made), marks(&by_rising))
                .or_else(|| {
                    differ(
                        "intake, by rising times",
                        intake(&made),
                        self.time(&by_rising),
                    )
                });
            if let Some(place) = difference {
                return Err(Difference::new(&self.tied.tables, &tied, place));
            }
        }
        Ok(())
    }

    /// The time of the event at the place that is an intake at rising times.
    fn time(&self, by_rising: &Made) -> u32 {
        match intake(by_rising) as usize {
            0 => 0,
            place => self.tied.list.accepted[place - 1].event.time,
        }
    }
}

/// A batch of which no record is refused.
fn take_in(comparison: &mut Comparison, trail: &mut ListTrail, file: Vec<u8>) -> Compared {
    let records = (file.len() - HEADER_BYTES) / RECORD_BYTES;
    let before = trail.taken();
    trail.call(comparison, Call::Batch { file })?;
    assert_eq!(trail.taken(), before + records, "no record is refused");
    Ok(())
}

/// All numbers of the rows in use but times.
fn rows_but_times(tables: &Tables) -> Vec<Vec<u32>> {
    let view = tables.view();
    let entities = view.entity_rows().map(|row| row.numbers().to_vec());
    let versions = view
        .version_rows()
        .map(|row| vec![row.entity, row.previous]);
    let edges = view.edge_rows();
    let edges = edges.map(|row| vec![row.from, row.to, row.kind, row.count]);
    entities.chain(versions).chain(edges).collect()
}

/// The bytes of the work buffer and of the mark buffer.
fn marks(made: &Made) -> [&[u8]; 2] {
    match &made.call {
        Call::Backward { work, marks, .. } | Call::Forward { work, marks, .. } => [work, marks],
        _ => [&[], &[]],
    }
}

fn intake(made: &Made) -> u32 {
    match made.answer {
        Answer::Forward(answer) => answer.intake,
        _ => 0,
    }
}
