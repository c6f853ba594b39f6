//! Events in one tick: how often an event has the time of the one before, and
//! tables and files of which all happened at one time.

use crate::file::HEADER_BYTES;
use crate::random::Random;
use crate::record::RECORD_BYTES;
use crate::rows::{EdgeRow, VersionRow};
use crate::tables::Tables;

/// How often an event has the time of the last accepted one.
#[derive(Clone, Copy, Debug, Default, PartialEq, Eq)]
pub enum Ties {
    /// Never: times rise strictly.
    Never,
    /// One time in three: mostly pairs.
    #[default]
    Often,
    /// Mostly: long runs of one tick.
    Runs,
    /// Always, but for the first event of a trail.
    Always,
}

impl Ties {
    pub const ALL: [Ties; 4] = [Ties::Never, Ties::Often, Ties::Runs, Ties::Always];

    /// Any of them, mostly often.
    pub fn any(random: &mut Random) -> Ties {
        match random.below(8) {
            0 => Ties::Never,
            1 | 2 => Ties::Runs,
            3 => Ties::Always,
            _ => Ties::Often,
        }
    }

    /// The time of the next event: the last time, or one to three hundredths
    /// after it. The first event of a trail has a time above 0; at the greatest
    /// time of all there is no later one.
    pub fn next_time(self, random: &mut Random, last: u32) -> u32 {
        match last > 0 && self.ties(random) {
            true => last,
            false => last.saturating_add(random.between(1, 3)),
        }
    }

    fn ties(self, random: &mut Random) -> bool {
        match self {
            Ties::Never => false,
            Ties::Often => random.one_in(3),
            Ties::Runs => !random.one_in(10),
            Ties::Always => true,
        }
    }
}

/// Moves all events of sound tables to their last time. The tables stay sound;
/// first versions start at 0 as before.
pub fn in_one_tick(tables: &mut Tables) {
    let last = tables.counts.last;
    for number in 0..tables.counts.edges {
        let row = tables.view().edge(number);
        let time = last;
        tables.set_edge(number, EdgeRow { time, last, ..row });
    }
    for number in 0..tables.counts.versions {
        let row = tables.view().version(number);
        let start = if row.start > 0 { last } else { 0 };
        let end = last;
        tables.set_version(number, VersionRow { start, end, ..row });
    }
}

/// The file with all its events at this time.
pub fn at_one_time(file: &[u8], time: u32) -> Vec<u8> {
    with_times(file, |_| time)
}

/// The file with its events in the same order at the times just after this
/// one, each in a tick of its own.
pub fn at_rising_times(file: &[u8], last: u32) -> Vec<u8> {
    with_times(file, |place| last + 1 + place)
}

/// The file with its events at the times that their places, from 0, give. The
/// file must hold whole records.
fn with_times(file: &[u8], time: impl Fn(u32) -> u32) -> Vec<u8> {
    let mut file = file.to_vec();
    let records = file[HEADER_BYTES..].chunks_exact_mut(RECORD_BYTES);
    let events = records.filter(|record| (1..=5).contains(&record[0]));
    for (place, event) in (0..).zip(events) {
        event[8..12].copy_from_slice(&time(place).to_le_bytes());
    }
    file
}
