//! A recording refused, in words: which record, where, with which number, why, and what can be done.

use crate::failure::{Exit, Failure};
use crate::full::Full;
use crate::moment::Moment;
use crate::names::lines;
use crate::path::shown;
use crate::recording::{offset, Recording};
use crate::shift::{Shift, TooLate};
use crate::show;
use crate::state::State;
use trail::{EntityNo, Record, Refusal, Time};

/// How far a recording came.
#[derive(Clone, Copy, Debug)]
pub enum Stage {
    /// It is taken into a fresh trail, to see whether it is right in itself.
    Alone,
    /// It is taken into the trail, its times moved.
    InTrail(Shift),
}

/// A recording that is taken in, and the trail as it was before.
pub struct Attempt<'a> {
    pub state: &'a State,
    pub recording: &'a Recording,
    /// The recording's.
    pub start: Option<Moment>,
    pub stage: Stage,
}

impl Attempt<'_> {
    /// Refused at a record of the recording, counted from 1, or 0 for its header, when so many entities were declared.
    pub fn refused(&self, refusal: Refusal, record: u32, declared: u32) -> Failure {
        let reason = self.reason(refusal, record, declared);
        let place = match record {
            0 => String::new(),
            _ => format!("record {record} (byte {}): ", offset(record)),
        };
        let file = shown(&self.recording.paths.file);
        let mut message = format!("{file}: {place}refused, {}: {reason}", refusal.number());
        let full = Full::of(refusal);
        if let Some(full) = full {
            message.push_str(&full.explain(self.state, self.is_alone()));
        }
        if refusal == Refusal::NotNext && self.recording.names.is_none() && declared > 0 {
            let names = shown(&self.recording.paths.names);
            message.push_str(&format!(
                "\nWithout {names} the file's numbers are the trail's own; with it beside the file, the two are joined by names."
            ));
        }
        let exit = match refusal {
            Refusal::Unsound => Exit::Damaged,
            _ if full.is_some() => Exit::Full,
            _ => Exit::Refused,
        };
        let failure = Failure::new(exit, message)
            .with("refusal", refusal.number())
            .with("record", record)
            .with("byte", offset(record))
            .with("reason", reason);
        match full {
            Some(full) => failure.with("table", full.table).with("most", full.most),
            None => failure,
        }
    }

    /// Whether nothing but the recording itself takes rows.
    fn is_alone(&self) -> bool {
        matches!(self.stage, Stage::Alone) || self.state.trail.counts().entities == 0
    }

    fn reason(&self, refusal: Refusal, record: u32, declared: u32) -> String {
        let text = refusal.text();
        match (refusal, self.recording.record(record)) {
            (Refusal::TooEarly, Some(Record::Event { time, .. })) => {
                let older = self.older_than_the_trail(time);
                older.unwrap_or_else(|| format!("{text}: the event is at {}", self.when(time)))
            }
            (Refusal::NotNext, Some(Record::Declaration { entity, .. })) => {
                format!("{text}: it declares entity {entity}, and the next is {declared}")
            }
            (
                Refusal::Undeclared
                | Refusal::SourceIsTarget
                | Refusal::WrongSort
                | Refusal::Signed,
                Some(record),
            ) => format!("{text}: {}", self.words(record)),
            _ => text.to_string(),
        }
    }

    /// For a time that is right in the recording itself, and only too early for the trail.
    fn older_than_the_trail(&self, time: Time) -> Option<String> {
        let Stage::InTrail(shift) = self.stage else {
            return None;
        };
        let last = self.state.trail.counts().last;
        let moved = shift.moved(time).filter(|_| time != Time(0))?;
        let limit = match last {
            _ if moved != Time(0) && moved >= last => return None,
            Time(0) => "the trail starts at",
            _ => "the trail's last is at",
        };
        let (event, limit_at) = (self.when(time), show::time(self.state, last));
        Some(format!(
            "older than the trail: the event is at {event}, {limit} {limit_at}"
        ))
    }

    /// A time of the recording.
    fn when(&self, time: Time) -> String {
        match self.start {
            Some(start) => start.plus(time).to_string(),
            None => show::time(self.state, time),
        }
    }

    fn words(&self, record: Record) -> String {
        match record {
            Record::Declaration { entity, .. } => format!("declaration of {}", self.entity(entity)),
            Record::Signature { entity } => format!("signature of {}", self.entity(entity)),
            Record::Event {
                kind,
                source,
                target,
                time,
            } => format!(
                "{} from {} to {} at {}",
                kind.word(),
                self.entity(source),
                self.entity(target),
                self.when(time)
            ),
        }
    }

    /// An entity of the recording for people.
    fn entity(&self, number: u16) -> String {
        let name = match &self.recording.names {
            Some(text) => lines(text).and_then(|names| names.get(usize::from(number)).copied()),
            None if usize::from(number) < self.state.names.len() => {
                Some(self.state.names.name(EntityNo(number.into())))
            }
            None => None,
        };
        match name {
            None | Some(b"") => format!("#{number}"),
            Some(name) => show::name(name),
        }
    }

    /// Refused because a time of the recording would be greater than a trail can have.
    pub fn too_late(&self, too_late: TooLate) -> Failure {
        let TooLate { record, time } = too_late;
        let (file, byte) = (shown(&self.recording.paths.file), offset(record));
        let reason = format!(
            "more than 497 days after the trail's start, where its times end: the event is at {}, the trail starts at {}",
            self.when(time),
            show::time(self.state, Time(0))
        );
        let message = format!(
            "{file}: record {record} (byte {byte}): full: {reason}\n\
             The trail and its answers stay as they are. Begin a new one for what comes."
        );
        Failure::new(Exit::Full, message)
            .with("record", record)
            .with("byte", byte)
            .with("reason", reason)
            .with("table", "times")
    }
}

#[cfg(test)]
mod tests;
