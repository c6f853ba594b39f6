//! Records that a trail takes in, row capacity aside.

use crate::file_version::FileVersion;
use crate::full_list::FullList;
use crate::generate::ties::Ties;
use crate::kept_log::event_of_edge;
use crate::random::Random;
use crate::record::{Declaration, Event, Kind, Record, Signature, Sort};
use crate::sound::is_sound;
use crate::tables::Tables;
use std::collections::BTreeSet;

/// Few entities that are not signed, so that events repeat.
const FEW_ENTITIES: usize = 6;
/// One in this many records of a version 2 file is a signature.
const SIGNATURE_ONE_IN: usize = 14;

/// What the next record must agree with, the events to repeat, and how often
/// an event has the last time again.
#[derive(Clone, Debug, Default)]
pub struct RecordSource {
    pub sorts: Vec<Sort>,
    pub signed: BTreeSet<u16>,
    pub last: u32,
    pub events: Vec<Event>,
    pub ties: Ties,
}

impl RecordSource {
    pub fn fresh() -> RecordSource {
        RecordSource::default()
    }

    /// Goes on from tables that hold all their entity rows; the events to
    /// repeat are those of the edges, if the tables are sound.
    pub fn after_tables(tables: &Tables) -> RecordSource {
        let view = tables.view();
        let sorts = view.entity_rows();
        let sorts = sorts.filter_map(|row| row.declared_sort());
        let signed = (0..).zip(view.entity_rows());
        let signed = signed.filter(|(_, row)| row.is_signed());
        let events = if is_sound(view) {
            view.edge_rows()
                .map(|edge| event_of_edge(view, edge))
                .collect()
        } else {
            Vec::new()
        };
        RecordSource {
            sorts: sorts.collect(),
            signed: signed.map(|(number, _)| number).collect(),
            last: tables.counts.last,
            events,
            ties: Ties::default(),
        }
    }

    /// Goes on from a full list.
    pub fn after_list(list: &FullList) -> RecordSource {
        RecordSource {
            sorts: list.sorts.clone(),
            signed: list.signed.clone(),
            last: list.last_time(),
            events: list.events(),
            ties: Ties::default(),
        }
    }

    /// With ties as often as this says.
    pub fn with_ties(self, ties: Ties) -> RecordSource {
        RecordSource { ties, ..self }
    }

    /// The next record of a file of this version. It is noted as taken in.
    pub fn record(&mut self, random: &mut Random, version: FileVersion) -> Record {
        let unsigned = self.sorts.len() - self.signed.len();
        if unsigned < FEW_ENTITIES && random.one_in(2 + unsigned) {
            return self.declaration(random);
        }
        if version == FileVersion::Two && random.one_in(SIGNATURE_ONE_IN) {
            if let Some(entity) = random.pick(&self.open_entities_of(Sort::Object)) {
                return self.signature_of(entity);
            }
        }
        match self.event(random) {
            Some(event) => Record::Event(event),
            None => self.declaration(random),
        }
    }

    pub fn records(
        &mut self,
        random: &mut Random,
        version: FileVersion,
        count: usize,
    ) -> Vec<Record> {
        (0..count).map(|_| self.record(random, version)).collect()
    }

    /// A declaration of either sort.
    pub fn declaration(&mut self, random: &mut Random) -> Record {
        let sort = Sort::ALL[random.below(2)];
        self.declaration_of(sort)
    }

    /// A declaration of this sort.
    pub fn declaration_of(&mut self, sort: Sort) -> Record {
        let number = self.sorts.len() as u16;
        self.sorts.push(sort);
        Record::Declaration(Declaration { number, sort })
    }

    /// The signature of this object.
    pub fn signature_of(&mut self, entity: u16) -> Record {
        self.signed.insert(entity);
        Record::Signature(Signature { entity })
    }

    /// An event of these, at the last time or a later one.
    pub fn event_of(&mut self, random: &mut Random, kind: Kind, source: u16, target: u16) -> Event {
        let event = Event {
            kind,
            source,
            target,
            time: self.ties.next_time(random, self.last),
        };
        self.note(event);
        event
    }

    /// An event, none if no two entities will do. Half of the events go the
    /// way of an earlier one, unless its target is signed now.
    fn event(&mut self, random: &mut Random) -> Option<Event> {
        let is_open = |event: &Event| !self.signed.contains(&event.target);
        let earlier = random.pick(&self.events).filter(is_open);
        let (kind, source, target) = match earlier {
            Some(event) if random.one_in(2) => (event.kind, event.source, event.target),
            _ => self.way(random)?,
        };
        Some(self.event_of(random, kind, source, target))
    }

    /// A kind, a source and a target that go together.
    fn way(&self, random: &mut Random) -> Option<(Kind, u16, u16)> {
        let kind = random.pick(&Kind::ALL)?;
        let source = random.pick(&self.entities_of(kind.sorts().0))?;
        let mut targets = self.open_entities_of(kind.sorts().1);
        targets.retain(|target| *target != source);
        Some((kind, source, random.pick(&targets)?))
    }

    fn entities_of(&self, sort: Sort) -> Vec<u16> {
        let numbers = 0..self.sorts.len();
        let of_sort = numbers.filter(|number| self.sorts[*number] == sort);
        of_sort.map(|number| number as u16).collect()
    }

    /// The entities of the sort that are not signed.
    fn open_entities_of(&self, sort: Sort) -> Vec<u16> {
        let mut entities = self.entities_of(sort);
        entities.retain(|entity| !self.signed.contains(entity));
        entities
    }

    fn note(&mut self, event: Event) {
        self.last = event.time;
        self.events.push(event);
    }
}
