//! A plain model of a trail: the list of all accepted events between named entities. Traces walk that list; there are no versions.

use super::recording::{Record, Recording, Sort};
use std::collections::{BTreeSet, HashMap};

#[derive(Clone, Debug)]
pub struct Entity {
    pub name: Vec<u8>,
    pub sort: Sort,
}

#[derive(Clone, Copy, Debug)]
pub struct Event {
    pub record: Record,
    pub source: usize,
    pub target: usize,
    pub time: u32,
}

#[derive(Clone, Debug, Default)]
pub struct Model {
    pub entities: Vec<Entity>,
    pub events: Vec<Event>,
    generations: HashMap<Vec<u8>, Vec<usize>>,
}

/// The base of a line, and whether it names an entity made during the recording: one that ends in `;K`, whose `;` is not escaped.
pub fn split(line: &[u8]) -> (&[u8], bool) {
    let digits = line
        .iter()
        .rev()
        .take_while(|byte| byte.is_ascii_digit())
        .count();
    let (before, number) = line.split_at(line.len() - digits);
    let Some(base) = before.strip_suffix(b";") else {
        return (line, false);
    };
    let backslashes = base.iter().rev().take_while(|byte| **byte == b'\\').count();
    if digits == 0 || number[0] == b'0' || backslashes % 2 == 1 {
        return (line, false);
    }
    (base, true)
}

impl Model {
    /// Takes a recording in whose times begin `later` hundredths after the trail's start.
    pub fn take(&mut self, recording: &Recording, later: u32) {
        let before = self.entities.len();
        let mut joined = Vec::new();
        for record in &recording.records {
            match *record {
                Record::Declaration(sort) => {
                    let line = &recording.lines[joined.len()];
                    joined.push(self.join(line, sort, before, &joined));
                }
                Record::Event {
                    source,
                    target,
                    time,
                    ..
                } => self.events.push(Event {
                    record: *record,
                    source: joined[usize::from(source)],
                    target: joined[usize::from(target)],
                    time: time + later,
                }),
                Record::Signature(_) => {}
            }
        }
    }

    /// The latest entity of the name before the recording, unless it is of another sort, or an earlier line's; else a new one.
    fn join(&mut self, line: &[u8], sort: Sort, before: usize, joined: &[usize]) -> usize {
        let (base, made) = split(line);
        let generations = self.generations.get(base).into_iter().flatten();
        let latest = generations.copied().rfind(|entity| *entity < before);
        match latest {
            Some(entity)
                if !made && self.entities[entity].sort == sort && !joined.contains(&entity) =>
            {
                entity
            }
            _ => self.add(base, sort),
        }
    }

    fn add(&mut self, base: &[u8], sort: Sort) -> usize {
        let entity = self.entities.len();
        let mut name = base.to_vec();
        if !base.is_empty() {
            let generations = self.generations.entry(base.to_vec()).or_default();
            generations.push(entity);
            if generations.len() > 1 {
                name.extend(format!(";{}", generations.len()).bytes());
            }
        }
        self.entities.push(Entity { name, sort });
        entity
    }

    /// The entities with a causal path to this one by the time.
    pub fn backward(&self, entity: usize, time: u32) -> BTreeSet<usize> {
        let mut marked = BTreeSet::from([entity]);
        for event in self.events.iter().rev().filter(|event| event.time <= time) {
            if marked.contains(&event.target) {
                marked.insert(event.source);
            }
        }
        marked
    }

    /// The entities with a causal path from one of these, at whatever time.
    pub fn forward(&self, entities: &[usize]) -> BTreeSet<usize> {
        let reached = |entity: &usize| {
            let mut marked = BTreeSet::from([*entity]);
            for event in &self.events {
                if marked.contains(&event.source) {
                    marked.insert(event.target);
                }
            }
            marked
        };
        entities.iter().flat_map(reached).collect()
    }

    /// One recording with all entities in the order of their numbers, then all events.
    pub fn one_recording(&self, start: &str) -> Recording {
        let mut recording = Recording::at(start);
        for entity in &self.entities {
            recording.declare(entity.sort, &entity.name);
        }
        for event in &self.events {
            if let Record::Event { kind, .. } = event.record {
                recording.event(kind, event.source as u16, event.target as u16, event.time);
            }
        }
        recording
    }
}
