//! The files of the workloads. The same numbers give the same file.

use reference::{Event, FileBuilder, Kind, Random};
use std::collections::HashSet;

/// Stagers at work. In each shift a stager reads one more object, writes its
/// reports, and then goes on reading its study and writing its reports.
#[derive(Clone, Copy)]
pub struct Shifts {
    pub objects: u16,
    pub stagers: u16,
    pub reports: u16,
    pub events: u32,
    pub events_a_shift: u32,
}

impl Shifts {
    pub fn file(self) -> Vec<u8> {
        let mut file = FileBuilder::new();
        for number in 0..self.objects {
            file = file.object(number);
        }
        for number in 0..self.stagers {
            file = file.subject(self.objects + number);
        }
        for event in 0..self.events {
            file = file.event(self.event(event));
        }
        file.bytes()
    }

    fn event(self, event: u32) -> Event {
        let (shift, place) = (event / self.events_a_shift, event % self.events_a_shift);
        let number = (shift % u32::from(self.stagers)) as u16;
        let stager = self.objects + number;
        let writes = place % 2 == 1;
        let object = match place {
            0 => self.new_object(number, shift / u32::from(self.stagers)),
            _ if writes => self.report(number, (place / 2) as u16),
            _ => self.study(number),
        };
        let (kind, source, target) = match writes {
            true => (Kind::Write, stager, object),
            false => (Kind::Read, object, stager),
        };
        Event {
            kind,
            source,
            target,
            time: event + 1,
        }
    }

    /// The reports of all stagers are the first objects.
    fn report(self, stager: u16, place: u16) -> u16 {
        stager * self.reports + place % self.reports
    }

    fn study(self, stager: u16) -> u16 {
        self.objects - 1 - stager
    }

    /// In each shift another object, every fourth time a report of another
    /// stager. The others are never written.
    fn new_object(self, stager: u16, shift: u32) -> u16 {
        let reports = self.stagers * self.reports;
        let place = u32::from(stager) + shift;
        if shift % 4 == 3 {
            let author = place % u32::from(self.stagers);
            return self.report(author as u16, (shift / 4) as u16);
        }
        let others = u32::from(self.objects - reports - self.stagers);
        reports + (place % others) as u16
    }
}

/// A file that keeps just so many edges and makes just so many versions, with
/// few repeats.
#[derive(Clone, Copy)]
pub struct Filling {
    pub entities: u16,
    pub versions: u32,
    pub edges: u32,
}

/// Most events are reads and writes.
const KINDS: [Kind; 8] = [
    Kind::Read,
    Kind::Read,
    Kind::Read,
    Kind::Write,
    Kind::Write,
    Kind::Load,
    Kind::Fork,
    Kind::Execve,
];

impl Filling {
    /// As full as tables of so many edges are with a version for each four
    /// and an entity for each 64, at the least 64.
    pub fn of_edges(edges: u32) -> Filling {
        Filling {
            entities: (edges / 64).max(64) as u16,
            versions: edges / 4,
            edges,
        }
    }

    pub fn file(self) -> Vec<u8> {
        let mut random = Random::new(u64::from(self.edges));
        let mut file = FileBuilder::new();
        for number in 0..self.entities / 2 {
            file = file.object(2 * number).subject(2 * number + 1);
        }
        let mut growth = Growth::new(self);
        while growth.edges < self.edges {
            let event = growth.event(&mut random);
            growth.take(event);
            file = file.event(event);
        }
        file.bytes()
    }
}

/// What the next event must look at to fill both tables at once.
struct Growth {
    filling: Filling,
    /// The latest version of each entity.
    latest: Vec<u32>,
    has_given: Vec<bool>,
    /// The version each edge leaves with the entity it enters.
    ways: HashSet<(u32, u16)>,
    edges: u32,
    time: u32,
}

impl Growth {
    fn new(filling: Filling) -> Growth {
        Growth {
            filling,
            latest: (0..u32::from(filling.entities)).collect(),
            has_given: vec![false; usize::from(filling.entities)],
            ways: HashSet::new(),
            edges: 0,
            time: 0,
        }
    }

    /// Any event that makes a version or makes none, as is due.
    fn event(&mut self, random: &mut Random) -> Event {
        self.time += random.between(1, 3);
        loop {
            let kind = random.pick(&KINDS).expect("there are kinds");
            let source = self.entity(random, kind.sorts().0.number());
            let target = self.entity(random, kind.sorts().1.number());
            let makes_version = self.has_given[self.latest[usize::from(target)] as usize];
            if source != target && makes_version == self.version_is_due() {
                return Event {
                    kind,
                    source,
                    target,
                    time: self.time,
                };
            }
        }
    }

    /// Objects have even numbers, subjects odd ones.
    fn entity(&self, random: &mut Random, sort: u32) -> u16 {
        let pairs = usize::from(self.filling.entities / 2);
        2 * random.below(pairs) as u16 + sort as u16
    }

    /// Nothing has given at first; at the end all versions are made.
    fn version_is_due(&self) -> bool {
        let entities = u64::from(self.filling.entities);
        let made = self.has_given.len() as u64 - entities;
        let to_make = u64::from(self.filling.versions) - entities;
        made * u64::from(self.filling.edges) < to_make * u64::from(self.edges)
    }

    fn take(&mut self, event: Event) {
        let from = self.latest[usize::from(event.source)];
        let is_new_way = self.ways.insert((from, event.target));
        if is_new_way || !event.kind.may_repeat() {
            self.keep(event.target);
            self.has_given[from as usize] = true;
            self.edges += 1;
        }
    }

    fn keep(&mut self, target: u16) {
        let latest = &mut self.latest[usize::from(target)];
        if self.has_given[*latest as usize] {
            *latest = self.has_given.len() as u32;
            self.has_given.push(false);
        }
    }
}
