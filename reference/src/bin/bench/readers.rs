//! Files in which many subjects read the same objects, which nothing enters:
//! all edges of an object leave its one version. The same numbers give the
//! same file.

use reference::capacity::{MOST_ACCEPTED, MOST_EDGES};
use reference::{FileBuilder, Random};

/// A hundred edges leave each object.
pub const FEW_OBJECTS: Readers = Readers {
    objects: 20,
    subjects: 100,
    events: MOST_ACCEPTED,
};

/// Five hundred edges leave each object, 50,000 in all: more than the library
/// keeps hints for.
pub const MANY_PAIRS: Readers = Readers {
    objects: 100,
    subjects: 500,
    events: 300_000,
};

/// Some 262 edges leave each object.
pub const MANY_OBJECTS: Readers = Readers {
    objects: 1_000,
    subjects: 2_048,
    events: MOST_EDGES as u32,
};

/// Objects are numbered first, subjects after them.
#[derive(Clone, Copy)]
pub struct Readers {
    pub objects: u16,
    pub subjects: u16,
    pub events: u32,
}

impl Readers {
    /// Any subject reads any object at each event. Nearly all are repeats.
    pub fn over_and_over(self) -> Vec<u8> {
        let mut random = self.random();
        let mut file = self.declarations();
        for time in 1..=self.events {
            let pair = random.below(self.pairs() as usize) as u32;
            file = self.read(file, pair, time);
        }
        file.bytes()
    }

    /// No subject reads an object twice, so all events are kept. There must be
    /// as many pairs as events or more.
    pub fn once_each(self) -> Vec<u8> {
        let mut pairs: Vec<u32> = (0..self.pairs()).collect();
        self.random().shuffle(&mut pairs);
        let reads = (1..=self.events).zip(pairs);
        let read = |file, (time, pair)| self.read(file, pair, time);
        reads.fold(self.declarations(), read).bytes()
    }

    fn random(self) -> Random {
        Random::new(u64::from(self.events))
    }

    /// How many pairs of an object and a subject there are.
    fn pairs(self) -> u32 {
        u32::from(self.objects) * u32::from(self.subjects)
    }

    fn declarations(self) -> FileBuilder {
        let objects = 0..self.objects;
        let subjects = self.objects..self.objects + self.subjects;
        let file = objects.fold(FileBuilder::new(), FileBuilder::object);
        subjects.fold(file, FileBuilder::subject)
    }

    /// Adds the read of the pair with this number.
    fn read(self, file: FileBuilder, pair: u32, time: u32) -> FileBuilder {
        let subjects = u32::from(self.subjects);
        let (object, subject) = (pair / subjects, pair % subjects);
        file.read(object as u16, self.objects + subject as u16, time)
    }
}
