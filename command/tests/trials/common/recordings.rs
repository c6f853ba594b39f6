//! Generated recordings over shared names: programs and files, some made by a recording, the others there before it.

use super::random::Random;
use super::recording::{Kind, Recording, Sort};

/// Hundredths in an hour.
pub const HOUR: u32 = 360_000;

/// The start of the first recording.
pub const START: &str = "2026-11-17T19:20:45.12";

/// The moment so many hundredths after that start; within the year.
pub fn moment(later: u32) -> String {
    let hundredths = u64::from(later) + 6_964_512;
    let (day, rest) = (17 + hundredths / 8_640_000, hundredths % 8_640_000);
    let (month, day) = if day > 30 { (12, day - 30) } else { (11, day) };
    let (hour, minute) = (rest / 360_000, rest / 6000 % 60);
    format!(
        "2026-{month}-{day:02}T{hour:02}:{minute:02}:{:02}.{:02}",
        rest / 100 % 60,
        rest % 100
    )
}

/// How a generated recording looks.
pub struct Shape {
    pub bases: usize,
    /// At most so many lines, two at least.
    pub lines: usize,
    pub events: usize,
    /// One in so many entities is made during the recording.
    pub made: usize,
}

/// A recording that begins so many hundredths after the first one. Many of its events have equal times.
pub fn generate(random: &mut Random, later: u32, shape: &Shape) -> Recording {
    let mut recording = Recording::at(&moment(later));
    let mut objects = vec![recording.object("/data/study 0.edf")];
    let mut subjects = vec![recording.subject("/usr/bin/stager[100]")];
    for _ in 0..random.below(shape.lines - 1) {
        let base = random.below(shape.bases);
        let is_subject = random.one_in(3);
        let made = random.one_in(shape.made);
        add(
            &mut recording,
            base,
            is_subject,
            made,
            &mut objects,
            &mut subjects,
        );
    }
    let mut time = 1;
    for _ in 0..shape.events {
        time += if random.one_in(3) {
            random.below(50) as u32
        } else {
            0
        };
        add_event(&mut recording, random, time, &objects, &subjects);
    }
    recording
}

fn add(
    recording: &mut Recording,
    base: usize,
    is_subject: bool,
    made: bool,
    objects: &mut Vec<u16>,
    subjects: &mut Vec<u16>,
) {
    let (sort, entities, base) = if is_subject {
        (
            Sort::Subject,
            subjects,
            format!("/usr/bin/tool-{base}[{}]", 200 + base),
        )
    } else {
        (Sort::Object, objects, format!("/data/report {base}.txt"))
    };
    let lines = &recording.lines;
    let here = lines
        .iter()
        .filter(|line| super::model::split(line).0 == base.as_bytes());
    let made_here = here
        .clone()
        .filter(|line| super::model::split(line).1)
        .count();
    // An entity that stood before is named before those that the recording makes under its name, and once.
    let line = match here.count() {
        0 if !made => base,
        _ => format!("{base};{}", made_here + 1),
    };
    entities.push(recording.declare(sort, line));
}

fn add_event(
    recording: &mut Recording,
    random: &mut Random,
    time: u32,
    objects: &[u16],
    subjects: &[u16],
) {
    let subject = random.pick(subjects);
    let object = random.pick(objects);
    match random.below(12) {
        0 if subjects.len() > 1 => {
            let others: Vec<u16> = subjects
                .iter()
                .copied()
                .filter(|other| *other != subject)
                .collect();
            recording.event(Kind::Fork, subject, random.pick(&others), time);
        }
        1 => recording.event(Kind::Execve, object, subject, time),
        2 => recording.event(Kind::Load, object, subject, time),
        3..=7 => recording.read(object, subject, time),
        _ => recording.write(subject, object, time),
    }
}

/// A recording long enough that taking it in lasts: many entities and events. At most 30,000 events are over within the hour.
pub fn long(random: &mut Random, later: u32, events: usize) -> Recording {
    let shape = Shape {
        bases: 60,
        lines: 120,
        events,
        made: 4,
    };
    generate(random, later, &shape)
}
