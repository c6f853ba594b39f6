//! 100 recordings taken in turn against one recording of all their events: the same answers, and those of the plain model.

use crate::common::folder::Folder;
use crate::common::model::Model;
use crate::common::random::Random;
use crate::common::recording::{Record, Recording};
use crate::common::recordings::{generate, moment, Shape, START};
use crate::common::run::DONE;
use crate::common::say;

const RECORDINGS: usize = 100;

/// The time of the last event of a recording.
fn last(recording: &Recording) -> u32 {
    let time = |record: &Record| match record {
        Record::Event { time, .. } => Some(*time),
        _ => None,
    };
    recording.records.iter().filter_map(time).max().unwrap_or(0)
}

/// Recordings each with the hundredths by which it begins after the first. Some begin in the hundredth in which the one before ended.
fn recordings(random: &mut Random) -> Vec<(Recording, u32)> {
    let shape = Shape {
        bases: 9,
        lines: 8,
        events: 20,
        made: 12,
    };
    let mut later = 0;
    let mut recordings = Vec::new();
    for _ in 0..RECORDINGS {
        let recording = generate(random, later, &shape);
        let begun = later;
        later += last(&recording) - 1 + random.pick(&[0, 0, 1, 500, 40_000]);
        recordings.push((recording, begun));
    }
    recordings
}

/// Some in a call of their own, others several in one call.
fn take_in_turn(folder: &Folder, recordings: &[(Recording, u32)], random: &mut Random) -> usize {
    let mut calls = 0;
    let mut arguments = vec!["take".to_string()];
    for (number, (recording, _)) in recordings.iter().enumerate() {
        folder.put(recording, &format!("night {number}"));
        arguments.push(format!("night {number}.slt"));
        if !random.one_in(4) || number + 1 == recordings.len() {
            folder.run(&arguments).expect(DONE);
            arguments.truncate(1);
            calls += 1;
        }
    }
    calls
}

fn model_of(recordings: &[(Recording, u32)]) -> Model {
    let mut model = Model::default();
    for (recording, later) in recordings {
        model.take(recording, *later);
    }
    model
}

/// Some times, the last one among them, in hundredths or as moments.
fn times(random: &mut Random, model: &Model) -> [(u32, String); 3] {
    let end = model.events.last().unwrap().time;
    let any = random.below(end as usize) as u32;
    let of_an_event = random.pick(&model.events).time;
    [any, of_an_event, end].map(|time| match random.one_in(2) {
        true => (time, time.to_string()),
        false => (time, moment(time)),
    })
}

#[test]
fn a_hundred_recordings_in_turn_answer_as_one() {
    let mut random = Random::new(23);
    let recordings = recordings(&mut random);
    let model = model_of(&recordings);
    let in_turn = Folder::new();
    let calls = take_in_turn(&in_turn, &recordings, &mut random);
    let at_once = Folder::with(&model.one_recording(START));
    let mut asked = 0;
    for folder in [&in_turn, &at_once] {
        folder.expect_entities(&model);
    }
    for entity in 0..model.entities.len() {
        let times = times(&mut random, &model);
        let other = random.below(model.entities.len());
        for folder in [&in_turn, &at_once] {
            for (time, at) in &times {
                folder.expect_behind(&model, entity, *time, at);
            }
            folder.expect_reached(&model, &[entity]);
            folder.expect_reached(&model, &[entity, other]);
        }
        asked += times.len() + 2;
    }
    assert_eq!(in_turn.state_file().counts, at_once.state_file().counts);
    say(&format!(
        "recordings in turn: {RECORDINGS} in {calls} calls, {} entities, {} events; \
         {asked} traces equal in both trails and the model",
        model.entities.len(),
        model.events.len()
    ));
}

/// The kept log of the trail, taken in again, answers the same.
#[test]
fn the_kept_log_answers_as_the_trail() {
    let mut random = Random::new(29);
    let recordings = recordings(&mut random);
    let model = model_of(&recordings);
    let trail = Folder::new();
    take_in_turn(&trail, &recordings, &mut random);
    trail.run(["check", "--deep"]).expect(DONE);
    trail.run(["log", "kept.slt"]).expect(DONE);
    let fresh = Folder::new();
    let kept = trail.join("kept.slt");
    fresh.run(["take".into(), kept]).expect(DONE);
    fresh.expect_entities(&model);
    for entity in 0..model.entities.len() {
        for (time, at) in times(&mut random, &model) {
            fresh.expect_behind(&model, entity, time, &at);
        }
        fresh.expect_reached(&model, &[entity]);
    }
}
