//! The example nights taken in turn: the model's answers, and what the story of the nights says.

use crate::common::folder::Folder;
use crate::common::model::Model;
use crate::common::nights::{hundredths, path, read};
use crate::common::run::DONE;
use crate::common::say;

const NIGHTS: usize = 3;

fn taken() -> Folder {
    let folder = Folder::new();
    for night in 1..=NIGHTS {
        folder.run(["take".into(), path(night)]).expect(DONE);
    }
    folder
}

#[test]
fn the_nights_answer_as_the_model() {
    let folder = taken();
    let mut model = Model::default();
    let first = hundredths(&read(&path(1)).start.unwrap());
    for night in 1..=NIGHTS {
        let recording = read(&path(night));
        let later = hundredths(recording.start.as_ref().unwrap()) - first;
        model.take(&recording, later as u32);
    }
    folder.expect_entities(&model);
    let end = model.events.last().unwrap().time;
    for entity in 0..model.entities.len() {
        for time in [0, end / 3, end / 2, end] {
            folder.expect_behind(&model, entity, time, &time.to_string());
        }
        folder.expect_reached(&model, &[entity]);
    }
    say(&format!(
        "example nights: {} entities, {} events, every trace as the model's",
        model.entities.len(),
        model.events.len()
    ));
}

/// Behind a night's report stands its own study, and no other night's.
#[test]
fn behind_a_report_stands_its_own_study() {
    let folder = taken();
    for night in 1..=NIGHTS {
        let behind = folder.names_behind(&format!("reports/night-{night}.txt"));
        for other in 1..=NIGHTS {
            let study = format!("/srv/sleep/studies/night-{other}.edf");
            assert_eq!(
                behind.contains(&study),
                night == other,
                "{study} behind night {night}: {behind:?}"
            );
        }
    }
    folder.run(["check", "--deep"]).expect(DONE);
}

/// The summary is made anew each night, of all reports so far.
#[test]
fn the_summary_has_a_generation_for_each_night() {
    let folder = taken();
    let names: Vec<Vec<u8>> = folder.list().into_values().flatten().collect();
    let summaries = names
        .iter()
        .filter(|name| name.starts_with(b"/srv/sleep/reports/summary.txt"))
        .count();
    assert_eq!(summaries, NIGHTS);
    assert_eq!(
        folder.names_behind("summary.txt"),
        folder.names_behind(&format!("summary.txt;{NIGHTS}"))
    );
    assert_ne!(
        folder.names_behind("summary.txt"),
        folder.names_behind("summary.txt;1")
    );
}
