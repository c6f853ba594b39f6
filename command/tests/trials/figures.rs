//! The figures of `stats` and `list` against the state's rows and the model's events.

use crate::common::folder::Folder;
use crate::common::model::Model;
use crate::common::random::Random;
use crate::common::recordings::{long, HOUR};
use crate::common::run::DONE;
use serde_json::Value;

/// A trail of three recordings, and the model of them.
fn three_nights() -> (Folder, Model) {
    let mut random = Random::new(59);
    let folder = Folder::new();
    let mut model = Model::default();
    for night in 0..3 {
        let recording = long(&mut random, night * HOUR, 1500);
        model.take(&recording, night * HOUR);
        folder
            .take(&recording, &format!("night {night}"))
            .expect(DONE);
    }
    (folder, model)
}

#[test]
fn stats_tells_what_the_state_holds() {
    let (folder, model) = three_nights();
    let stats = folder.json(["stats"]).expect(DONE).json();
    let [entities, versions, edges, accepted, last] = folder.state_file().counts;
    assert_eq!(accepted as usize, model.events.len());
    assert_eq!(entities as usize, model.entities.len());
    for (member, count) in [
        ("entities", entities),
        ("versions", versions),
        ("kept", edges),
        ("accepted", accepted),
        ("last", last),
        ("recordings", 3),
    ] {
        assert_eq!(stats[member], count, "{member}");
    }
    for (table, used, most) in [
        ("entities", entities, 4096),
        ("versions", versions, 65_536),
        ("edges", edges, 262_144),
        ("events", accepted, 1_000_000),
    ] {
        let rows = stats["tables"].as_array().unwrap();
        let row = rows.iter().find(|row| row["table"] == table).unwrap();
        assert_eq!(
            (&row["used"], &row["most"], &row["left"]),
            (&used.into(), &most.into(), &(most - used).into())
        );
    }
}

#[test]
fn list_tells_the_events_of_each_entity() {
    let (folder, model) = three_nights();
    let list = folder.json(["list"]).expect(DONE).json();
    let versions = folder.state_file().versions;
    for (number, row) in list.as_array().unwrap().iter().enumerate() {
        let into = model
            .events
            .iter()
            .filter(|event| event.target == number)
            .count();
        let out = model
            .events
            .iter()
            .filter(|event| event.source == number)
            .count();
        let own = versions
            .iter()
            .filter(|version| version[0] as usize == number)
            .count();
        assert_eq!(
            (&row["in"], &row["out"], &row["versions"]),
            (&into.into(), &out.into(), &own.into()),
            "{row}"
        );
        let sort = if model.entities[number].sort as u8 == 1 {
            "program"
        } else {
            "file"
        };
        assert_eq!(row["sort"], Value::from(sort));
    }
}
