//! Answers of the command, read from its JSON.

use super::folder::Folder;
use super::run::DONE;
use serde_json::Value;
use std::collections::BTreeMap;

/// The name of an entity in JSON, as bytes; none for an unnamed one. A name is there once: as text or in hex.
pub fn name(entity: &Value) -> Option<Vec<u8>> {
    match (entity.get("name"), entity.get("name_hex")) {
        (Some(name), None) => Some(name.as_str().unwrap().as_bytes().to_vec()),
        (None, Some(hex)) => {
            let bytes = from_hex(hex.as_str().unwrap());
            assert!(
                std::str::from_utf8(&bytes).is_err(),
                "hex of a name that is UTF-8: {entity}"
            );
            Some(bytes)
        }
        (None, None) => None,
        both => panic!("two names: {both:?}"),
    }
}

pub fn from_hex(hex: &str) -> Vec<u8> {
    let byte = |at: usize| u8::from_str_radix(&hex[at..at + 2], 16).unwrap();
    (0..hex.len()).step_by(2).map(byte).collect()
}

pub type Named = BTreeMap<u32, Option<Vec<u8>>>;

/// Rows of JSON: their entities with their names, each once.
pub fn named(rows: &[Value]) -> Named {
    let row = |row: &Value| (row["entity"].as_u64().unwrap() as u32, name(row));
    let map: Named = rows.iter().map(row).collect();
    assert_eq!(map.len(), rows.len(), "an entity twice: {rows:?}");
    map
}

/// The entities that a trace marks: those asked about, and those listed behind or reached.
pub fn marked(answer: &Value) -> Named {
    let rows = |member: &str| {
        answer[member]
            .as_array()
            .unwrap_or_else(|| panic!("no {member}: {answer}"))
            .clone()
    };
    let (asked, others) = match answer.get("behind") {
        Some(_) => (vec![answer["entity"].clone()], rows("behind")),
        None => (rows("members"), rows("reached")),
    };
    let mut all = named(&asked);
    all.extend(named(&others));
    all
}

/// Those that a trace marks, all of them shown.
#[track_caller]
fn all_marked(answer: &Value) -> Named {
    let all = marked(answer);
    assert_eq!(answer["count"], all.len(), "{answer}");
    all
}

impl Folder {
    /// The entities that `list` lists.
    pub fn list(&self) -> Named {
        let list = self.json(["list"]).expect(DONE).json();
        named(list.as_array().unwrap())
    }

    /// The entities behind one at a time, by number.
    pub fn back(&self, entity: u32, at: &str) -> Named {
        let run = self.json(["back", &format!("#{entity}"), "--at", at]);
        all_marked(&run.expect(DONE).json())
    }

    /// The entities that these reached, asked at time 0.
    pub fn forward(&self, members: &[u32]) -> Named {
        let mut arguments = vec!["forward".to_string(), "--at".to_string(), "0".to_string()];
        arguments.extend(members.iter().map(|member| format!("#{member}")));
        all_marked(&self.json(arguments).expect(DONE).json())
    }

    /// The names behind an entity, by its name.
    pub fn names_behind(&self, name: &str) -> Vec<String> {
        let run = self.json(["back", name]).expect(DONE);
        texts(&run.json())
    }

    /// The names that an entity reached, by its name.
    pub fn names_reached(&self, name: &str, at: &str) -> Vec<String> {
        let run = self.json(["forward", name, "--at", at]).expect(DONE);
        texts(&run.json())
    }
}

/// The names that a trace marks, of those that are shown, in order of the alphabet.
pub fn texts(answer: &Value) -> Vec<String> {
    let names = marked(answer).into_values();
    let mut texts: Vec<String> = names
        .map(|name| String::from_utf8(name.unwrap()).unwrap())
        .collect();
    texts.sort();
    texts
}
