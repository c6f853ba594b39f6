//! Names, sorts and times, for people and in JSON.

use crate::state::State;
use serde_json::{json, Map, Value};
use trail::{EntityNo, Sort, Time};

/// A name for people: bytes that are not UTF-8, and characters that would change what a terminal shows, as `\xNN`.
pub fn name(bytes: &[u8]) -> String {
    if let Some(text) = std::str::from_utf8(bytes)
        .ok()
        .filter(|text| text.chars().all(is_plain))
    {
        return text.to_string();
    }
    let mut shown = String::new();
    for chunk in bytes.utf8_chunks() {
        for character in chunk.valid().chars() {
            match is_plain(character) {
                true => shown.push(character),
                false => escape(&mut shown, character.encode_utf8(&mut [0; 4]).as_bytes()),
            }
        }
        escape(&mut shown, chunk.invalid());
    }
    shown
}

fn escape(shown: &mut String, bytes: &[u8]) {
    for byte in bytes {
        shown.push_str(&format!("\\x{byte:02x}"));
    }
}

/// Neither a control character nor one that turns the direction of writing, breaks the line or has no width.
fn is_plain(character: char) -> bool {
    let hidden = matches!(character,
        '\u{061c}' | '\u{200b}' | '\u{200e}' | '\u{200f}' | '\u{2028}'..='\u{202e}' | '\u{2060}'..='\u{206f}' | '\u{feff}');
    !character.is_control() && !hidden
}

/// An entity for people: its name, or `#N` if it has none.
pub fn entity(state: &State, entity: EntityNo) -> String {
    match state.names.name(entity) {
        b"" => format!("#{entity}"),
        bytes => name(bytes),
    }
}

/// The sort of an entity that is in the trail.
pub fn sort(state: &State, entity: EntityNo) -> Sort {
    state
        .trail
        .entity(entity)
        .map_or(Sort::Object, |row| row.sort)
}

pub fn is_program(state: &State, entity: EntityNo) -> bool {
    sort(state, entity).is_subject()
}

/// The word of a sort in a list for people.
pub fn sort_word(sort: Sort) -> &'static str {
    match sort {
        Sort::Object => "file",
        Sort::Subject => "program",
        Sort::SignedObject => "signed",
    }
}

/// An entity in JSON: its number, name and sort.
pub fn entity_json(state: &State, entity: EntityNo) -> Map<String, Value> {
    let mut members = Map::new();
    members.insert("entity".to_string(), json!(entity.0));
    if !state.names.name(entity).is_empty() {
        insert_name(&mut members, state.names.name(entity));
    }
    let sort = match sort(state, entity) {
        Sort::SignedObject => "signed file",
        other => sort_word(other),
    };
    members.insert("sort".to_string(), json!(sort));
    members
}

/// A name in JSON: `name` if it is UTF-8, else `name_hex`.
pub fn insert_name(members: &mut Map<String, Value>, name: &[u8]) {
    match std::str::from_utf8(name) {
        Ok(text) => members.insert("name".to_string(), json!(text)),
        Err(_) => members.insert("name_hex".to_string(), json!(hex(name))),
    };
}

pub fn hex(bytes: &[u8]) -> String {
    bytes.iter().map(|byte| format!("{byte:02x}")).collect()
}

/// A time for people: the moment if the trail has a start, else hundredths.
pub fn time(state: &State, time: Time) -> String {
    match state.moment(time) {
        Some(moment) => moment.to_string(),
        None => time.to_string(),
    }
}

/// A time in JSON: hundredths, and the moment if the trail has a start.
pub fn insert_time(
    members: &mut Map<String, Value>,
    key: &str,
    moment_key: &str,
    state: &State,
    time: Time,
) {
    members.insert(key.to_string(), json!(time.0));
    if let Some(moment) = state.moment(time) {
        members.insert(moment_key.to_string(), json!(moment.to_string()));
    }
}

/// A number with commas: 262,144.
pub fn number(number: u64) -> String {
    let digits = number.to_string();
    let mut shown = String::new();
    for (i, digit) in digits.chars().enumerate() {
        if i > 0 && (digits.len() - i).is_multiple_of(3) {
            shown.push(',');
        }
        shown.push(digit);
    }
    shown
}

/// A number of things: `1 file`, `2,000 files`.
pub fn count(number_of: u64, one: &str, many: &str) -> String {
    format!(
        "{} {}",
        number(number_of),
        if number_of == 1 { one } else { many }
    )
}

#[cfg(test)]
mod tests {
    use super::*;

    #[test]
    fn plain_names_are_printed_as_they_are() {
        assert_eq!(
            name("/srv/nuit été 夜.txt".as_bytes()),
            "/srv/nuit été 夜.txt"
        );
        assert_eq!(name(b"a\\;b"), "a\\;b");
    }

    #[test]
    fn bytes_that_a_terminal_would_obey_are_escaped() {
        assert_eq!(name(b"a\x1b[31m\n\x7f"), "a\\x1b[31m\\x0a\\x7f");
        assert_eq!(name(b"caf\xe9/\xff\xfe"), "caf\\xe9/\\xff\\xfe");
        assert_eq!(
            name("a\u{202e}b\u{9b}".as_bytes()),
            "a\\xe2\\x80\\xaeb\\xc2\\x9b"
        );
    }

    #[test]
    fn a_name_that_is_not_utf8_comes_back_as_hex() {
        let mut members = Map::new();
        insert_name(&mut members, b"caf\xe9");
        assert_eq!(Value::Object(members), json!({"name_hex": "636166e9"}));
    }

    #[test]
    fn numbers_have_commas() {
        let shown = [0, 12, 123, 1234, 262144, 1000000].map(number);
        assert_eq!(shown, ["0", "12", "123", "1,234", "262,144", "1,000,000"]);
        assert_eq!(count(1, "file", "files"), "1 file");
        assert_eq!(count(0, "file", "files"), "0 files");
    }
}
