//! Entities in a list: their order, a line for each, how many there are.

use crate::state::State;
use crate::{show, typed};
use serde_json::Value;
use trail::EntityNo;

/// An entity's name without generation and, if it is a program, without `[PID]`.
pub fn path(state: &State, entity: EntityNo) -> &[u8] {
    let base = state.names.base_of(entity);
    match show::is_program(state, entity) {
        true => typed::without_pid(base),
        false => base,
    }
}

/// Files first, then programs, each by name; those of one name by number, and those without a name last.
pub fn in_order(state: &State, entities: impl Iterator<Item = EntityNo>) -> Vec<EntityNo> {
    let mut ordered: Vec<EntityNo> = entities.collect();
    ordered.sort_by_cached_key(|entity| {
        let path = path(state, *entity);
        (
            show::is_program(state, *entity),
            path.is_empty(),
            path,
            *entity,
        )
    });
    ordered
}

/// A line for each entity: its sort and name.
pub fn lines(state: &State, entities: &[EntityNo]) -> String {
    let line = |entity: &EntityNo| {
        let sort = show::sort_word(show::sort(state, *entity));
        format!("{sort:<7}  {}\n", show::entity(state, *entity))
    };
    entities.iter().map(line).collect()
}

pub fn json(state: &State, entities: &[EntityNo]) -> Value {
    let value = |entity: &EntityNo| Value::from(show::entity_json(state, *entity));
    entities.iter().map(value).collect()
}

/// How many files and programs they are: `5 files, 4 programs`.
pub fn tally(state: &State, entities: &[EntityNo]) -> String {
    let programs = entities
        .iter()
        .filter(|entity| show::is_program(state, **entity))
        .count();
    let counts = [
        (entities.len() - programs, "file", "files"),
        (programs, "program", "programs"),
    ];
    let parts: Vec<String> = counts
        .into_iter()
        .filter(|(count, ..)| *count > 0)
        .map(|(count, one, many)| show::count(count as u64, one, many))
        .collect();
    parts.join(", ")
}
