//! Entities to trace, one at a time and in lists.

use crate::capacity::MOST_ENTITIES;
use crate::random::Random;

/// The most members of a short list.
const MOST_MEMBERS: usize = 6;

/// An entity, mostly a declared one.
pub fn any_entity(random: &mut Random, entities: u32) -> u32 {
    match random.below(6) {
        0 => undeclared(random, entities),
        _ => declared(random, entities),
    }
}

/// The members of a forward trace, mostly declared ones: none, one or several
/// in any order, with repeats or not; all entities at once; more members than
/// there are entities.
pub fn any_members(random: &mut Random, entities: u32) -> Vec<u32> {
    match random.below(10) {
        0 => Vec::new(),
        1 => vec![any_entity(random, entities)],
        2 => all_members(random, entities),
        3 => {
            let length = most_entities(entities) + 1 + random.below(MOST_MEMBERS);
            declared_members(random, entities, length)
        }
        4 => members_with_undeclared(random, entities),
        _ => {
            let length = random.below(MOST_MEMBERS + 1);
            declared_members(random, entities, length)
        }
    }
}

/// This many members, each a declared one if there are any.
pub fn declared_members(random: &mut Random, entities: u32, length: usize) -> Vec<u32> {
    (0..length).map(|_| declared(random, entities)).collect()
}

/// All entities once, in any order.
pub fn all_members(random: &mut Random, entities: u32) -> Vec<u32> {
    let mut members: Vec<u32> = (0..most_entities(entities) as u32).collect();
    random.shuffle(&mut members);
    members
}

/// Several members of which one is undeclared: the first, the last or one
/// between.
fn members_with_undeclared(random: &mut Random, entities: u32) -> Vec<u32> {
    let length = 3 + random.below(MOST_MEMBERS - 2);
    let mut members = declared_members(random, entities, length);
    let place = match random.below(3) {
        0 => 0,
        1 => length - 1,
        _ => 1 + random.below(length - 2),
    };
    members[place] = undeclared(random, entities);
    members
}

/// A declared entity, often the first or the last; 0 if there is none.
fn declared(random: &mut Random, entities: u32) -> u32 {
    let last = entities.saturating_sub(1);
    match random.below(8) {
        0 => 0,
        1 => last,
        _ => random.between(0, last),
    }
}

/// The next number, one that is declared if cut to 16 bits, the last of all,
/// or any from the next on.
fn undeclared(random: &mut Random, entities: u32) -> u32 {
    match random.below(4) {
        0 => entities,
        1 => entities.saturating_add(u32::from(u16::MAX)),
        2 => u32::MAX,
        _ => random.between(entities, u32::MAX),
    }
}

/// The count of entities, which unsound tables may have too high for a list.
fn most_entities(entities: u32) -> usize {
    (entities as usize).min(MOST_ENTITIES)
}
