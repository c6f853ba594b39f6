//! The entity that a name stands for.

use crate::failure::{Exit, Failure};
use crate::names::numbered_base;
use crate::state::State;
use crate::{entities, show, typed};
use std::cell::LazyCell;
use std::ffi::OsStr;
use std::os::unix::ffi::OsStrExt;
use trail::{EntityNo, Time};

/// How many candidates a failure lists.
const MOST_LISTED: usize = 20;

pub struct Found {
    pub entity: EntityNo,
    /// Which generation of its base it is, from 1, and of how many, if the name left that open and there are several.
    pub generation: Option<(usize, usize)>,
}

/// The entity that the name stands for; of several generations the latest that has an event at or before the time.
pub fn entity(state: &State, name: &OsStr, at: Time) -> Result<EntityNo, Failure> {
    find(state, name, at).map(|found| found.entity)
}

pub fn find(state: &State, name: &OsStr, at: Time) -> Result<Found, Failure> {
    if let Some(digits) = number(name) {
        return by_number(state, digits);
    }
    let forms = typed::forms(name);
    let fitting = Way::ALL
        .into_iter()
        .flat_map(|way| forms.iter().map(move |form| (way, form)))
        .map(|(way, form)| matches(state, form, way))
        .find(|fitting| !fitting.is_empty())
        .unwrap_or_default();
    let has_event = LazyCell::new(|| has_event(state, at));
    let found = |one: &Match| one.found(|entity| has_event[entity.0 as usize]);
    match fitting.as_slice() {
        [] => Err(not_found(state, name)),
        [one] => Ok(found(one)),
        several => {
            let candidates = several.iter().map(|one| found(one).entity);
            let candidates = entities::in_order(state, candidates);
            Err(ambiguous(state, name, &candidates))
        }
    }
}

/// The digits of `#N`.
fn number(name: &OsStr) -> Option<&str> {
    let digits = name.to_str()?.strip_prefix('#')?;
    (!digits.is_empty() && digits.bytes().all(|byte| byte.is_ascii_digit())).then_some(digits)
}

fn by_number(state: &State, digits: &str) -> Result<Found, Failure> {
    let entities = state.trail.counts().entities;
    match digits.parse() {
        Ok(number) if number < entities => Ok(Found {
            entity: EntityNo(number),
            generation: None,
        }),
        _ => Err(Failure::new(
            Exit::NotFound,
            format!("there is no entity #{digits}: the trail has {entities}, numbered from 0"),
        )),
    }
}

/// How a name may fit.
#[derive(Clone, Copy)]
enum Way {
    Whole,
    WithoutPid,
    /// After a `/`, with or without `[PID]`.
    End,
}

impl Way {
    /// In the order tried.
    const ALL: [Way; 3] = [Way::Whole, Way::WithoutPid, Way::End];

    fn fits(self, base: &[u8], path: &[u8], part: &[u8]) -> bool {
        let ends = |name: &[u8]| {
            name.strip_suffix(part)
                .is_some_and(|before| before.ends_with(b"/"))
        };
        let fits = match self {
            Way::Whole => base == part,
            Way::WithoutPid => path == part,
            Way::End => ends(base) || ends(path),
        };
        fits && !part.is_empty()
    }
}

/// The base, and the number of the generation if one is asked for.
fn split(form: &[u8]) -> (&[u8], Option<usize>) {
    let Some(base) = numbered_base(form) else {
        return (form, None);
    };
    let digits = std::str::from_utf8(&form[base.len() + 1..]).ok();
    let number = digits.and_then(|digits| digits.parse().ok());
    (base, Some(number.unwrap_or(usize::MAX)))
}

/// All generations of a base that fits, and the number of the one asked for.
struct Match<'a> {
    generations: &'a [EntityNo],
    generation: Option<usize>,
}

fn matches<'a>(state: &'a State, form: &[u8], way: Way) -> Vec<Match<'a>> {
    let (part, generation) = split(form);
    let mut fitting = Vec::new();
    for (entity, _) in state.trail.entities() {
        let base = state.names.base_of(entity);
        if !way.fits(base, entities::path(state, entity), part) {
            continue;
        }
        let generations = state.names.generations(base);
        // Each base once, at its first generation.
        let is_first = generations.first() == Some(&entity);
        if is_first && generation.is_none_or(|number| number <= generations.len()) {
            fitting.push(Match {
                generations,
                generation,
            });
        }
    }
    fitting
}

impl Match<'_> {
    /// The generation asked for, else the last one with an event, else the last.
    fn found(&self, has_event: impl Fn(&EntityNo) -> bool) -> Found {
        let generations = self.generations;
        let several = generations.len() > 1;
        let number = match self.generation {
            Some(number) => number,
            None if several => generations
                .iter()
                .rposition(has_event)
                .map_or(generations.len(), |place| place + 1),
            None => 1,
        };
        let open = several && self.generation.is_none();
        Found {
            entity: generations[number - 1],
            generation: open.then_some((number, generations.len())),
        }
    }
}

/// Whether each entity has an event at or before the time. Times of edges do not fall.
fn has_event(state: &State, at: Time) -> Vec<bool> {
    let mut has_event = vec![false; state.trail.counts().entities as usize];
    let edges = state.trail.edges().map(|(_, edge)| edge);
    for edge in edges.take_while(|edge| edge.time <= at) {
        for version in [edge.from, edge.to] {
            if let Some(row) = state.trail.version(version) {
                has_event[row.entity.0 as usize] = true;
            }
        }
    }
    has_event
}

fn ambiguous(state: &State, name: &OsStr, candidates: &[EntityNo]) -> Failure {
    let first_line = format!(
        "{} may be any of {} entities; give more of its name, or #N:",
        show::name(name.as_bytes()),
        candidates.len()
    );
    listing(state, first_line, "candidates", candidates)
}

fn not_found(state: &State, name: &OsStr) -> Failure {
    let shown = show::name(name.as_bytes());
    let similar: Vec<EntityNo> = state
        .trail
        .entities()
        .map(|(entity, _)| entity)
        .filter(|entity| is_similar(state.names.name(*entity), name.as_bytes()))
        .collect();
    if similar.is_empty() {
        return Failure::new(
            Exit::NotFound,
            format!("nothing in the trail is named {shown}"),
        );
    }
    let first_line = format!("nothing in the trail is named {shown}; similar:");
    listing(
        state,
        first_line,
        "similar",
        &entities::in_order(state, similar.into_iter()),
    )
}

/// Whether a name contains the last part of the path asked for, in capitals or not.
fn is_similar(name: &[u8], asked: &[u8]) -> bool {
    let part = asked.rsplit(|byte| *byte == b'/').next().unwrap_or(asked);
    !part.is_empty()
        && name
            .windows(part.len())
            .any(|window| window.eq_ignore_ascii_case(part))
}

fn listing(state: &State, first_line: String, key: &str, entities: &[EntityNo]) -> Failure {
    let listed = &entities[..entities.len().min(MOST_LISTED)];
    let more = entities.len() - listed.len();
    let mut message = first_line;
    for line in entities::lines(state, listed).lines() {
        message.push_str("\n  ");
        message.push_str(line);
    }
    if more > 0 {
        message.push_str(&format!("\n  and {more} more"));
    }
    Failure::new(Exit::NotFound, message)
        .with(key, entities::json(state, listed))
        .with("more", more)
}

#[cfg(test)]
mod tests;
