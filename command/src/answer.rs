//! What the answers of `trail back` and `trail forward` have in common.

use crate::choice::Chosen;
use crate::cli::Choice;
use crate::entities;
use crate::failure::{Exit, Failure};
use crate::find::Found;
use crate::show;
use crate::state::State;
use serde_json::{json, Map, Value};
use trail::{EntityNo, Refusal};

/// The entities of a trace that are shown, in order.
pub struct Shown<'a> {
    state: &'a State,
    of: Vec<EntityNo>,
    shown: Vec<EntityNo>,
}

impl<'a> Shown<'a> {
    pub fn new(state: &'a State, choice: &Choice, of: Vec<EntityNo>) -> Shown<'a> {
        let chosen = Chosen::new(choice);
        let shown = of
            .iter()
            .copied()
            .filter(|entity| chosen.shows(state, *entity));
        let shown = entities::in_order(state, shown);
        Shown { state, of, shown }
    }

    pub fn is_one(&self) -> bool {
        self.of.len() == 1
    }

    pub fn is_empty(&self) -> bool {
        self.of.is_empty()
    }

    /// `9 entities`.
    pub fn count(&self) -> String {
        show::count(self.of.len() as u64, "entity", "entities")
    }

    /// Of which sorts they are, and how many of them are shown if not all are.
    pub fn sorts(&self) -> String {
        let tally = entities::tally(self.state, &self.of);
        match self.shown.len() {
            all if all == self.of.len() => format!("({tally})"),
            some => format!("({tally}); {} of them shown", show::number(some as u64)),
        }
    }

    pub fn lines(&self) -> String {
        entities::lines(self.state, &self.shown)
    }

    pub fn json(&self) -> Value {
        entities::json(self.state, &self.shown)
    }
}

/// The entity asked about, and which generation it is if the name left that open.
pub fn asked(state: &State, found: &Found) -> String {
    let name = show::entity(state, found.entity);
    match found.generation {
        None => name,
        Some((number, of)) if number == of => format!("{name}, the latest of {of},"),
        Some((number, of)) => format!("{name}, number {number} of {of},"),
    }
}

pub fn asked_json(state: &State, found: &Found) -> Map<String, Value> {
    let mut members = show::entity_json(state, found.entity);
    if let Some((number, of)) = found.generation {
        members.insert("generation".to_string(), json!(number));
        members.insert("generations".to_string(), json!(of));
    }
    members
}

/// The state was tested and the entities are in it, so that no trace is refused.
pub fn refused(refusal: Refusal) -> Failure {
    Failure::new(Exit::Damaged, format!("trace refused with {refusal}"))
}
