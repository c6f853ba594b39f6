//! `trail forward`: what one or more entities reached.

use crate::answer::{asked, asked_json, refused, Shown};
use crate::cli::{At, Choice};
use crate::failure::Failure;
use crate::find::{find, Found};
use crate::report::Report;
use crate::state::State;
use crate::{at, show};
use serde_json::{Map, Value};
use std::ffi::OsString;
use trail::{EntityNo, ForwardTrace, Time};

/// An entity that was asked about, and the trace from it alone.
struct Member {
    found: Found,
    alone: ForwardTrace,
}

/// What the members reached together.
struct Answer<'a> {
    state: &'a State,
    time: Time,
    members: Vec<Member>,
    together: ForwardTrace,
    reached: Shown<'a>,
}

pub fn run(
    state: &State,
    names: &[OsString],
    at: &At,
    choice: &Choice,
    json: bool,
) -> Result<Report, Failure> {
    let time = at::time(state, at)?;
    let members = members(state, names, time)?;
    let numbers: Vec<EntityNo> = members.iter().map(|member| member.found.entity).collect();
    let together = match members.as_slice() {
        [one] => one.alone.clone(),
        _ => state.trail.forward(&numbers, time).map_err(refused)?,
    };
    let reached = together
        .trace
        .entities()
        .filter(|entity| is_reached(&members, *entity));
    let reached = Shown::new(state, choice, reached.collect());
    let answer = Answer {
        state,
        time,
        members,
        together,
        reached,
    };
    Ok(Report::either(json, || answer.text(), || answer.json()))
}

/// Each entity once, whatever it is called by.
fn members(state: &State, names: &[OsString], time: Time) -> Result<Vec<Member>, Failure> {
    let mut members: Vec<Member> = Vec::new();
    for name in names {
        let found = find(state, name, time)?;
        if members
            .iter()
            .all(|member| member.found.entity != found.entity)
        {
            let alone = state
                .trail
                .forward(&[found.entity], time)
                .map_err(refused)?;
            members.push(Member { found, alone });
        }
    }
    Ok(members)
}

/// A trace marks its members too; one of them is reached if the trace from another marks it.
fn is_reached(members: &[Member], entity: EntityNo) -> bool {
    members
        .iter()
        .any(|member| member.found.entity != entity && member.alone.trace.is_marked(entity))
}

impl Answer<'_> {
    fn text(&self) -> String {
        let mut text: String = self
            .members
            .iter()
            .map(|member| self.start_line(member))
            .collect();
        if self.members.len() > 1 {
            text.push_str(&self.earliest_line());
        }
        text.push_str(&self.hint());
        text.push_str(&format!("{}\n{}", self.words(), self.reached.lines()));
        text
    }

    /// From where on a member's trace goes.
    fn start_line(&self, member: &Member) -> String {
        let (asked, time) = (
            asked(self.state, &member.found),
            show::time(self.state, self.time),
        );
        let from = match member.alone.intake {
            Time(0) => "since the trail began, as nothing had entered it by then".to_string(),
            intake => format!(
                "from its last kept intake on, at {}",
                show::time(self.state, intake)
            ),
        };
        format!("{asked} at {time}: {from}\n")
    }

    /// The earliest intake of several members.
    fn earliest_line(&self) -> String {
        match self.together.intake {
            Time(0) => "the earliest of these: since the trail began\n".to_string(),
            intake => format!(
                "the earliest of these: {}\n",
                show::time(self.state, intake)
            ),
        }
    }

    /// How to ask for all, if there are earlier versions that can have reached something else.
    fn hint(&self) -> String {
        let has_earlier = |member: &Member| {
            let row = self.state.trail.entity(member.found.entity);
            let latest = row.and_then(|row| self.state.trail.version(row.latest));
            member.alone.intake > Time(0)
                && latest.is_some_and(|version| version.previous.is_some())
        };
        match self.members.as_slice() {
            members if !members.iter().any(has_earlier) => String::new(),
            [one] => format!(
                "(all that it ever reached: trail forward --at 0 '#{}')\n",
                one.found.entity
            ),
            _ => "(all that they ever reached: with --at 0)\n".to_string(),
        }
    }

    fn words(&self) -> String {
        let subject = if self.members.len() == 1 {
            "it"
        } else {
            "they"
        };
        match self.reached.is_empty() {
            true => format!("{subject} reached nothing"),
            false => format!(
                "{subject} reached {} {}",
                self.reached.count(),
                self.reached.sorts()
            ),
        }
    }

    fn json(&self) -> Value {
        let (state, intake) = (self.state, self.together.intake);
        let member = |member: &Member| {
            let mut members = asked_json(state, &member.found);
            show::insert_time(
                &mut members,
                "intake",
                "intake_moment",
                state,
                member.alone.intake,
            );
            Value::from(members)
        };
        let mut members = Map::new();
        members.insert(
            "members".to_string(),
            self.members.iter().map(member).collect(),
        );
        show::insert_time(&mut members, "time", "moment", state, self.time);
        show::insert_time(&mut members, "intake", "intake_moment", state, intake);
        members.insert("count".to_string(), self.together.trace.count().into());
        members.insert("reached".to_string(), self.reached.json());
        members.into()
    }
}

#[cfg(test)]
mod tests;
