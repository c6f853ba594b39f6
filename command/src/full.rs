//! What it means that a table is full, and what can be done.

use crate::show;
use crate::state::State;
use trail::{Refusal, MOST_ACCEPTED, MOST_EDGES, MOST_ENTITIES, MOST_VERSIONS};

#[derive(Clone, Copy, Debug, PartialEq, Eq)]
pub struct Full {
    pub table: &'static str,
    pub most: u32,
    /// What does not go in any more.
    meaning: &'static str,
}

impl Full {
    /// The table that a refusal says is full.
    pub fn of(refusal: Refusal) -> Option<Full> {
        let (table, most, meaning) = match refusal {
            Refusal::EntitiesFull => ("entities", MOST_ENTITIES, "no recording with a new file or program"),
            Refusal::VersionsFull => (
                "versions",
                MOST_VERSIONS,
                "no recording with a new file or program, or in which one takes something in after it gave something on",
            ),
            Refusal::EdgesFull => ("edges", MOST_EDGES, "no recording with an event that has to be kept"),
            Refusal::AcceptedFull => ("accepted events", MOST_ACCEPTED, "no recording with an event"),
            _ => return None,
        };
        Some(Full {
            table,
            most,
            meaning,
        })
    }

    /// More lines for the message: of the trail, or of a recording that is too large for any.
    pub fn explain(&self, state: &State, alone: bool) -> String {
        let Full { table, meaning, .. } = self;
        let most = show::number(self.most.into());
        if alone {
            return format!("\nThe recording alone has more than {most} {table}, the most of a trail. Record it in shorter parts.");
        }
        let stays = "Nothing is lost: the trail and its answers stay as they are.";
        let advice = match *self {
            Full { most: MOST_ACCEPTED, .. } => {
                let room = show::number((MOST_ACCEPTED - state.trail.counts().edges).into());
                format!(
                    "Write the kept log (`trail log OUT.slt`) and take it into a fresh trail: there each kept event counts once, \
                     and {room} more go in. It does not know the recordings taken in before: give it only newer ones."
                )
            }
            _ => "Begin a new trail for what comes, and keep this one for its answers; its kept log taken into a fresh trail \
                  needs as many."
                .to_string(),
        };
        let what = match self.left(state) {
            0 => format!("all are in use, and {meaning} goes in any more"),
            left => format!(
                "{} are left, and this recording needs more",
                show::number(left.into())
            ),
        };
        format!("\nThe trail can have {most} {table}: {what}.\n{stays} {advice}")
    }

    /// How many the trail has left.
    fn left(&self, state: &State) -> u32 {
        let counts = state.trail.counts();
        let used = match self.most {
            MOST_ENTITIES => counts.entities,
            MOST_VERSIONS => counts.versions,
            MOST_EDGES => counts.edges,
            _ => counts.accepted,
        };
        self.most - used
    }
}

#[cfg(test)]
mod tests;
