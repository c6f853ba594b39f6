//! What the members of a list mark together, from what each marks alone.

use crate::answers::{Counts, ForwardAnswer};
use crate::refusal;

/// What a forward trace gives, with buffers as long as the counts.
#[derive(Clone, Debug, PartialEq, Eq)]
pub struct Forward {
    pub answer: ForwardAnswer,
    pub work: Vec<u8>,
    pub marks: Vec<u8>,
}

impl Forward {
    /// A version or an entity is marked if any member marks it alone. The
    /// intake is the earliest; without members it is 0 and nothing is marked.
    pub fn union(counts: Counts, alone: &[Forward]) -> Forward {
        let work = union_of(counts.versions, alone.iter().map(|one| &one.work));
        let marks = union_of(counts.entities, alone.iter().map(|one| &one.marks));
        let intakes = alone.iter().map(|one| one.answer.intake);
        let answer = ForwardAnswer {
            refusal: refusal::NONE,
            count: marks.iter().map(|mark| u32::from(*mark)).sum(),
            intake: intakes.min().unwrap_or(0),
        };
        Forward {
            answer,
            work,
            marks,
        }
    }
}

fn union_of<'a>(count: u32, buffers: impl Iterator<Item = &'a Vec<u8>>) -> Vec<u8> {
    let mut union = vec![0; count as usize];
    for buffer in buffers {
        for (mark, other) in union.iter_mut().zip(buffer) {
            *mark |= other;
        }
    }
    union
}
