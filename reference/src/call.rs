//! One call with all it is lent but the tables.

use crate::answers::{BackwardAnswer, BatchAnswer, ForwardAnswer, LogAnswer};
use crate::tables::Tables;

#[derive(Clone, Debug, PartialEq, Eq)]
pub enum Call {
    Batch {
        file: Vec<u8>,
    },
    Backward {
        entity: u32,
        time: u32,
        work: Vec<u8>,
        marks: Vec<u8>,
    },
    Forward {
        members: Vec<u32>,
        time: u32,
        work: Vec<u8>,
        marks: Vec<u8>,
    },
    KeptLog {
        out: Vec<u8>,
    },
}

#[derive(Clone, Copy, Debug, PartialEq, Eq)]
pub enum Answer {
    Batch(BatchAnswer),
    Backward(BackwardAnswer),
    Forward(ForwardAnswer),
    KeptLog(LogAnswer),
}

impl Call {
    /// Makes the call; it writes into the tables and into its own buffers.
    pub fn run(&mut self, tables: &mut Tables) -> Answer {
        match self {
            Call::Batch { file } => Answer::Batch(tables.batch(file)),
            Call::Backward {
                entity,
                time,
                work,
                marks,
            } => Answer::Backward(tables.backward(*entity, *time, work, marks)),
            Call::Forward {
                members,
                time,
                work,
                marks,
            } => Answer::Forward(tables.forward(members, *time, work, marks)),
            Call::KeptLog { out } => Answer::KeptLog(tables.kept_log(out)),
        }
    }
}

impl Answer {
    pub fn refusal(self) -> u32 {
        match self {
            Answer::Batch(answer) => answer.refusal,
            Answer::Backward(answer) => answer.refusal,
            Answer::Forward(answer) => answer.refusal,
            Answer::KeptLog(answer) => answer.refusal,
        }
    }
}
