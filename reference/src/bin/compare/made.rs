//! What a call left, and the first place where two such differ.

use crate::difference::{differ, differ_at};
use reference::{Answer, Call, Tables};

/// Its answer, the tables and its own buffers.
pub struct Made {
    pub answer: Answer,
    pub tables: Tables,
    pub call: Call,
}

/// The first difference between what the archive and the reference made.
pub fn first_difference(archive: &Made, reference: &Made) -> Option<String> {
    let (tables, expected) = (&archive.tables, &reference.tables);
    differ("answer", archive.answer, reference.answer)
        .or_else(|| differ("counts", tables.counts, expected.counts))
        .or_else(|| differ_at("entities", &tables.entities, &expected.entities))
        .or_else(|| differ_at("versions", &tables.versions, &expected.versions))
        .or_else(|| differ_at("edges", &tables.edges, &expected.edges))
        .or_else(|| differ_at("members", members(&archive.call), members(&reference.call)))
        .or_else(|| differ_in_buffers(&archive.call, &reference.call))
}

/// The list lent to a forward trace.
fn members(call: &Call) -> &[u32] {
    match call {
        Call::Forward { members, .. } => members,
        _ => &[],
    }
}

fn differ_in_buffers(archive: &Call, reference: &Call) -> Option<String> {
    let pairs = buffers(archive).into_iter().zip(buffers(reference));
    let mut places = pairs.map(|((name, ours), (_, expected))| differ_at(name, ours, expected));
    places.find_map(|place| place)
}

/// The bytes lent for the call alone.
fn buffers(call: &Call) -> Vec<(&'static str, &[u8])> {
    match call {
        Call::Batch { file } => vec![("file", file)],
        Call::Backward { work, marks, .. } | Call::Forward { work, marks, .. } => {
            vec![("work", work), ("marks", marks)]
        }
        Call::KeptLog { out } => vec![("out", out)],
    }
}
