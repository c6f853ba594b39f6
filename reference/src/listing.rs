//! The text of the listing program.

use crate::answers::BatchAnswer;
use crate::capacity::TableLengths;
use crate::refusal;
use crate::tables::Tables;

pub const MOST_BYTES: usize = 32_768;
pub const ROWS: usize = 2_730;

/// What the listing program prints for these bytes on standard input.
pub fn listing(stdin_bytes: &[u8]) -> Vec<u8> {
    if stdin_bytes.len() > MOST_BYTES {
        return b"too long\n".to_vec();
    }
    let mut tables = Tables::fresh(TableLengths::of_rows(ROWS, ROWS, ROWS));
    let answer = tables.batch(stdin_bytes);
    let mut text = trail_line(&tables);
    text += &edge_lines(&tables);
    text += &refused_line(answer);
    text.into_bytes()
}

fn trail_line(tables: &Tables) -> String {
    let counts = tables.counts;
    format!(
        "trail {} {} {} {} {}\n",
        counts.entities, counts.versions, counts.edges, counts.accepted, counts.last
    )
}

fn edge_lines(tables: &Tables) -> String {
    let mut lines = String::new();
    for edge in tables.view().edge_rows() {
        lines += &format!(
            "edge {} {} {} {}\n",
            edge.from, edge.to, edge.kind, edge.time
        );
    }
    lines
}

fn refused_line(answer: BatchAnswer) -> String {
    if answer.refusal == refusal::NONE {
        return String::new();
    }
    format!("refused {} {}\n", answer.refusal, refused_record(answer))
}

/// The record refused, from 1; 0 for a refusal before any record.
fn refused_record(answer: BatchAnswer) -> u32 {
    match answer.refusal {
        refusal::HEADER | refusal::FILE_VERSION | refusal::UNSOUND => 0,
        _ => answer.taken + 1,
    }
}
