//! The C interface of the archive. A slice is a pointer and a length.

use crate::answers::{BackwardAnswer, BatchAnswer, Counts, ForwardAnswer, LogAnswer};

/// Numbers in the counts record.
pub const COUNTS_NUMBERS: usize = 5;

/// The numbers of the counts record in the order of its fields.
pub fn numbers_of(counts: Counts) -> [u32; COUNTS_NUMBERS] {
    let Counts {
        entities,
        versions,
        edges,
        accepted,
        last,
    } = counts;
    [entities, versions, edges, accepted, last]
}

/// The counts record of these numbers.
pub fn counts_of(numbers: [u32; COUNTS_NUMBERS]) -> Counts {
    let [entities, versions, edges, accepted, last] = numbers;
    Counts {
        entities,
        versions,
        edges,
        accepted,
        last,
    }
}

extern "C" {
    pub fn slt_batch(
        counts: *mut Counts,
        entities: *mut u32,
        entities_length: usize,
        versions: *mut u32,
        versions_length: usize,
        edges: *mut u32,
        edges_length: usize,
        file: *const u8,
        file_length: usize,
    ) -> BatchAnswer;

    pub fn slt_backward(
        counts: Counts,
        entities: *const u32,
        entities_length: usize,
        versions: *const u32,
        versions_length: usize,
        edges: *const u32,
        edges_length: usize,
        entity: u32,
        time: u32,
        work: *mut u8,
        work_length: usize,
        marks: *mut u8,
        marks_length: usize,
    ) -> BackwardAnswer;

    pub fn slt_forward(
        counts: Counts,
        entities: *const u32,
        entities_length: usize,
        versions: *const u32,
        versions_length: usize,
        edges: *const u32,
        edges_length: usize,
        members: *const u32,
        members_length: usize,
        time: u32,
        work: *mut u8,
        work_length: usize,
        marks: *mut u8,
        marks_length: usize,
    ) -> ForwardAnswer;

    pub fn slt_kept_log(
        counts: Counts,
        entities: *const u32,
        entities_length: usize,
        versions: *const u32,
        versions_length: usize,
        edges: *const u32,
        edges_length: usize,
        out: *mut u8,
        out_length: usize,
    ) -> LogAnswer;
}
