//! The library's calls on lent tables, with nothing copied.

use reference::archive::interface::{slt_backward, slt_batch, slt_forward, slt_kept_log};
use reference::{BackwardAnswer, BatchAnswer, ForwardAnswer, LogAnswer, Tables};

pub fn batch(tables: &mut Tables, file: &[u8]) -> BatchAnswer {
    // Sound: each pointer and length belong to a slice of their own.
    unsafe {
        slt_batch(
            &mut tables.counts,
            tables.entities.as_mut_ptr(),
            tables.entities.len(),
            tables.versions.as_mut_ptr(),
            tables.versions.len(),
            tables.edges.as_mut_ptr(),
            tables.edges.len(),
            file.as_ptr(),
            file.len(),
        )
    }
}

pub fn backward(
    tables: &Tables,
    entity: u32,
    time: u32,
    work: &mut [u8],
    marks: &mut [u8],
) -> BackwardAnswer {
    // Sound: each pointer and length belong to a slice of their own.
    unsafe {
        slt_backward(
            tables.counts,
            tables.entities.as_ptr(),
            tables.entities.len(),
            tables.versions.as_ptr(),
            tables.versions.len(),
            tables.edges.as_ptr(),
            tables.edges.len(),
            entity,
            time,
            work.as_mut_ptr(),
            work.len(),
            marks.as_mut_ptr(),
            marks.len(),
        )
    }
}

pub fn forward(
    tables: &Tables,
    members: &[u32],
    time: u32,
    work: &mut [u8],
    marks: &mut [u8],
) -> ForwardAnswer {
    // Sound: each pointer and length belong to a slice of their own.
    unsafe {
        slt_forward(
            tables.counts,
            tables.entities.as_ptr(),
            tables.entities.len(),
            tables.versions.as_ptr(),
            tables.versions.len(),
            tables.edges.as_ptr(),
            tables.edges.len(),
            members.as_ptr(),
            members.len(),
            time,
            work.as_mut_ptr(),
            work.len(),
            marks.as_mut_ptr(),
            marks.len(),
        )
    }
}

pub fn kept_log(tables: &Tables, out: &mut [u8]) -> LogAnswer {
    // Sound: each pointer and length belong to a slice of their own.
    unsafe {
        slt_kept_log(
            tables.counts,
            tables.entities.as_ptr(),
            tables.entities.len(),
            tables.versions.as_ptr(),
            tables.versions.len(),
            tables.edges.as_ptr(),
            tables.edges.len(),
            out.as_mut_ptr(),
            out.len(),
        )
    }
}
