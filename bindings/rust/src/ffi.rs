//! The calls of the archive, with slices in place of pointers and lengths, and numbers where they stand in bytes. With `mapping`,
//! which it holds, the only module with `unsafe`.
//!
//! What the header asks holds for every call: a slice is valid, aligned and has values throughout; `&mut` slices overlap nothing;
//! the library returns, keeps no pointer and does not unwind; and [`OnWorker`] says that the thread has the stack.

mod mapping;

pub use mapping::Mapping;

use crate::tables::Tables;
use crate::worker::OnWorker;
use crate::Counts;

#[repr(C)]
pub struct BatchAnswer {
    pub refusal: u32,
    pub taken: u32,
    pub tried: u64,
}

#[repr(C)]
pub struct BackwardAnswer {
    pub refusal: u32,
    pub count: u32,
}

#[repr(C)]
pub struct ForwardAnswer {
    pub refusal: u32,
    pub count: u32,
    pub intake: u32,
}

#[repr(C)]
pub struct LogAnswer {
    pub refusal: u32,
    pub length: u32,
}

extern "C" {
    fn slt_batch(
        counts: *mut Counts,
        entities: *mut u32,
        entities_length: usize,
        versions: *mut u32,
        versions_length: usize,
        edges: *mut u32,
        edges_length: usize,
        file: *const u8,
        file_length: usize,
    ) -> BatchAnswer;

    fn slt_backward(
        counts: Counts,
        entities: *const u32,
        entities_length: usize,
        versions: *const u32,
        versions_length: usize,
        edges: *const u32,
        edges_length: usize,
        entity: u32,
        time: u32,
        work: *mut u8,
        work_length: usize,
        marks: *mut u8,
        marks_length: usize,
    ) -> BackwardAnswer;

    fn slt_forward(
        counts: Counts,
        entities: *const u32,
        entities_length: usize,
        versions: *const u32,
        versions_length: usize,
        edges: *const u32,
        edges_length: usize,
        members: *const u32,
        members_length: usize,
        time: u32,
        work: *mut u8,
        work_length: usize,
        marks: *mut u8,
        marks_length: usize,
    ) -> ForwardAnswer;

    fn slt_kept_log(
        counts: Counts,
        entities: *const u32,
        entities_length: usize,
        versions: *const u32,
        versions_length: usize,
        edges: *const u32,
        edges_length: usize,
        out: *mut u8,
        out_length: usize,
    ) -> LogAnswer;
}

/// The numbers of four bytes each, the lowest byte first, that stand in these bytes; not if the machine has them otherwise.
pub fn numbers_in(bytes: &[u8]) -> Option<&[u32]> {
    // SAFETY: any four bytes are a number.
    let (before, numbers, after) = unsafe { bytes.align_to() };
    let fit = before.is_empty() && after.is_empty() && cfg!(target_endian = "little");
    fit.then_some(numbers)
}

pub fn batch(
    _: &OnWorker,
    counts: &mut Counts,
    [entities, versions, edges]: [&mut [u32]; 3],
    file: &[u8],
) -> BatchAnswer {
    // SAFETY: the counts and the tables are `&mut` and distinct, the file is read only; see the module.
    unsafe {
        slt_batch(
            counts,
            entities.as_mut_ptr(),
            entities.len(),
            versions.as_mut_ptr(),
            versions.len(),
            edges.as_mut_ptr(),
            edges.len(),
            file.as_ptr(),
            file.len(),
        )
    }
}

pub fn backward(
    _: &OnWorker,
    counts: Counts,
    tables: &Tables,
    entity: u32,
    time: u32,
    work: &mut [u8],
    marks: &mut [u8],
) -> BackwardAnswer {
    // SAFETY: only the two buffers are written, which are `&mut` and distinct; see the module.
    unsafe {
        slt_backward(
            counts,
            tables.entities.as_ptr(),
            tables.entities.len(),
            tables.versions.as_ptr(),
            tables.versions.len(),
            tables.edges.as_ptr(),
            tables.edges.len(),
            entity,
            time,
            work.as_mut_ptr(),
            work.len(),
            marks.as_mut_ptr(),
            marks.len(),
        )
    }
}

pub fn forward(
    _: &OnWorker,
    counts: Counts,
    tables: &Tables,
    members: &[u32],
    time: u32,
    work: &mut [u8],
    marks: &mut [u8],
) -> ForwardAnswer {
    // SAFETY: only the two buffers are written, which are `&mut` and distinct; see the module.
    unsafe {
        slt_forward(
            counts,
            tables.entities.as_ptr(),
            tables.entities.len(),
            tables.versions.as_ptr(),
            tables.versions.len(),
            tables.edges.as_ptr(),
            tables.edges.len(),
            members.as_ptr(),
            members.len(),
            time,
            work.as_mut_ptr(),
            work.len(),
            marks.as_mut_ptr(),
            marks.len(),
        )
    }
}

pub fn kept_log(_: &OnWorker, counts: Counts, tables: &Tables, out: &mut [u8]) -> LogAnswer {
    // SAFETY: only the output is written, which is `&mut`; see the module.
    unsafe {
        slt_kept_log(
            counts,
            tables.entities.as_ptr(),
            tables.entities.len(),
            tables.versions.as_ptr(),
            tables.versions.len(),
            tables.edges.as_ptr(),
            tables.edges.len(),
            out.as_mut_ptr(),
            out.len(),
        )
    }
}
