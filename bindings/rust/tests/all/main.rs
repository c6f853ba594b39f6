//! The tests, one module for each idea.

mod common;

mod clones;
mod event_files;
mod from_rows;
mod full_trail;
mod grown_trails;
mod header;
mod held_files;
mod records;
mod refused_batches;
mod signatures;
mod threads;
mod worked_trail;
