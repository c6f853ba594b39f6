//! The trail keeps the provenance of a scoring server: which programs read, wrote and started what, so that one can ask from where a
//! report came, and what a study reached.
//!
//! A [`Trail`] takes event files in ([`Trail::batch`]), answers traces ([`Trail::backward`], [`Trail::forward`]) and writes the kept
//! log ([`Trail::kept_log`]), after which the event files may be deleted.
//!
//! ```
//! use trail::{DeclaredSort, EntityNo, EventFile, Kind, Time, Trail};
//!
//! let (study, stager, report) = (0, 1, 2);
//! let mut file = EventFile::new();
//! file.declare(study, DeclaredSort::Object);
//! file.declare(stager, DeclaredSort::Subject);
//! file.declare(report, DeclaredSort::Object);
//! file.event(Kind::Read, study, stager, Time(1));
//! file.event(Kind::Write, stager, report, Time(2));
//!
//! let mut trail = Trail::new()?;
//! trail.batch(file.as_bytes())?;
//! let behind = trail.backward(EntityNo(2), Time(2))?;
//! assert!(behind.is_marked(EntityNo(0)));
//! # Ok::<(), Box<dyn std::error::Error>>(())
//! ```
//!
//! # What is proved, and what is not
//!
//! The calls are those of the library `libtrail.a`, whose code is proved to meet its specification. This crate adds the tables, which
//! it keeps sound by keeping them to itself, and a thread. It is plain Rust, and tested.
//!
//! # Threads
//!
//! The library needs up to [`BATCH_STACK`] bytes of stack. It runs on a thread that has them, so a caller on a small stack is safe. A
//! trail and its clones have one such thread, which ends when the last of them is dropped. Several threads may ask one trail at a
//! time; the library answers one after another. In a child process made by `fork` that thread is missing, and a call on a trail of
//! the parent's would wait for ever.
#![deny(unsafe_code)]

mod batch;
mod event_file;
#[allow(unsafe_code)]
mod ffi;
mod from_rows_error;
mod held_file;
mod limits;
mod numbers;
mod record;
mod refusal;
mod rows;
mod tables;
mod trace;
mod trail;
mod worker;

pub use batch::{RefusedBatch, Taken};
pub use event_file::EventFile;
pub use from_rows_error::FromRowsError;
pub use held_file::HeldFile;
pub use limits::{
    BATCH_STACK, EDGE_WIDTH, ENTITY_WIDTH, HEADER_LENGTH, MOST_ACCEPTED, MOST_EDGES, MOST_ENTITIES,
    MOST_VERSIONS, NONE, RECORD_LENGTH, VERSION_WIDTH,
};
pub use numbers::{EdgeNo, EntityNo, Time, VersionNo};
pub use record::{DeclaredSort, Record};
pub use refusal::Refusal;
pub use rows::{Counts, EdgeRow, EntityRow, Kind, Sort, VersionRow};
pub use trace::{ForwardTrace, Trace};
pub use trail::Trail;
