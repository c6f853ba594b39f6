//! A plain trail.
//!
//! It takes event files in batches, keeps versions and edges in lent tables,
//! answers backward and forward traces and writes the kept log. Every rule is
//! carried out literally, with no thought for speed.
//!
//! - The calls over lent tables: [`batch()`], [`backward()`], [`forward()`],
//!   [`kept_log()`]. For files of many records: [`long_batch()`].
//! - The trail over the full list of accepted events: [`FullList`].
//! - The text of the listing program: [`listing()`].
//! - Files and tables to try them on: [`FileBuilder`], [`worked_file()`] and
//!   [`generate`].
//!
//! The program `compare` compares the library's archive with this trail call
//! by call. It takes the feature `archive`:
//! `cargo run --release --features archive --bin compare`. The program
//! `listings` does the same for the listing program.

pub mod answers;
#[cfg(feature = "archive")]
pub mod archive;
pub mod batch;
pub mod call;
pub mod capacity;
pub mod causal;
pub mod file;
pub mod file_builder;
pub mod file_version;
pub mod full_list;
pub mod generate;
pub mod kept_log;
pub mod listing;
pub mod long_batch;
pub mod peer;
pub mod random;
pub mod record;
pub mod refusal;
pub mod rows;
pub mod search;
pub mod sound;
pub mod table_view;
pub mod tables;
pub mod trace;
pub mod union;
pub mod worked;

pub use answers::{BackwardAnswer, BatchAnswer, Counts, ForwardAnswer, LogAnswer};
pub use batch::batch;
pub use call::{Answer, Call};
pub use capacity::{Capacity, TableLengths};
pub use file_builder::FileBuilder;
pub use file_version::FileVersion;
pub use full_list::FullList;
pub use kept_log::kept_log;
pub use listing::listing;
pub use long_batch::long_batch;
pub use random::Random;
pub use record::{Declaration, Event, Kind, Record, Signature, Sort};
pub use table_view::TableView;
pub use tables::Tables;
pub use trace::{backward, forward};
pub use union::Forward;
pub use worked::{worked_declarations, worked_file, worked_file_from, worked_signed_file};
