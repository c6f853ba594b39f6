//! Event files, tables and calls to try a trail on. All come from a
//! [`Random`](crate::Random), so the same seed gives the same ones.

pub mod batch_base;
pub mod batch_faults;
pub mod calls;
pub mod edge_counts;
pub mod fault_states;
pub mod files;
pub mod full_tables;
pub mod grown_tables;
pub mod large_tables;
pub mod lengths;
pub mod long_files;
pub mod members;
pub mod oldest_edge;
pub mod records;
pub mod refused_batches;
pub mod shapes;
pub mod signed_tables;
pub mod sound_tables;
pub mod ties;
pub mod traces;
pub mod unsound_counts;
pub mod unsound_edges;
pub mod unsound_tables;

pub use batch_faults::BatchFault;
pub use calls::{any_call, call_list, LentCall};
pub use edge_counts::{count_all, raise_accepted, set_count};
pub use files::{any_file, any_version, careless_file, cut_file, damaged_file, event_file};
pub use full_tables::{tables_with_edges, tables_with_entities, tables_with_versions};
pub use grown_tables::grown_tables;
pub use large_tables::{large_tables, tables_of_late_first_forks};
pub use lengths::{any_lengths, every_length, lend_anew, odd_lengths, roomy_lengths, tiny_lengths};
pub use long_files::{long_file, long_file_event, long_signed_file};
pub use members::{all_members, any_members, declared_members};
pub use oldest_edge::{filled_edges, with_repeats_of_oldest};
pub use records::RecordSource;
pub use refused_batches::{refused_batch, RefusedBatch};
pub use shapes::Shape;
pub use signed_tables::{sign_all, sign_some, sign_where, signatures_of};
pub use sound_tables::{sound_tables, sound_tables_of_shape};
pub use ties::{at_one_time, at_rising_times, in_one_tick, Ties};
pub use traces::{any_backward, any_forward, any_time};
pub use unsound_tables::{unsound_tables, unsound_tables_by_one_number};
