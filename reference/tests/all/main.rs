//! The tests, one module for each idea.

mod common;

mod buffers;
mod caps;
mod causal_paths;
mod edge_counts;
mod edges_tried;
mod edges_tried_sums;
mod generators;
mod kept_log;
mod listing;
mod lists_of_calls;
mod lists_of_members;
mod long_batch;
mod one_tick;
mod one_tick_traces;
mod peer;
mod records;
mod refusals;
mod rising_times;
mod signatures;
mod signed_generators;
mod signed_logs;
mod sound_counts;
mod soundness;
mod tables_nobody_grew;
mod tied_files;
mod tied_tables;
mod tied_trails;
mod two_passes;
mod worked_trail;
