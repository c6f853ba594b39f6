//! Trials of the built command, one module for each idea. They know its arguments and its files, not its code.

mod common;

mod any_names;
mod at;
mod call_errors;
mod call_order;
mod damage;
mod disk;
mod figures;
mod full;
mod fuzz;
mod generations;
mod in_turn;
mod kill;
mod kill_calls;
mod kill_others;
mod log;
mod names;
mod nights;
mod odd_paths;
mod output;
mod refusals;
mod refused_beside;
mod rights;
mod several_files;
mod sign;
mod start;
mod stopped;
mod taken_before;
mod unsound;
mod usage;
mod writers;
