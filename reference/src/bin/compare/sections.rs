//! The sections of the comparison.

use crate::comparison::{Compared, Comparison};
use crate::{caps, every_file, every_list, every_table, faults, lengths, lists, long_files};
use crate::{members, signatures, tables, ticks, tried, worked_trail};
use reference::Random;

/// One kind of calls, made from a seed.
pub struct Section {
    pub name: &'static str,
    pub run: fn(&mut Comparison, &mut Random) -> Compared,
}

/// Made in each round, each time from another seed.
pub const EACH_ROUND: [Section; 13] = [
    Section {
        name: "lists of calls, also by the full list",
        run: lists::lists_of_calls,
    },
    Section {
        name: "events in one tick, also by the full list",
        run: ticks::events_in_one_tick,
    },
    Section {
        name: "batches refused for each reason",
        run: faults::batch_faults,
    },
    Section {
        name: "batches of any file on any sound tables",
        run: faults::any_batches,
    },
    Section {
        name: "tables of every length",
        run: lengths::every_table_length,
    },
    Section {
        name: "entities, times and buffers at their extremes",
        run: lengths::extremes,
    },
    Section {
        name: "sound tables of each shape nobody grew",
        run: tables::sound_shapes,
    },
    Section {
        name: "traces of sound tables nobody grew",
        run: tables::sound_traces,
    },
    Section {
        name: "lists of members, also each member alone",
        run: members::lists_of_members,
    },
    Section {
        name: "unsound tables of each clause",
        run: tables::unsound_clauses,
    },
    Section {
        name: "tables with any one number changed",
        run: tables::every_number,
    },
    Section {
        name: "signatures with each field",
        run: signatures::fields,
    },
    Section {
        name: "long files by parts",
        run: long_files::long_files,
    },
];

/// Made once.
pub const ONCE: [Section; 14] = [
    Section {
        name: "the worked trail",
        run: worked_trail::worked_trail,
    },
    Section {
        name: "files of each version",
        run: signatures::versions,
    },
    Section {
        name: "the worked trail with signatures, also by the full list",
        run: signed_worked_trail,
    },
    Section {
        name: "traces of as many passes as versions",
        run: tables::many_passes,
    },
    Section {
        name: "long lists of members",
        run: members::long_lists,
    },
    Section {
        name: "every file of few records",
        run: every_file::every_file,
    },
    Section {
        name: "every short list of events, also by the full list",
        run: every_list::every_event_list,
    },
    Section {
        name: "every short list with signatures, also by the full list",
        run: every_list::every_signed_list,
    },
    Section {
        name: "every sound table of few rows",
        run: every_table::every_table,
    },
    Section {
        name: "edges tried, past 32 bits",
        run: tried::past_32_bits,
    },
    Section {
        name: "each table at its cap",
        run: caps::each_cap,
    },
    Section {
        name: "accepted events at their cap",
        run: caps::accepted_cap,
    },
    Section {
        name: "all tables full or nearly full",
        run: full_tables,
    },
    Section {
        name: "long files up to the caps",
        run: long_files::grown_to_caps,
    },
];

fn signed_worked_trail(comparison: &mut Comparison, random: &mut Random) -> Compared {
    signatures::worked_trail(comparison, random)?;
    signatures::kept_logs(comparison, random)
}

fn full_tables(comparison: &mut Comparison, random: &mut Random) -> Compared {
    caps::nearly_full(comparison, random)?;
    caps::all_full(comparison, random)
}
