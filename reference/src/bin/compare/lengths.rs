//! Tables of every length, buffers and outputs of every length near the one
//! asked for, entities and times at their extremes.

use crate::calls::{forward, kept_log, traces, BufferLengths};
use crate::comparison::{Compared, Comparison};
use crate::worked_trail::worked_tables;
use reference::capacity::{EDGE_ROW, ENTITY_ROW, VERSION_ROW};
use reference::generate::{
    every_length, grown_tables, lend_anew, roomy_lengths, sign_all, sign_where, sound_tables,
};
use reference::kept_log::log_length;
use reference::{Random, TableLengths, Tables};

const TABLES: usize = 3;

/// Each table in turn at every length, the others long enough.
pub fn every_table_length(comparison: &mut Comparison, random: &mut Random) -> Compared {
    for tables in some_tables(random) {
        for lengths in every_lengths(&tables) {
            let lent = lend_anew(random, &tables, lengths);
            comparison.each_call(random, &lent)?;
        }
    }
    Ok(())
}

fn some_tables(random: &mut Random) -> Vec<Tables> {
    let mut tables = vec![worked_tables()];
    tables.extend((0..TABLES).map(|_| grown_tables(random, 25)));
    tables.extend((0..TABLES).map(|_| sound_tables(random)));
    tables.extend(signed_tables());
    tables
}

/// The worked trail with its report signed, and with all objects signed.
fn signed_tables() -> [Tables; 2] {
    let (mut report, mut all) = (worked_tables(), worked_tables());
    sign_where(&mut report, |number| number == 2);
    sign_all(&mut all);
    [report, all]
}

fn every_lengths(tables: &Tables) -> Vec<TableLengths> {
    let counts = tables.counts;
    let roomy = roomy_lengths(counts);
    let entities = every_length(counts.entities, ENTITY_ROW).into_iter();
    let entities = entities.map(|entities| TableLengths { entities, ..roomy });
    let versions = every_length(counts.versions, VERSION_ROW).into_iter();
    let versions = versions.map(|versions| TableLengths { versions, ..roomy });
    let edges = every_length(counts.edges, EDGE_ROW).into_iter();
    let edges = edges.map(|edges| TableLengths { edges, ..roomy });
    entities.chain(versions).chain(edges).collect()
}

/// Entities, times and buffer lengths at their extremes, all together.
pub fn extremes(comparison: &mut Comparison, random: &mut Random) -> Compared {
    let mut tables = some_tables(random);
    tables.push(Tables::fresh(TableLengths::of_rows(0, 0, 0)));
    tables.push(Tables::fresh(TableLengths::of_rows(3, 3, 3)));
    for tables in tables {
        extreme_traces(comparison, &tables)?;
        extreme_lists(comparison, &tables)?;
        extreme_outputs(comparison, &tables)?;
    }
    Ok(())
}

fn extreme_traces(comparison: &mut Comparison, tables: &Tables) -> Compared {
    for entity in extreme_entities(tables.counts.entities) {
        for time in extreme_times(tables.counts.last) {
            for lengths in buffer_lengths(tables) {
                for call in traces(entity, time, lengths) {
                    comparison.call(tables, call)?;
                }
            }
        }
    }
    Ok(())
}

/// The empty list, lists of declared members alone, and lists with another one
/// at the first, a middle and the last place.
fn extreme_lists(comparison: &mut Comparison, tables: &Tables) -> Compared {
    let count = tables.counts.entities;
    let last = count.saturating_sub(1);
    let lists: [&[u32]; 6] = [
        &[],
        &[last, 0, last],
        &[0, last, 0, last, 0, last, 0],
        &[u32::MAX, 0],
        &[0, count, last],
        &[last, 0, u32::MAX],
    ];
    for members in lists {
        for time in extreme_times(tables.counts.last) {
            for lengths in buffer_lengths(tables) {
                comparison.call(tables, forward(members, time, lengths))?;
            }
        }
    }
    Ok(())
}

fn extreme_entities(count: u32) -> [u32; 9] {
    let last = count.saturating_sub(1);
    let bits = count + (1 << 16);
    [0, last, count, 4_095, 4_096, 65_535, 65_536, bits, u32::MAX]
}

fn extreme_times(last: u32) -> [u32; 6] {
    let before = last.saturating_sub(1);
    [0, 1, before, last, last.saturating_add(1), u32::MAX]
}

/// Both buffers as asked, either one short, both short, none, both longer.
fn buffer_lengths(tables: &Tables) -> Vec<BufferLengths> {
    let BufferLengths { work, marks } = BufferLengths::of(tables.counts);
    let (short_work, short_marks) = (work.saturating_sub(1), marks.saturating_sub(1));
    let pairs = [
        (work, marks),
        (short_work, marks),
        (work, short_marks),
        (short_work, short_marks),
        (marks, work),
        (0, 0),
        (work + 1, marks + 3),
    ];
    let lengths = pairs.map(|(work, marks)| BufferLengths { work, marks });
    lengths.to_vec()
}

/// Outputs of every length up to some bytes more than the log.
fn extreme_outputs(comparison: &mut Comparison, tables: &Tables) -> Compared {
    for length in 0..=log_length(tables.view()) + 13 {
        comparison.call(tables, kept_log(length))?;
    }
    Ok(())
}
