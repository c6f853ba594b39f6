//! The caps on rows, in tables longer than they allow.

use reference::generate::{
    count_all, tables_with_edges, tables_with_entities, tables_with_versions,
};
use reference::sound::{broken_clauses, Clause};
use reference::{Capacity, FileBuilder, TableLengths};

#[test]
fn capacity_is_whole_rows_up_to_the_caps() {
    let capacity = |entities, versions, edges| {
        let capacity = Capacity::of(TableLengths {
            entities,
            versions,
            edges,
        });
        (capacity.entities, capacity.versions, capacity.edges)
    };
    assert_eq!(capacity(0, 0, 0), (0, 0, 0));
    assert_eq!(capacity(1, 3, 5), (0, 0, 0));
    assert_eq!(capacity(2, 4, 6), (1, 1, 1));
    assert_eq!(capacity(5, 11, 23), (2, 2, 3));
    let at_caps = (4_096, 65_536, 262_144);
    assert_eq!(
        capacity(8_191, 262_143, 1_572_863),
        (4_095, 65_535, 262_143)
    );
    assert_eq!(capacity(8_192, 262_144, 1_572_864), at_caps);
    assert_eq!(capacity(8_194, 262_148, 1_572_870), at_caps);
    assert_eq!(capacity(1 << 20, 1 << 21, 1 << 22), at_caps);
}

#[test]
fn entity_rows_end_at_4096() {
    let mut tables = tables_with_entities(4_095);
    let file = FileBuilder::new().object(4_095).object(4_096).bytes();
    let answer = tables.batch(&file);
    assert_eq!((answer.refusal, answer.taken), (10, 1));
    let full = tables_with_entities(4_096);
    assert_eq!(tables.counts, full.counts);
    assert_eq!(tables.entities[..8_192], full.entities[..8_192]);
    assert_eq!(tables.versions[..16_384], full.versions[..16_384]);
}

#[test]
fn version_rows_end_at_65536() {
    let tables = tables_with_versions(65_535);
    let declarations = FileBuilder::new().object(3).object(4).bytes();
    let answer = tables.clone().batch(&declarations);
    assert_eq!((answer.refusal, answer.taken), (11, 1));
    let events = FileBuilder::new()
        .read(2, 0, 70_000)
        .write(0, 1, 70_001)
        .read(1, 0, 70_002)
        .bytes();
    let mut after = tables.clone();
    let answer = after.batch(&events);
    assert_eq!((answer.refusal, answer.taken), (11, 2));
    assert_eq!(after.counts.versions, 65_536);
}

#[test]
fn edge_rows_end_at_262144() {
    let mut tables = tables_with_edges(262_143);
    let file = FileBuilder::new()
        .read(2, 0, 300_000)
        .read(2, 0, 300_001)
        .write(0, 2, 300_002)
        .bytes();
    let answer = tables.batch(&file);
    assert_eq!((answer.refusal, answer.taken), (12, 2));
    assert_eq!(answer.tried, 262_143 + 1);
    assert_eq!(tables.counts.edges, 262_144);
    let newest = tables.view().edge(262_143);
    assert_eq!(newest.numbers(), [2, 0, 1, 300_000, 2, 300_001]);
}

#[test]
fn counts_above_the_caps_are_unsound() {
    let entities = tables_with_entities(4_096);
    assert_eq!(broken_clauses(entities.view()), []);
    let entities = tables_with_entities(4_097);
    let broken = broken_clauses(entities.view());
    assert_eq!(broken, [Clause::EntitiesWithinCapacity]);
    let versions = tables_with_versions(65_536);
    assert_eq!(broken_clauses(versions.view()), []);
    let versions = tables_with_versions(65_537);
    let broken = broken_clauses(versions.view());
    assert_eq!(broken, [Clause::VersionsWithinCapacity]);
    let edges = tables_with_edges(262_144);
    assert_eq!(broken_clauses(edges.view()), []);
    let edges = tables_with_edges(262_145);
    let broken = broken_clauses(edges.view());
    assert_eq!(broken, [Clause::EdgesWithinCapacity]);
}

#[test]
fn kept_log_at_the_caps() {
    let tables = tables_with_edges(262_144);
    let length = 8 + 12 * (3 + 262_144);
    let mut out = vec![7; length + 1];
    let answer = tables.kept_log(&mut out);
    assert_eq!((answer.refusal, answer.length as usize), (0, length));
    assert_eq!(out[length - 12..], [1, 0, 1, 0, 0, 0, 0, 0, 0, 0, 4, 0, 7]);
    assert_eq!(tables.kept_log(&mut out[..length - 1]).refusal, 15);
}

#[test]
fn counts_of_all_edges_are_summed_past_32_bits() {
    let mut tables = tables_with_edges(262_144);
    assert_eq!(tables.view().counted_events(), 262_144);
    count_all(&mut tables, 16_385);
    assert_eq!(tables.view().counted_events(), (1 << 32) + 262_144);
    let broken = broken_clauses(tables.view());
    assert_eq!(broken, [Clause::EdgeCountsSumToAccepted]);
}
