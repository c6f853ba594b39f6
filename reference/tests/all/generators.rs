//! The generators give what their names say.

use crate::common::{backward, forward, fresh};
use reference::generate::{
    any_lengths, any_members, call_list, cut_file, damaged_file, event_file, grown_tables,
    large_tables, lend_anew, long_file, odd_lengths, refused_batch, sound_tables,
    sound_tables_of_shape, tables_of_late_first_forks, tiny_lengths, unsound_tables, BatchFault,
    RecordSource, Shape,
};
use reference::sound::{is_sound, Clause};
use reference::{Capacity, Counts, Kind, Random, Tables};
use std::collections::BTreeSet;

#[test]
fn the_same_seed_gives_the_same() {
    let make = || {
        let mut random = Random::new(50);
        let calls = call_list(&mut random, 10);
        let sound = sound_tables(&mut random);
        let unsound = unsound_tables(&mut random, Clause::LatestExists);
        let file = refused_batch(&mut random, BatchFault::TimeLower).file;
        (calls, sound, unsound, file)
    };
    assert_eq!(make(), make());
}

#[test]
fn first_numbers_of_the_generator() {
    let mut random = Random::new(0);
    let numbers = [random.bits(), random.bits(), random.bits()];
    let expected = [
        0xE220_A839_7B1D_CDAF,
        0x6E78_9E6A_A1B9_65F4,
        0x06C4_5D18_8009_454F,
    ];
    assert_eq!(numbers, expected);
}

#[test]
fn event_files_are_taken_in_whole_with_repeats_and_all_kinds() {
    let mut random = Random::new(51);
    let (mut accepted, mut kinds) = (0, [0; 6]);
    let mut edges = 0;
    for _ in 0..50 {
        let mut tables = fresh(100);
        let file = event_file(&mut random, &mut RecordSource::fresh(), 80);
        let answer = tables.batch(&file);
        assert_eq!((answer.refusal, answer.taken), (0, 80));
        accepted += tables.counts.accepted;
        edges += tables.counts.edges;
        for edge in tables.view().edge_rows() {
            kinds[edge.kind as usize] += 1;
        }
    }
    assert!(accepted > 3_000 && edges < accepted * 3 / 4);
    assert!(kinds[1..].iter().all(|count| *count > 100), "{kinds:?}");
}

#[test]
fn damaged_files_differ_in_one_byte_and_cut_files_are_shorter() {
    let mut random = Random::new(52);
    let file = event_file(&mut random, &mut RecordSource::fresh(), 20);
    for _ in 0..200 {
        let damaged = damaged_file(&mut random, &file);
        let differing = file.iter().zip(&damaged).filter(|(old, new)| old != new);
        assert_eq!((damaged.len(), differing.count()), (file.len(), 1));
        let cut = cut_file(&mut random, &file);
        assert!(cut.len() < file.len() && file.starts_with(&cut));
    }
}

#[test]
fn sound_tables_are_sound() {
    let mut random = Random::new(53);
    for _ in 0..2_000 {
        assert!(is_sound(sound_tables(&mut random).view()));
    }
}

#[test]
fn sound_tables_have_counts_of_all_sizes() {
    let mut random = Random::new(46);
    let (mut none, mut ones, mut on_one_edge, mut large) = (0, 0, 0, 0);
    for _ in 0..2_000 {
        let tables = sound_tables(&mut random);
        let counts: Vec<u32> = tables.view().edge_rows().map(|edge| edge.count).collect();
        let above_one = counts.iter().filter(|count| **count > 1).count();
        none += u32::from(counts.is_empty() && tables.counts.accepted == 0);
        ones += u32::from(!counts.is_empty() && above_one == 0);
        on_one_edge += u32::from(counts.len() > 1 && above_one == 1);
        large += u32::from(counts.iter().any(|count| *count > 100_000));
    }
    for seen in [none, ones, on_one_edge, large] {
        assert!(seen > 100, "{seen}");
    }
}

#[test]
fn grown_tables_have_none_of_the_shapes() {
    let mut random = Random::new(54);
    for _ in 0..100 {
        let tables = grown_tables(&mut random, 60);
        assert!(is_sound(tables.view()));
        for shape in Shape::ALL {
            assert!(!shape.is_in(tables.view()), "{shape:?}");
        }
    }
}

#[test]
fn each_shape_is_found() {
    let mut random = Random::new(55);
    for shape in Shape::ALL {
        for _ in 0..20 {
            let tables = sound_tables_of_shape(&mut random, shape);
            assert!(is_sound(tables.view()) && shape.is_in(tables.view()));
        }
    }
}

#[test]
fn large_tables_are_sound_and_have_all_their_rows() {
    let mut random = Random::new(58);
    for (entities, versions, edges) in [(2, 2, 0), (3, 9, 20), (40, 200, 900)] {
        let tables = large_tables(&mut random, entities, versions, edges);
        assert!(is_sound(tables.view()));
        let counts = tables.counts;
        let rows = (counts.entities, counts.versions, counts.edges);
        assert_eq!(rows, (entities, versions, edges));
    }
}

#[test]
fn late_first_forks_join_all_subjects() {
    for count in [1, 2, 9] {
        let tables = tables_of_late_first_forks(count);
        assert!(is_sound(tables.view()));
        assert_eq!(forward(&tables, &[0], 0).answer.count, count);
        assert_eq!(backward(&tables, count - 1, u32::MAX).0.count, count);
    }
}

#[test]
fn long_files_are_taken_in_whole() {
    let mut random = Random::new(59);
    let mut tables = fresh(500);
    let answer = tables.batch(&long_file(&mut random, 20, &Kind::ALL, 400));
    assert_eq!((answer.refusal, answer.taken), (0, 420));
    assert_eq!((tables.counts.entities, tables.counts.accepted), (20, 400));
}

#[test]
fn lists_of_members_are_of_all_sorts() {
    let mut random = Random::new(47);
    let mut seen = [0; 9];
    for _ in 0..2_000 {
        let members = any_members(&mut random, 5);
        let distinct: BTreeSet<u32> = members.iter().copied().collect();
        let is_declared = |member: &u32| *member < 5;
        let undeclared: Vec<usize> = (0..members.len())
            .filter(|place| !is_declared(&members[*place]))
            .collect();
        let in_middle = |place: &usize| 0 < *place && place + 1 < members.len();
        let holds = [
            members.is_empty(),
            members.len() == 1 && undeclared.is_empty(),
            distinct.len() < members.len(),
            members.len() > 5,
            distinct.len() == 5 && members.len() == 5 && undeclared.is_empty(),
            members.len() > 1 && undeclared == [0],
            members.len() > 1 && undeclared == [members.len() - 1],
            undeclared.iter().any(in_middle),
            distinct.contains(&5) || distinct.contains(&u32::MAX),
        ];
        for (count, holds) in seen.iter_mut().zip(holds) {
            *count += u32::from(holds);
        }
    }
    assert!(seen.iter().all(|count| *count > 30), "{seen:?}");
}

#[test]
fn lengths_hold_the_rows_in_use_unless_any() {
    let mut random = Random::new(56);
    let (mut part_rows, mut too_short) = (0, 0);
    for _ in 0..200 {
        let tables = grown_tables(&mut random, 40);
        let counts = tables.counts;
        for lengths in [
            tiny_lengths(&mut random, counts),
            odd_lengths(&mut random, counts),
        ] {
            assert!(rows_fit(Capacity::of(lengths), counts));
            part_rows += usize::from(lengths.versions % 4 != 0);
        }
        let lengths = any_lengths(&mut random, counts);
        too_short += usize::from(!rows_fit(Capacity::of(lengths), counts));
    }
    assert!(part_rows > 0 && too_short > 0);
}

fn rows_fit(capacity: Capacity, counts: Counts) -> bool {
    counts.entities as usize <= capacity.entities
        && counts.versions as usize <= capacity.versions
        && counts.edges as usize <= capacity.edges
}

#[test]
fn tables_lent_anew_have_the_same_rows_in_use() {
    let mut random = Random::new(57);
    for _ in 0..100 {
        let tables = grown_tables(&mut random, 40);
        let lengths = odd_lengths(&mut random, tables.counts);
        let lent = lend_anew(&mut random, &tables, lengths);
        assert_eq!(lent.view().lengths(), lengths);
        assert_eq!(rows_in_use(&lent), rows_in_use(&tables));
    }
}

fn rows_in_use(tables: &Tables) -> (Counts, Vec<u32>) {
    let view = tables.view();
    let entities = view.entity_rows().flat_map(|row| row.numbers());
    let versions = view.version_rows().flat_map(|row| row.numbers());
    let edges = view.edge_rows().flat_map(|row| row.numbers());
    (
        tables.counts,
        entities.chain(versions).chain(edges).collect(),
    )
}
