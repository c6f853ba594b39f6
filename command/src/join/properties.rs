use super::lines::in_order_of_making;
use super::tests::{empty, joined, lines_for, with};
use super::Line;
use crate::grow::tests::add;
use crate::recording::sample::Sample;
use crate::state::State;
use proptest::collection::vec;
use proptest::prelude::*;
use trail::{DeclaredSort, EntityNo, Record};

/// A recording of few names, so that they meet: sort, whether made, and base of each entity.
fn samples() -> impl Strategy<Value = Sample> {
    let entity = (
        any::<bool>(),
        any::<bool>(),
        prop_oneof!["/[ab]", Just(String::new())],
    );
    vec(entity, 1..8).prop_map(|entities| {
        let mut sample = Sample::new();
        for (number, (subject, made, base)) in entities.into_iter().enumerate() {
            let line = if made {
                format!("{base};{}", number + 1)
            } else {
                base
            };
            sample = if subject {
                sample.subject(line)
            } else {
                sample.object(line)
            };
        }
        sample
    })
}

/// Lines of bytes that matter in names, and of others.
fn any_lines() -> impl Strategy<Value = Vec<Vec<u8>>> {
    let special = prop::sample::select(b";\\12/a".to_vec());
    let byte = prop_oneof![1 => any::<u8>(), 6 => special];
    let byte = byte.prop_filter("a line has no newline in it", |byte| *byte != b'\n');
    vec(vec(byte, 0..6), 1..8)
}

proptest! {
    /// Whatever its names, a recording is refused, or makes a state that comes back from its bytes.
    #[test]
    fn any_names_are_refused_or_come_back(lines in any_lines()) {
        let sample = lines.iter().fold(Sample::new(), |sample, line| sample.object(line));
        let mut state = empty();
        for name in ["1.slt", "2.slt"] {
            let Ok(next) = add(&state, &sample.clone().recording(name)) else {
                return Ok(());
            };
            let again = State::decode(&next.encode()).unwrap();
            prop_assert_eq!(&again.names, &next.names);
            state = next;
        }
    }

    /// Into an empty trail, a recording goes as it is.
    #[test]
    fn an_empty_trail_changes_nothing_but_the_order(sample in samples()) {
        let recording = sample.recording("a.slt");
        let in_order = in_order_of_making(&lines_for(&recording)).is_sorted();
        let joined = joined(&empty(), &recording);
        prop_assert!(!in_order || joined.file.as_bytes() == &recording.file[..]);
        prop_assert_eq!(joined.file.as_bytes().len(), recording.file.len());
    }

    /// Every entity of a recording becomes one of the trail with its base and sort, no two the same one; only the latest of its
    /// base before the recording is joined, by the first line that stood before with its sort.
    #[test]
    fn each_entity_finds_its_own(before in vec(samples(), 0..4), sample in samples()) {
        let state = before.into_iter().fold(empty(), |state, sample| with(&state, sample));
        let old = state.trail.counts().entities;
        let recording = sample.clone().recording("a.slt");
        let lines = lines_for(&recording);
        let next = with(&state, sample);
        let mut new = old;
        let mut used = Vec::new();
        let places = in_order_of_making(&lines);
        let mut order: Vec<usize> = (0..lines.len()).collect();
        order.sort_by_key(|index| places[*index]);
        for index in order {
            let (line, number) = (lines[index], index as u32 + 1);
            let Some(Record::Declaration { sort, .. }) = recording.record(number) else { panic!("only declarations") };
            let is_subject = sort == DeclaredSort::Subject;
            let latest = match line {
                Line::Stood(base) => state.names.generations(base).last().copied(),
                _ => None,
            };
            let known = latest.filter(|latest| {
                state.trail.entity(*latest).unwrap().sort.is_subject() == is_subject && !used.contains(latest)
            });
            let entity = known.unwrap_or_else(|| { new += 1; EntityNo(new - 1) });
            prop_assert!(!used.contains(&entity));
            used.push(entity);
            prop_assert_eq!(next.trail.entity(entity).unwrap().sort.is_subject(), is_subject);
            let base = line.base();
            prop_assert_eq!(next.names.base_of(entity), base);
        }
        prop_assert_eq!(next.trail.counts().entities, new);
    }
}
