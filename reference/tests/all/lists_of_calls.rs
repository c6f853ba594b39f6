//! Lists of calls: the calls over tables and the full list must agree.

use crate::common::{backward, forward, times_around};
use reference::causal::reached_from;
use reference::file::events_among;
use reference::full_list::StandsFor;
use reference::generate::{
    all_members, any_members, call_list, declared_members, lend_anew, LentCall,
};
use reference::sound::is_sound;
use reference::{Answer, Call, Capacity, Counts, FullList, Random, TableLengths, Tables};
use std::collections::BTreeSet;

const LISTS: u64 = 30;

/// The tables and the full list after the same calls, and the events that
/// these took in, counted from their files.
struct Both {
    tables: Tables,
    list: FullList,
    events: u64,
}

impl Both {
    fn fresh() -> Both {
        Both {
            tables: Tables::fresh(TableLengths::of_rows(0, 0, 0)),
            list: FullList::new(),
            events: 0,
        }
    }

    /// Makes the call on both and compares all that both give.
    fn run(&mut self, random: &mut Random, lent: &LentCall) -> Answer {
        self.tables = lend_anew(random, &self.tables, lent.lengths);
        let mut call = lent.call.clone();
        let answer = call.run(&mut self.tables);
        let (of_list, marks) = self.list.run(Capacity::of(lent.lengths), lent.call.clone());
        assert_eq!(answer, of_list);
        if let Call::Backward { marks: written, .. } | Call::Forward { marks: written, .. } = call {
            assert_eq!(written, marks);
        }
        assert_eq!(self.tables.counts, self.list.counts());
        let sorts = self.tables.view().entity_rows().map(|row| row.sort);
        assert!(sorts.eq(self.list.row_sorts()));
        if let (Call::Batch { file }, Answer::Batch(answer)) = (&lent.call, answer) {
            self.events += events_among(file, answer.taken);
        }
        self.assert_counts_agree();
        answer
    }

    /// Each edge stands for the events that the full list says, and all edges
    /// for all events.
    fn assert_counts_agree(&self) {
        let view = self.tables.view();
        let of_edges: Vec<StandsFor> = view.edge_rows().map(StandsFor::of_edge).collect();
        assert_eq!(of_edges, self.list.stands_for());
        assert_eq!(view.counted_events(), self.events);
    }
}

/// Both after a list of calls from this seed.
fn after_list(seed: u64) -> Both {
    let mut random = Random::new(seed);
    let calls = call_list(&mut random, 12);
    let mut both = Both::fresh();
    for call in &calls {
        both.run(&mut random, call);
    }
    both
}

/// Compares the traces of all entities at all times.
fn assert_all_traces_agree(both: &Both) {
    let Counts {
        entities, versions, ..
    } = both.tables.counts;
    for entity in 0..entities {
        for time in times_around(&both.list.events()) {
            let mut marks = vec![7; entities as usize];
            let answer = both
                .list
                .backward(entity, time, versions as usize, &mut marks);
            let (of_tables, _, of_tables_marks) = backward(&both.tables, entity, time);
            assert_eq!((of_tables, of_tables_marks), (answer, marks));
            assert_forward_agrees(both, &[entity], time);
        }
    }
}

fn assert_forward_agrees(both: &Both, members: &[u32], time: u32) {
    let Counts {
        entities, versions, ..
    } = both.tables.counts;
    let mut marks = vec![7; entities as usize];
    let answer = both
        .list
        .forward(members, time, versions as usize, &mut marks);
    let of_tables = forward(&both.tables, members, time);
    assert_eq!((of_tables.answer, of_tables.marks), (answer, marks));
}

#[test]
fn answers_and_counts_agree_after_every_call() {
    let (mut accepted, mut dropped, mut signed) = (0, 0, 0);
    for seed in 0..400 {
        let both = after_list(seed);
        let counts = both.tables.counts;
        accepted += counts.accepted;
        dropped += counts.accepted - counts.edges;
        signed += both.list.signed.len();
    }
    assert!(accepted > 4_000 && dropped > 1_000, "{accepted} {dropped}");
    assert!(signed > 200, "{signed}");
}

#[test]
fn all_traces_agree() {
    for seed in 0..LISTS {
        assert_all_traces_agree(&after_list(seed));
    }
}

#[test]
fn traces_of_lists_of_members_agree() {
    for seed in 0..2 * LISTS {
        let both = after_list(seed);
        let entities = both.tables.counts.entities;
        let mut random = Random::new(seed);
        for time in times_around(&both.list.events()) {
            assert_forward_agrees(&both, &[], time);
            assert_forward_agrees(&both, &all_members(&mut random, entities), time);
            for _ in 0..6 {
                assert_forward_agrees(&both, &any_members(&mut random, entities), time);
            }
        }
    }
}

#[test]
fn traces_in_a_list_are_refused_only_with_5_or_14() {
    let mut seen = [0; 18];
    for seed in 1_000..1_200 {
        let mut random = Random::new(seed);
        let calls = call_list(&mut random, 12);
        let mut both = Both::fresh();
        for call in &calls {
            let answer = both.run(&mut random, call);
            if !matches!(answer, Answer::Batch(_)) {
                seen[answer.refusal() as usize] += 1;
            }
        }
    }
    assert!(seen[0] > 0 && seen[5] > 0 && seen[14] > 0);
    assert_eq!(seen.iter().sum::<u32>(), seen[0] + seen[5] + seen[14]);
}

#[test]
fn edges_are_the_kept_events() {
    for seed in 0..LISTS {
        let both = after_list(seed);
        let view = both.tables.view();
        let edges = view.edge_rows().map(|edge| {
            let source = view.version(edge.from).entity as u16;
            let target = view.version(edge.to).entity as u16;
            (edge.kind, source, target, edge.time)
        });
        let kept = both.list.kept_events().into_iter();
        let kept = kept.map(|event| (event.kind.number(), event.source, event.target, event.time));
        assert!(edges.eq(kept));
    }
}

#[test]
fn grown_tables_are_sound_with_few_versions() {
    for seed in 0..400 {
        let both = after_list(seed);
        let counts = both.tables.counts;
        assert!(is_sound(both.tables.view()));
        assert!(counts.versions <= counts.entities + counts.edges);
    }
}

#[test]
fn an_event_that_gives_an_ancestor_is_kept() {
    let mut gains = 0;
    for seed in 0..LISTS {
        let list = after_list(seed).list;
        for (index, accepted) in list.accepted.iter().enumerate() {
            if list.gains_ancestor(index) {
                gains += 1;
                assert!(accepted.kept);
            }
        }
    }
    assert!(gains > 100, "{gains}");
}

/// The entities that the full log reaches from this one over events later than
/// this time.
fn full_answer(list: &FullList, entity: u16, time: u32) -> BTreeSet<u16> {
    let mut later = list.events();
    later.retain(|event| event.time > time);
    reached_from(entity, &later)
}

#[test]
fn forward_never_holds_less_than_the_full_log_after_that_time() {
    for seed in 0..LISTS {
        let list = after_list(seed).list;
        for entity in 0..list.sorts.len() as u16 {
            for time in times_around(&list.events()) {
                let full = full_answer(&list, entity, time);
                assert!(full.is_subset(&list.forward_entities(entity, time)));
            }
        }
    }
}

#[test]
fn a_list_never_holds_less_than_the_full_log_for_its_members() {
    for seed in 0..LISTS {
        let both = after_list(seed);
        let mut random = Random::new(seed);
        for time in times_around(&both.list.events()) {
            let entities = both.tables.counts.entities;
            let length = random.below(4).min(entities as usize);
            let members = declared_members(&mut random, entities, length);
            let marks = forward(&both.tables, &members, time).marks;
            let full = |member: &u32| full_answer(&both.list, *member as u16, time);
            let mut all = members.iter().flat_map(full);
            assert!(all.all(|entity| marks[usize::from(entity)] == 1));
        }
    }
}
