//! The benchmark's peer does the same job as the calls over tables.

use reference::generate::calls::{any_call, batch_on};
use reference::generate::{
    call_list, grown_tables, lend_anew, long_file, long_signed_file, refused_batch, sound_tables,
    BatchFault,
};
use reference::peer::Trail;
use reference::sound::is_sound;
use reference::{long_batch, Answer, Call, Capacity, Kind, Random, TableLengths, Tables};

/// Makes the call on the peer, with the capacity of the tables lent.
fn run_on_peer(peer: &mut Trail, capacity: Capacity, call: &mut Call) -> Answer {
    match call {
        Call::Batch { file } => Answer::Batch(peer.batch(capacity, file)),
        Call::Backward {
            entity,
            time,
            work,
            marks,
        } => Answer::Backward(peer.backward(*entity, *time, work, marks)),
        Call::Forward {
            members,
            time,
            work,
            marks,
        } => Answer::Forward(peer.forward(members, *time, work, marks)),
        Call::KeptLog { out } => Answer::KeptLog(peer.kept_log(out)),
    }
}

/// Makes the call on both; the answers and all buffers must agree.
fn assert_call_agrees(tables: &mut Tables, peer: &mut Trail, call: &Call) -> Answer {
    let (mut of_tables, mut of_peer) = (call.clone(), call.clone());
    let capacity = tables.view().capacity();
    let answer = run_on_peer(peer, capacity, &mut of_peer);
    assert_eq!(of_tables.run(tables), answer);
    assert_eq!(of_tables, of_peer);
    answer
}

/// The counts and the rows in use must agree.
fn assert_rows_agree(tables: &Tables, peer: &Trail) {
    let (of_tables, peer) = (tables.view(), peer.tables());
    assert_eq!(of_tables.counts, peer.counts);
    assert!(of_tables.entity_rows().eq(peer.view().entity_rows()));
    assert!(of_tables.version_rows().eq(peer.view().version_rows()));
    assert!(of_tables.edge_rows().eq(peer.view().edge_rows()));
}

#[test]
fn on_lists_of_calls() {
    let mut seen = [0; 18];
    for seed in 0..600 {
        let mut random = Random::new(seed);
        let mut tables = Tables::fresh(TableLengths::of_rows(0, 0, 0));
        let mut peer = Trail::new();
        for lent in call_list(&mut random, 14) {
            tables = lend_anew(&mut random, &tables, lent.lengths);
            let answer = assert_call_agrees(&mut tables, &mut peer, &lent.call);
            assert_rows_agree(&tables, &peer);
            seen[answer.refusal() as usize] += 1;
        }
    }
    for refusal in [0, 1, 3, 4, 5, 6, 7, 8, 9, 11, 12, 14, 17] {
        assert!(seen[refusal] > 0, "never refused with {refusal}");
    }
}

#[test]
fn on_any_sound_tables() {
    let mut random = Random::new(70);
    for _ in 0..2_000 {
        let mut tables = match random.below(2) {
            0 => grown_tables(&mut random, 40),
            _ => sound_tables(&mut random),
        };
        let mut peer = Trail::of_tables(&tables);
        for _ in 0..6 {
            let call = any_call(&mut random, &tables);
            assert_call_agrees(&mut tables, &mut peer, &call);
        }
        let call = batch_on(&mut random, &tables);
        assert_call_agrees(&mut tables, &mut peer, &call);
        assert_rows_agree(&tables, &peer);
    }
}

#[test]
fn on_batches_refused_for_each_reason() {
    let mut random = Random::new(71);
    for fault in BatchFault::ALL {
        for _ in 0..10 {
            let mut case = refused_batch(&mut random, fault);
            if is_sound(case.tables.view()) {
                let mut peer = Trail::of_tables(&case.tables);
                let call = Call::Batch { file: case.file };
                assert_call_agrees(&mut case.tables, &mut peer, &call);
                assert_rows_agree(&case.tables, &peer);
            }
        }
    }
}

#[test]
fn on_long_files_and_when_cleared() {
    let mut random = Random::new(72);
    let mut peer = Trail::new();
    for rows in [500, 3_000, 20_000] {
        let file = long_file(&mut random, 100, &Kind::ALL, 20_000);
        let signed = long_signed_file(&mut random, 100, 20_000);
        for file in [file, signed] {
            let mut tables = Tables::fresh(TableLengths::of_rows(100, rows, 15_000));
            peer.clear();
            let answer = peer.batch(tables.view().capacity(), &file);
            assert_eq!(long_batch(&mut tables, &file), answer);
            assert_rows_agree(&tables, &peer);
        }
    }
}
