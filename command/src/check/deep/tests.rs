use super::{check, most_intakes, questions, spread, MOST_TRACES};
use crate::failure::Exit;
use crate::grow::grow;
use crate::moment::Moment;
use crate::recording::sample::Sample;
use crate::state::State;
use trail::{Counts, Kind, Time, Trail};
use trail::{EDGE_WIDTH, ENTITY_WIDTH, VERSION_WIDTH};

fn grown(samples: Vec<Sample>) -> State {
    let fresh = Trail::new().unwrap();
    let empty = State::empty(Moment::parse("2026-11-17")).unwrap();
    samples.into_iter().fold(empty, |state, sample| {
        let recording = sample.recording("a.slt");
        grow(&state, &fresh, &recording, recording.digest()).unwrap()
    })
}

fn nights() -> Vec<Sample> {
    let night = |time: u32| {
        let sample = Sample::new()
            .object("/study")
            .subject("/x[1]")
            .object("/report;1")
            .object("/study;1");
        (0..20).fold(sample, |sample, step| {
            sample
                .read(0, 1, time + step)
                .write(1, 2, time + step)
                .write(1, 3, time + step)
        })
    };
    vec![night(5), night(50).sign(2), night(100)]
}

#[test]
fn a_trail_agrees_with_its_kept_log() {
    assert_eq!(check(&State::empty(None).unwrap()).unwrap(), 0);
    let traces = check(&grown(nights())).unwrap();
    assert!(traces > 3 * 8, "{traces}");
}

/// Sound, but not grown from recordings: the second edge repeats the first, and no fresh trail keeps it.
#[test]
fn a_difference_is_damage() {
    let mut state = grown(vec![Sample::new().object("/a").subject("/x[1]").event(
        Kind::Execve,
        0,
        1,
        5,
    )]);
    let repeat = [0, 1, Kind::Load.number(), 6, 1, 6];
    let edges = [state.trail.edge_rows(), &repeat].concat();
    let counts = Counts {
        edges: 2,
        accepted: 2,
        last: Time(6),
        ..state.trail.counts()
    };
    let versions = [&state.trail.version_rows()[..6], &[6, u32::MAX]].concat();
    state.trail = Trail::from_rows(counts, state.trail.entity_rows(), versions, edges).unwrap();
    let failure = check(&state).unwrap_err();
    assert_eq!(failure.exit, Exit::Damaged);
    assert!(
        failure.message.ends_with("its kept events differ"),
        "{}",
        failure.message
    );
}

/// Sound, but not grown: what a program read after it wrote enters the version that it wrote from.
#[test]
fn a_trace_that_differs_is_damage() {
    let sample = Sample::new()
        .object("/a")
        .subject("/x[1]")
        .object("/b")
        .object("/c");
    let sample = sample.read(0, 1, 5).write(1, 2, 6).read(3, 1, 7);
    let mut state = grown(vec![sample]);
    let counts = Counts {
        versions: 4,
        ..state.trail.counts()
    };
    let mut entities = state.trail.entity_rows().to_vec();
    let mut versions = state.trail.version_rows()[..4 * VERSION_WIDTH].to_vec();
    let mut edges = state.trail.edge_rows().to_vec();
    entities[ENTITY_WIDTH + 1] = 1;
    versions[VERSION_WIDTH + 2] = 7;
    edges[2 * EDGE_WIDTH + 1] = 1;
    state.trail = Trail::from_rows(counts, entities, versions, edges).unwrap();
    let failure = check(&state).unwrap_err();
    assert_eq!(failure.exit, Exit::Damaged);
    assert!(
        failure
            .message
            .ends_with("the forward traces of /x[1] at 2026-11-17T00:00:00.07 differ"),
        "{}",
        failure.message
    );
}

#[test]
fn intakes_are_spread_over_all() {
    let times = |count: u32| (1..=count).map(Time).collect::<Vec<_>>();
    for count in 0..=8 {
        assert_eq!(spread(&times(count), 8), times(count));
    }
    let chosen = spread(&times(1000), 8);
    assert_eq!(
        (chosen.len(), chosen[0], chosen[7]),
        (8, Time(1), Time(1000))
    );
    assert_eq!(spread(&times(1000), 1), [Time(1000)]);
    assert_eq!(spread(&times(1000), 2), [Time(1), Time(1000)]);
    assert_eq!(spread(&[Time(3); 20], 8), [Time(3)]);
    assert_eq!(questions(Time(10), &chosen).len(), 3 + 2 * 8);
}

#[test]
fn a_full_trail_is_asked_a_bounded_number_of_traces() {
    assert_eq!([0, 1, 1000].map(most_intakes), [8, 8, 8]);
    assert_eq!([2000, 4096].map(most_intakes), [3, 1]);
    for entities in 1..=4096 {
        assert!(entities * (3 + 2 * most_intakes(entities)) <= MOST_TRACES);
    }
}
