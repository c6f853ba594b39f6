use super::tests::{state, with_right_checksum};
use super::{State, TakenFile};
use proptest::collection::vec;
use proptest::prelude::*;

/// Bases of few names, so that there are generations, and of any bytes but those of escapes and numbers.
fn base() -> impl Strategy<Value = Vec<u8>> {
    let any_bytes = vec(any::<u8>(), 0..6);
    prop_oneof![
        prop::sample::select(vec!["", "/a", r"/a\;2", r"/a\\"])
            .prop_map(|base| base.as_bytes().to_vec()),
        any_bytes.prop_map(|mut bytes| {
            bytes.retain(|byte| !b"\n;\\".contains(byte));
            bytes
        }),
    ]
}

fn taken_file() -> impl Strategy<Value = TakenFile> {
    (
        any::<[u8; 32]>(),
        any::<u32>(),
        any::<u32>(),
        vec(any::<u8>(), 0..9),
    )
        .prop_map(|(digest, records, events, name)| TakenFile {
            digest,
            records,
            events,
            name,
        })
}

fn states() -> impl Strategy<Value = State> {
    (
        proptest::option::of(0..410_000_000_000i64),
        vec(any::<u8>(), 1..9),
        vec(base(), 0..9),
        vec((any::<u16>(), any::<u16>(), 0..3u32), 0..40),
        vec(taken_file(), 0..4),
    )
        .prop_map(|(start, sorts, bases, events, taken)| {
            state(start, &sorts, &bases, &events, taken)
        })
}

fn assert_same(first: &State, second: &State) {
    assert_eq!(first.start, second.start);
    assert_eq!(first.trail.counts(), second.trail.counts());
    assert_eq!(first.trail.entity_rows(), second.trail.entity_rows());
    assert_eq!(first.trail.version_rows(), second.trail.version_rows());
    assert_eq!(first.trail.edge_rows(), second.trail.edge_rows());
    assert_eq!(first.names, second.names);
    assert_eq!(first.taken, second.taken);
}

proptest! {
    #[test]
    fn a_state_comes_back(state in states()) {
        let bytes = state.encode();
        assert_same(&State::decode(&bytes).unwrap(), &state);
    }

    #[test]
    fn a_cut_state_is_damaged(state in states(), cut in any::<prop::sample::Index>()) {
        let bytes = state.encode();
        let cut = cut.index(bytes.len());
        let error = State::decode(&bytes[..cut]).unwrap_err();
        let expected = if cut < 8 { "does not begin" } else { "cut short" };
        prop_assert!(error.to_string().contains(expected), "{error}");
    }

    #[test]
    fn a_changed_byte_is_damage(state in states(), at in any::<prop::sample::Index>(), change in 1..=255u8) {
        let mut bytes = state.encode();
        let at = at.index(bytes.len());
        bytes[at] ^= change;
        prop_assert!(State::decode(&bytes).is_err());
    }

    /// With its checksum made right again, a changed state is damaged or another state.
    #[test]
    fn whatever_the_bytes_are_they_are_read_or_refused(state in states(), changes in vec((any::<prop::sample::Index>(), any::<u8>()), 1..4)) {
        let mut bytes = state.encode();
        for (at, value) in changes {
            let at = at.index(bytes.len());
            bytes[at] = value;
        }
        let bytes = with_right_checksum(bytes);
        if let Ok(other) = State::decode(&bytes) {
            prop_assert_eq!(other.encode(), bytes);
        }
    }

    #[test]
    fn other_bytes_are_no_state(bytes in vec(any::<u8>(), 0..200)) {
        prop_assert!(State::decode(&bytes).is_err());
        let after_mark = [&b"SLTSTATE\x01\0\0\0"[..], &bytes].concat();
        prop_assert!(State::decode(&after_mark).is_err());
    }
}
