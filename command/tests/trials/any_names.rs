//! Lines of any bytes as names: refused, or unique names that are the model's and that the log gives back.

use crate::common::folder::Folder;
use crate::common::model::{split, Model};
use crate::common::recording::Recording;
use crate::common::recordings::{moment, START};
use crate::common::run::{DONE, REFUSED};
use proptest::prelude::*;
use proptest::test_runner::{RngAlgorithm, TestRng, TestRunner};

/// Lines of bytes that matter in names, and of others.
fn lines() -> impl Strategy<Value = Vec<Vec<u8>>> {
    let special = prop::sample::select(b";\\12/a".to_vec());
    let byte = prop_oneof![1 => any::<u8>(), 4 => special];
    let byte = byte.prop_map(|byte| if byte == b'\n' { b'n' } else { byte });
    prop::collection::vec(prop::collection::vec(byte, 0..7), 1..12)
}

/// Runs the test on the same 80 inputs each time.
fn each(test: impl Fn(Vec<Vec<u8>>)) {
    let config = ProptestConfig {
        cases: 80,
        failure_persistence: None,
        ..ProptestConfig::default()
    };
    let random = TestRng::deterministic_rng(RngAlgorithm::ChaCha);
    let run = |lines| {
        test(lines);
        Ok(())
    };
    TestRunner::new_with_rng(config, random)
        .run(&lines(), run)
        .unwrap();
}

fn recording(lines: &[Vec<u8>], start: &str) -> Recording {
    let mut recording = Recording::at(start);
    for line in lines {
        recording.object(line);
    }
    recording
}

/// Whether a `;` after it would be escaped.
fn escapes_what_follows(base: &[u8]) -> bool {
    let is_backslash = |byte: &&u8| **byte == b'\\';
    base.iter().rev().take_while(is_backslash).count() % 2 == 1
}

fn is_fit(line: &[u8]) -> bool {
    let (base, _) = split(line);
    !split(base).1 && !escapes_what_follows(base)
}

#[test]
fn lines_name_entities_as_the_model_says() {
    each(|mut lines| {
        lines.retain(|line| is_fit(line));
        let (first, second) = (recording(&lines, START), recording(&lines, &moment(1)));
        let mut model = Model::default();
        model.take(&first, 0);
        model.take(&second, 1);
        let folder = Folder::with(&first);
        folder.take(&second, "second").expect(DONE);
        let names: Vec<Vec<u8>> = folder
            .list()
            .into_values()
            .map(Option::unwrap_or_default)
            .collect();
        let modelled: Vec<Vec<u8>> = model
            .entities
            .into_iter()
            .map(|entity| entity.name)
            .collect();
        assert_eq!(names, modelled);
        folder.run(["log", "kept.slt"]).expect(DONE);
        let again = Folder::new();
        again
            .run(["take".into(), folder.join("kept.slt")])
            .expect(DONE);
        assert_eq!(again.list(), folder.list());
    });
}

/// Whatever the lines are: refused with nothing changed, or a trail that is whole.
#[test]
fn no_line_damages_the_trail() {
    each(|lines| {
        let folder = Folder::new();
        for (base, start) in [("first", START), ("second", &moment(1))] {
            let before = folder.state();
            let run = folder.take(&recording(&lines, start), base);
            assert!([DONE, REFUSED].contains(&run.code()), "{run:?}");
            assert!(run.code() == DONE || folder.state() == before);
            folder.run(["check", "--deep"]).expect(DONE);
        }
    });
}
