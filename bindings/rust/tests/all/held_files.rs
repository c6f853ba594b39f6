//! Files whose bytes stay as they are while they are held, and trails whose rows stand in them.

use crate::common::worked_trail;
use std::env;
use std::fs::{self, File};
use std::io::{ErrorKind, Read, Write};
use std::os::unix::fs::OpenOptionsExt;
use std::path::PathBuf;
use std::process;
use std::sync::Arc;
use trail::{
    Counts, DeclaredSort, EntityNo, EventFile, FromRowsError, HeldFile, Trail, MOST_EDGES,
};

const O_NONBLOCK: i32 = 0o4000;

/// A file of its own for each test, removed when this is dropped.
struct Scratch(PathBuf);

impl Scratch {
    fn new(name: &str, bytes: &[u8]) -> Scratch {
        let path = env::temp_dir().join(format!("trail-{}-{name}", process::id()));
        fs::write(&path, bytes).unwrap();
        Scratch(path)
    }

    fn held(&self) -> HeldFile {
        HeldFile::new(File::open(&self.0).unwrap()).unwrap()
    }

    /// Overwrites the file from its start on, unless that has to wait. Says whether it did.
    fn overwrite(&self, bytes: &[u8]) -> bool {
        let mut options = File::options();
        options.write(true).custom_flags(O_NONBLOCK);
        match options.open(&self.0) {
            Err(error) => {
                assert_eq!(error.kind(), ErrorKind::WouldBlock);
                false
            }
            Ok(mut file) => {
                file.write_all(bytes).unwrap();
                true
            }
        }
    }
}

impl Drop for Scratch {
    fn drop(&mut self) {
        let _ = fs::remove_file(&self.0);
    }
}

#[test]
fn bytes_stay_while_they_are_held() {
    let scratch = Scratch::new("held", b"the bytes before");
    let held = scratch.held();
    assert_eq!(&held[..], b"the bytes before");
    let overwritten = scratch.overwrite(b"others");
    assert_eq!(&held[..], b"the bytes before");
    drop(held);
    assert!(overwritten || scratch.overwrite(b"others"));
    assert_eq!(&scratch.held()[..], b"otherstes before");
}

#[test]
fn bytes_of_a_file_that_is_being_written_are_copied() {
    let scratch = Scratch::new("written", b"before");
    let mut writer = File::options().write(true).open(&scratch.0).unwrap();
    let held = scratch.held();
    writer.write_all(b"after").unwrap();
    assert_eq!(&held[..], b"before");
    assert_eq!(&scratch.held()[..], b"aftere");
}

#[test]
fn another_file_may_be_put_in_its_place() {
    let scratch = Scratch::new("replaced", b"before");
    let other = Scratch::new("other", b"after");
    let held = scratch.held();
    fs::rename(&other.0, &scratch.0).unwrap();
    assert_eq!(&held[..], b"before");
    assert_eq!(&scratch.held()[..], b"after");
}

#[test]
fn all_of_a_file_is_held_however_much_was_read() {
    let bytes: Vec<u8> = (0..100_000u32).flat_map(u32::to_le_bytes).collect();
    let scratch = Scratch::new("long", &bytes);
    let held = || {
        let mut file = File::open(&scratch.0).unwrap();
        file.read_exact(&mut [0; 1000]).unwrap();
        HeldFile::new(file).unwrap()
    };
    assert!(held()[..] == bytes);
    // A copy, since someone may write.
    let _writer = File::options().write(true).open(&scratch.0).unwrap();
    assert!(held()[..] == bytes);
    assert_eq!(Scratch::new("empty", b"").held().len(), 0);
}

#[test]
fn what_is_no_file_is_not_held() {
    let folder = File::open(env::temp_dir()).unwrap();
    assert!(HeldFile::new(folder).is_err());
}

/// A trail's rows after this many bytes, as a file has them.
fn file_of(trail: &Trail, before: usize) -> Vec<u8> {
    let mut bytes = vec![7; before];
    for rows in [trail.entity_rows(), trail.version_rows(), trail.edge_rows()] {
        bytes.extend(rows.iter().flat_map(|number| number.to_le_bytes()));
    }
    bytes
}

fn assert_same(some: &Trail, other: &Trail) {
    assert_eq!(some.counts(), other.counts());
    assert_eq!(some.kept_log(), other.kept_log());
    let last = some.counts().last;
    for (entity, _) in some.entities() {
        assert_eq!(some.backward(entity, last), other.backward(entity, last));
    }
    let rows = |trail: &Trail| file_of(trail, 0);
    assert_eq!(rows(some), rows(other));
}

#[test]
fn a_trail_has_the_rows_that_stand_in_a_file() {
    let trail = worked_trail();
    for before in [0, 1, 2, 3, 4, 44] {
        let bytes = [file_of(&trail, before), vec![9; 5]].concat();
        let scratch = Scratch::new(&format!("rows-{before}"), &bytes);
        let files = [scratch.held(), HeldFile::from(bytes)].map(Arc::new);
        for file in files {
            let again = Trail::from_file(trail.counts(), &file, before).unwrap();
            assert_same(&again, &trail);
        }
    }
}

#[test]
fn a_detached_trail_needs_the_file_no_more() {
    let trail = worked_trail();
    let scratch = Scratch::new("detached", &file_of(&trail, 44));
    let file = Arc::new(scratch.held());
    let mut again = Trail::from_file(trail.counts(), &file, 44).unwrap();
    let other = again.clone();
    assert_eq!(Arc::strong_count(&file), 4);
    again.detach();
    assert_same(&again, &trail);
    drop(other);
    assert_eq!(Arc::strong_count(&file), 1);
    again.detach();
    assert_same(&again, &trail);
}

#[test]
fn a_batch_leaves_the_file_as_it_is() {
    let trail = worked_trail();
    let bytes = file_of(&trail, 0);
    let scratch = Scratch::new("batch", &bytes);
    let file = Arc::new(scratch.held());
    let before = Trail::from_file(trail.counts(), &file, 0).unwrap();
    let mut grown = before.clone();
    let next = trail.counts().entities as u16;
    let mut declared = EventFile::new();
    declared.declare(next, DeclaredSort::Object);
    grown.batch(declared.as_bytes()).unwrap();
    assert!(grown.entity(EntityNo(next.into())).is_some());
    assert_same(&before, &trail);
    assert!(file[..] == bytes && fs::read(&scratch.0).unwrap() == bytes);
}

#[test]
fn rows_that_the_file_does_not_have_are_refused() {
    let trail = worked_trail();
    let bytes = file_of(&trail, 0);
    let refused = |counts, bytes: &[u8], at| {
        let file = Arc::new(HeldFile::from(bytes.to_vec()));
        matches!(
            Trail::from_file(counts, &file, at),
            Err(FromRowsError::Unsound)
        )
    };
    for length in 0..bytes.len() {
        assert!(refused(trail.counts(), &bytes[..length], 0), "{length}");
    }
    assert!(refused(trail.counts(), &bytes, 4));
    for at in [bytes.len(), usize::MAX - 3, usize::MAX] {
        assert!(refused(trail.counts(), &bytes, at));
    }
    let most = Counts {
        edges: u32::MAX,
        ..trail.counts()
    };
    assert!(refused(most, &bytes, 0));
    let more = Counts {
        edges: MOST_EDGES + 1,
        ..trail.counts()
    };
    let long = vec![0; 24 * (MOST_EDGES as usize + 100)];
    assert!(refused(more, &long, 0));
}
