//! Trails made of rows: sound ones as they are, others refused.

use crate::common::{entity_numbers, worked_trail};
use trail::{
    Counts, FromRowsError, Time, Trail, EDGE_WIDTH, ENTITY_WIDTH, MOST_ACCEPTED, MOST_EDGES,
    MOST_ENTITIES, MOST_VERSIONS, NONE, VERSION_WIDTH,
};

/// The counts and rows of a trail, to be changed.
#[derive(Clone)]
struct Rows {
    counts: Counts,
    entities: Vec<u32>,
    versions: Vec<u32>,
    edges: Vec<u32>,
}

impl Rows {
    fn of(trail: &Trail) -> Rows {
        Rows {
            counts: trail.counts(),
            entities: trail.entity_rows().to_vec(),
            versions: trail.version_rows().to_vec(),
            edges: trail.edge_rows().to_vec(),
        }
    }

    fn trail(&self) -> Result<Trail, FromRowsError> {
        Trail::from_rows(
            self.counts,
            self.entities.as_slice(),
            self.versions.as_slice(),
            self.edges.as_slice(),
        )
    }

    /// Each number that makes it up.
    fn numbers(&mut self) -> Vec<&mut u32> {
        let Counts {
            entities,
            versions,
            edges,
            accepted,
            last,
        } = &mut self.counts;
        let counts = [entities, versions, edges, accepted, &mut last.0];
        let tables = [&mut self.entities, &mut self.versions, &mut self.edges];
        counts
            .into_iter()
            .chain(tables.into_iter().flatten())
            .collect()
    }
}

fn worked_rows() -> Rows {
    Rows::of(&worked_trail())
}

fn assert_rows(trail: &Trail, rows: &Rows) {
    assert_eq!(trail.counts(), rows.counts);
    assert_eq!(
        trail.entity_rows(),
        &rows.entities[..ENTITY_WIDTH * rows.counts.entities as usize]
    );
    assert_eq!(
        trail.version_rows(),
        &rows.versions[..VERSION_WIDTH * rows.counts.versions as usize]
    );
    assert_eq!(
        trail.edge_rows(),
        &rows.edges[..EDGE_WIDTH * rows.counts.edges as usize]
    );
}

fn is_unsound(rows: &Rows) -> bool {
    matches!(rows.trail(), Err(FromRowsError::Unsound))
}

/// The worked rows with this change are refused.
fn assert_unsound(clause: &str, change: impl FnOnce(&mut Rows)) {
    let mut rows = worked_rows();
    change(&mut rows);
    assert!(is_unsound(&rows), "{clause}");
}

#[test]
fn rows_come_back() {
    let rows = worked_rows();
    assert_rows(&rows.trail().unwrap(), &rows);
    let none = Trail::from_rows(Counts::default(), [], [], []).unwrap();
    assert_eq!(none.counts(), Counts::default());
}

#[test]
fn counts_that_are_not_sound() {
    assert_unsound("entities within capacity", |rows| rows.counts.entities = 5);
    assert_unsound("versions within capacity", |rows| rows.counts.versions = 6);
    assert_unsound("edges within capacity", |rows| rows.counts.edges = 5);
    assert_unsound("as many as a number can be", |rows| {
        rows.counts.edges = u32::MAX
    });
    assert_unsound("edges are at most accepted", |rows| {
        rows.counts.accepted = 3
    });
    assert_unsound("edge counts sum to accepted", |rows| {
        rows.counts.accepted = 8
    });
    assert_unsound(
        "last time of an edge is at most that of the trail",
        |rows| rows.counts.last = Time(6),
    );
    assert_unsound("accepted is at most a million", |rows| {
        rows.counts.accepted = MOST_ACCEPTED + 1;
        rows.edges[4] = MOST_ACCEPTED + 1 - 5;
    });
}

#[test]
fn entities_and_versions_that_are_not_sound() {
    assert_unsound("sort is 0 to 2", |rows| rows.entities[0] = 3);
    assert_unsound("latest exists", |rows| rows.entities[1] = 5);
    assert_unsound("latest is of that entity", |rows| rows.entities[1] = 1);
    assert_unsound("entity exists", |rows| rows.versions[0] = 4);
    assert_unsound("start is at most end", |rows| rows.versions[17] = 6);
    assert_unsound("end is at most last", |rows| rows.versions[18] = 8);
    assert_unsound("no previous where start is 0", |rows| rows.versions[7] = 0);
    assert_unsound("previous where start is not 0", |rows| {
        rows.versions[19] = NONE
    });
    assert_unsound("previous has a lower number", |rows| rows.versions[19] = 4);
    assert_unsound("previous is of the same entity", |rows| {
        rows.versions[19] = 0
    });
}

#[test]
fn edges_that_are_not_sound() {
    assert_unsound("from exists", |rows| rows.edges[0] = 5);
    assert_unsound("to exists", |rows| rows.edges[1] = 5);
    assert_unsound("an edge joins two entities", |rows| rows.edges[0] = 4);
    assert_unsound("kind is 1 to 5", |rows| rows.edges[2] = 0);
    assert_unsound("kind is 1 to 5", |rows| rows.edges[2] = 6);
    assert_unsound("sorts are those of the kind", |rows| rows.edges[2] = 2);
    assert_unsound("time is at least 1", |rows| rows.edges[3] = 0);
    assert_unsound("times do not fall", |rows| rows.edges[9] = 6);
    assert_unsound("time is at most that of the last repeat", |rows| {
        rows.edges[21] = 7
    });
    assert_unsound("count is at least 1", |rows| rows.edges[22] = 0);
}

#[test]
fn tables_shorter_than_the_counts() {
    assert_unsound("no entities", |rows| rows.entities.clear());
    assert_unsound("a number short", |rows| rows.entities.truncate(7));
    assert_unsound("a row short", |rows| rows.versions.truncate(16));
    assert_unsound("a number short", |rows| rows.edges.truncate(23));
}

#[test]
fn tables_longer_than_the_counts() {
    let mut rows = worked_rows();
    rows.entities.extend([7; 3]);
    rows.versions.extend([NONE; 5]);
    rows.edges.resize(EDGE_WIDTH * MOST_EDGES as usize, 9);
    let trail = rows.trail().unwrap();
    assert_rows(&trail, &rows);
    assert_eq!(trail.kept_log(), worked_trail().kept_log());
    let fresh = Trail::from_rows(Counts::default(), [1, 2, 3], [4], [5; 100]).unwrap();
    assert_eq!(fresh.entities().count(), 0);
}

#[test]
fn tables_longer_than_there_may_be() {
    let mut rows = worked_rows();
    rows.entities
        .resize(ENTITY_WIDTH * MOST_ENTITIES as usize + 5, 0);
    rows.versions
        .resize(VERSION_WIDTH * MOST_VERSIONS as usize + 5, 0);
    rows.edges.resize(EDGE_WIDTH * MOST_EDGES as usize + 5, 0);
    assert_rows(&rows.trail().unwrap(), &rows);
    rows.counts.entities = MOST_ENTITIES + 1;
    assert!(is_unsound(&rows));
}

#[test]
fn any_one_number_changed() {
    let mut sound = 0;
    for place in 0..worked_rows().numbers().len() {
        for value in [0, 1, 2, 3, 4, 5, 6, 7, 8, NONE] {
            let mut rows = worked_rows();
            *rows.numbers()[place] = value;
            if let Ok(trail) = rows.trail() {
                sound += 1;
                assert_rows(&trail, &rows);
                use_all(&trail);
            }
        }
    }
    // Each of the 57 numbers keeps its value once.
    assert!((57..300).contains(&sound), "{sound} of 570 are sound");
}

/// Reads each row and makes each call: none panics.
fn use_all(trail: &Trail) {
    assert_eq!(trail.entities().count(), trail.counts().entities as usize);
    assert_eq!(trail.versions().count(), trail.counts().versions as usize);
    assert_eq!(
        trail.edges().map(|(_, row)| row.count).sum::<u32>(),
        trail.counts().accepted
    );
    for entity in entity_numbers(trail) {
        assert!(trail.backward(entity, Time(5)).unwrap().is_marked(entity));
        assert!(trail
            .forward(&[entity], Time(5))
            .unwrap()
            .trace
            .is_marked(entity));
    }
    assert!(trail.kept_log().len() >= 8);
}

#[test]
fn in_words() {
    let mut rows = worked_rows();
    rows.counts.last = Time(6);
    assert_eq!(
        rows.trail().unwrap_err().to_string(),
        "the counts and tables are not sound"
    );
}
