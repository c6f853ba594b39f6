//! The worked trail of document 01, with its cases P1 to P9; P10 and P11 are in `full_trail`.

use crate::common::{marked, worked_file, worked_trail};
use trail::{
    Counts, EdgeNo, EdgeRow, EntityNo, EntityRow, Kind, Refusal, Sort, Taken, Time, Trail,
    VersionNo, VersionRow, NONE,
};

const ENTITIES: [[u32; 2]; 4] = [[0, 0], [1, 4], [0, 2], [0, 3]];

const VERSIONS: [[u32; 4]; 5] = [
    [0, 0, 0, NONE],
    [1, 0, 1, NONE],
    [2, 0, 6, NONE],
    [3, 0, 0, NONE],
    [1, 5, 5, 1],
];

const EDGES: [[u32; 6]; 4] = [
    [0, 1, 1, 1, 2, 3],
    [1, 2, 2, 2, 2, 4],
    [3, 4, 1, 5, 2, 7],
    [4, 2, 2, 6, 1, 6],
];

fn backward(entity: u32, time: u32) -> Vec<u32> {
    let trace = worked_trail()
        .backward(EntityNo(entity), Time(time))
        .unwrap();
    let marks = marked(&trace);
    assert_eq!(trace.count() as usize, marks.len());
    marks
}

fn forward(members: &[u32], time: u32) -> (Vec<u32>, u32) {
    let members: Vec<EntityNo> = members.iter().copied().map(EntityNo).collect();
    let forward = worked_trail().forward(&members, Time(time)).unwrap();
    let marks = marked(&forward.trace);
    assert_eq!(forward.trace.count() as usize, marks.len());
    (marks, forward.intake.0)
}

#[test]
fn p1_rows_as_numbers() {
    let mut trail = Trail::new().unwrap();
    assert_eq!(trail.counts(), Counts::default());
    assert_eq!(
        trail.batch(&worked_file()),
        Ok(Taken {
            records: 11,
            tried: 11
        })
    );
    let counts = Counts {
        entities: 4,
        versions: 5,
        edges: 4,
        accepted: 7,
        last: Time(7),
    };
    assert_eq!(trail.counts(), counts);
    assert_eq!(trail.entity_rows(), ENTITIES.concat());
    assert_eq!(trail.version_rows(), VERSIONS.concat());
    assert_eq!(trail.edge_rows(), EDGES.concat());
}

#[test]
fn p1_rows_by_their_fields() {
    let trail = worked_trail();
    let stager = EntityRow {
        sort: Sort::Subject,
        latest: VersionNo(4),
    };
    assert_eq!(trail.entity(EntityNo(1)), Some(stager));
    let first = VersionRow {
        entity: EntityNo(2),
        start: Time(0),
        end: Time(6),
        previous: None,
    };
    assert_eq!(trail.version(VersionNo(2)), Some(first));
    let second = VersionRow {
        entity: EntityNo(1),
        start: Time(5),
        end: Time(5),
        previous: Some(VersionNo(1)),
    };
    assert_eq!(trail.version(VersionNo(4)), Some(second));
    let edge = EdgeRow {
        from: VersionNo(3),
        to: VersionNo(4),
        kind: Kind::Read,
        time: Time(5),
        count: 2,
        last: Time(7),
    };
    assert_eq!(trail.edge(EdgeNo(2)), Some(edge));
}

#[test]
fn rows_past_the_counts_are_none() {
    let trail = worked_trail();
    assert_eq!(trail.entity(EntityNo(4)), None);
    assert_eq!(trail.version(VersionNo(5)), None);
    assert_eq!(trail.edge(EdgeNo(4)), None);
    assert_eq!(trail.edge(EdgeNo(u32::MAX)), None);
}

#[test]
fn rows_in_order() {
    let trail = worked_trail();
    let sorts: Vec<u32> = trail.entities().map(|(_, row)| row.sort.number()).collect();
    assert_eq!(sorts, [0, 1, 0, 0]);
    let owners: Vec<u32> = trail.versions().map(|(_, row)| row.entity.0).collect();
    assert_eq!(owners, [0, 1, 2, 3, 1]);
    let edges: Vec<(u32, &str)> = trail
        .edges()
        .map(|(edge, row)| (edge.0, row.kind.word()))
        .collect();
    assert_eq!(
        edges,
        [(0, "read"), (1, "write"), (2, "read"), (3, "write")]
    );
}

#[test]
fn p2_to_p4_backward() {
    assert_eq!(backward(2, 1), [2]);
    assert_eq!(backward(2, 4), [0, 1, 2]);
    assert_eq!(backward(2, 5), [0, 1, 2]);
    assert_eq!(backward(2, 6), [0, 1, 2, 3]);
}

#[test]
fn p5_to_p8_forward() {
    assert_eq!(forward(&[3], 0), (vec![1, 2, 3], 0));
    assert_eq!(forward(&[1], 4), (vec![1, 2], 1));
    assert_eq!(forward(&[1], 5), (vec![1, 2], 5));
    assert_eq!(forward(&[0], 4), (vec![0, 1, 2], 0));
}

#[test]
fn forward_of_a_list() {
    assert_eq!(forward(&[1, 2], 6), (vec![1, 2], 5));
    assert_eq!(forward(&[2, 1, 1, 2], 6), (vec![1, 2], 5));
    assert_eq!(forward(&[], 6), (vec![], 0));
}

#[test]
fn p9_first_event_at_time_0() {
    let mut file = worked_file();
    file[64] = 0;
    let mut trail = Trail::new().unwrap();
    let refused = trail.batch(&file).unwrap_err();
    assert_eq!((refused.refusal, refused.record), (Refusal::TooEarly, 5));
    assert_eq!(
        trail.counts(),
        Counts {
            entities: 4,
            versions: 4,
            ..Counts::default()
        }
    );
}

#[test]
fn marked_versions() {
    let trace = worked_trail().backward(EntityNo(2), Time(4)).unwrap();
    let versions: Vec<bool> = (0..5)
        .map(|version| trace.is_version_marked(VersionNo(version)))
        .collect();
    assert_eq!(versions, [true, true, true, false, false]);
    assert!(trace.is_marked(EntityNo(0)) && !trace.is_marked(EntityNo(3)));
    assert!(!trace.is_marked(EntityNo(4)) && !trace.is_version_marked(VersionNo(5)));
}

#[test]
fn traces_of_undeclared_entities() {
    let trail = worked_trail();
    assert_eq!(
        trail.backward(EntityNo(4), Time(7)),
        Err(Refusal::Undeclared)
    );
    assert_eq!(
        trail.forward(&[EntityNo(3), EntityNo(4)], Time(7)),
        Err(Refusal::Undeclared)
    );
}

#[test]
fn kept_log_taken_in_again() {
    let trail = worked_trail();
    let log = trail.kept_log();
    assert_eq!(log.len(), 104);
    let mut again = Trail::new().unwrap();
    assert_eq!(
        again.batch(&log),
        Ok(Taken {
            records: 8,
            tried: 6
        })
    );
    assert_eq!(again.entity_rows(), trail.entity_rows());
    assert_eq!(again.version_rows(), trail.version_rows());
    for ((_, row), (_, kept)) in again.edges().zip(trail.edges()) {
        assert_eq!(
            row,
            EdgeRow {
                count: 1,
                last: kept.time,
                ..kept
            }
        );
    }
    assert_eq!(again.kept_log(), log);
}

#[test]
fn fresh_trail() {
    let mut trail = Trail::new().unwrap();
    let header = trail.kept_log();
    assert_eq!(header, *b"SLT\x01\0\0\0\0");
    assert_eq!(trail.batch(&header), Ok(Taken::default()));
    assert_eq!(
        trail.entities().count() + trail.versions().count() + trail.edges().count(),
        0
    );
    assert_eq!(
        trail.backward(EntityNo(0), Time(0)),
        Err(Refusal::Undeclared)
    );
    assert_eq!(trail.forward(&[], Time(0)).unwrap().trace.count(), 0);
}
