//! Tables with any number of rows in use, for the caps. Each table is lent
//! with some rows more than are in use. The tables are sound if the count is
//! within its cap.

use crate::capacity::{EDGE_ROW, ENTITY_ROW, VERSION_ROW};
use crate::record::{Kind, Sort};
use crate::rows::{EdgeRow, EntityRow, VersionRow};
use crate::tables::Tables;

/// Rows lent in each table after those in use.
const SPARE_ROWS: usize = 4;

/// This many entities, a subject first and objects after it, with a version
/// each.
pub fn tables_with_entities(count: u32) -> Tables {
    let entities: Vec<EntityRow> = (0..count).map(entity).collect();
    let versions: Vec<VersionRow> = (0..count).map(VersionRow::first).collect();
    with_spare_rows(Tables::of_rows(&entities, &versions, &[], 0, 0))
}

/// This many versions: one each of two objects and all others of a subject.
/// The subject's latest version has an outgoing edge, to object 1. The count
/// must be 4 or more.
pub fn tables_with_versions(count: u32) -> Tables {
    let mut entities: Vec<EntityRow> = (0..3).map(entity).collect();
    let mut versions: Vec<VersionRow> = (0..3).map(VersionRow::first).collect();
    for number in 3..count {
        versions.push(VersionRow {
            entity: 0,
            start: number,
            end: number,
            previous: entities[0].latest,
        });
        entities[0].latest = number;
    }
    let edge = EdgeRow::new(entities[0].latest, 1, Kind::Write, count);
    with_spare_rows(Tables::of_rows(&entities, &versions, &[edge], 1, count))
}

/// This many edges, all reads of object 1 by the subject, and an object 2.
pub fn tables_with_edges(count: u32) -> Tables {
    let entities: Vec<EntityRow> = (0..3).map(entity).collect();
    let versions: Vec<VersionRow> = (0..3).map(VersionRow::first).collect();
    let times = 1..=count;
    let edges: Vec<EdgeRow> = times
        .map(|time| EdgeRow::new(1, 0, Kind::Read, time))
        .collect();
    with_spare_rows(Tables::of_rows(&entities, &versions, &edges, count, count))
}

fn entity(number: u32) -> EntityRow {
    let sort = match number {
        0 => Sort::Subject,
        _ => Sort::Object,
    };
    EntityRow::first(number, sort)
}

fn with_spare_rows(mut tables: Tables) -> Tables {
    tables.entities.extend([0; SPARE_ROWS * ENTITY_ROW]);
    tables.versions.extend([0; SPARE_ROWS * VERSION_ROW]);
    tables.edges.extend([0; SPARE_ROWS * EDGE_ROW]);
    tables
}
