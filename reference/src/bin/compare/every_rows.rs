//! Every sound choice of entity and version rows with few values, without
//! edges.

use reference::rows::{EdgeRow, EntityRow, VersionRow, NO_VERSION};
use reference::sound::is_sound;
use reference::{Sort, Tables};

/// The last time of all tables.
pub const LAST: u32 = 3;
/// The sorts of the two entities. Two objects are left out, signed or not: no
/// edge joins them.
const SORTS: [[u32; 2]; 5] = [[1, 0], [0, 1], [1, 1], [1, 2], [2, 1]];

/// The rows of the entities and of the versions.
pub struct Rows {
    pub entities: [EntityRow; 2],
    pub versions: Vec<VersionRow>,
}

impl Rows {
    pub fn with_edges(&self, edges: &[EdgeRow]) -> Tables {
        let accepted = edges.iter().map(|edge| edge.count).sum();
        Tables::of_rows(&self.entities, &self.versions, edges, accepted, LAST)
    }

    /// The sort of the entity; a signed object is an object.
    pub fn sort(&self, entity: u32) -> Sort {
        let row = self.entities[entity as usize];
        row.declared_sort().expect("the sorts are 0 to 2")
    }
}

/// Three versions of the two entities.
pub fn three_versions() -> Vec<Rows> {
    let any = [every_version(0), every_version(1)].concat();
    every_rows([&any, &any, &any])
}

/// Three versions of the first entity, so that one may start in the tick of
/// its previous, then one of the second.
pub fn four_versions() -> Vec<Rows> {
    let of_first = every_version(0);
    let of_second = [VersionRow::first(1)];
    every_rows([&of_first, &of_first, &of_first, &of_second])
}

/// All rows with versions of these choices that are sound without edges.
fn every_rows<const VERSIONS: usize>(choices: [&[VersionRow]; VERSIONS]) -> Vec<Rows> {
    let mut lists = vec![Vec::new()];
    for choice in choices {
        let longer = |list: &Vec<VersionRow>| {
            let longer = choice.iter().map(|row| [list.as_slice(), &[*row]].concat());
            longer.collect::<Vec<_>>()
        };
        lists = lists.iter().flat_map(longer).collect();
    }
    let mut all = Vec::new();
    for versions in lists {
        for entities in every_entities(VERSIONS as u32) {
            let versions = versions.clone();
            all.push(Rows { entities, versions });
        }
    }
    all.retain(|rows| is_sound(rows.with_edges(&[]).view()));
    all
}

fn every_version(entity: u32) -> Vec<VersionRow> {
    let mut rows = Vec::new();
    for start in 0..LAST {
        for previous in [NO_VERSION, 0, 1] {
            rows.push(VersionRow {
                entity,
                start,
                end: LAST,
                previous,
            });
        }
    }
    rows
}

/// Both sorts and both latest versions.
fn every_entities(versions: u32) -> impl Iterator<Item = [EntityRow; 2]> {
    let row = |sort: u32, latest: u32| EntityRow { sort, latest };
    SORTS.into_iter().flat_map(move |[first, second]| {
        let latest = move |number: u32| [number / versions, number % versions];
        let numbers = 0..versions * versions;
        numbers.map(latest).map(move |latest| {
            let [of_first, of_second] = latest;
            [row(first, of_first), row(second, of_second)]
        })
    })
}
