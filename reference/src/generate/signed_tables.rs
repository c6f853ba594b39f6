//! Objects signed in tables, which stay sound, and by a file.

use crate::file_builder::FileBuilder;
use crate::random::Random;
use crate::record::Sort;
use crate::rows::{EntityRow, SIGNED};
use crate::tables::Tables;

/// Signs none, each with a chance of one half, or all of the objects.
pub fn sign_some(random: &mut Random, tables: &mut Tables) {
    match random.below(4) {
        0 | 1 => {}
        2 => sign_where(tables, |_| random.one_in(2)),
        _ => sign_all(tables),
    }
}

/// Signs all objects.
pub fn sign_all(tables: &mut Tables) {
    sign_where(tables, |_| true);
}

/// Signs the objects with these numbers.
pub fn sign_where(tables: &mut Tables, mut is_signed: impl FnMut(u32) -> bool) {
    for number in 0..tables.counts.entities {
        let row = tables.view().entity(number);
        if row.declared_sort() == Some(Sort::Object) && is_signed(number) {
            let sort = SIGNED;
            tables.set_entity(number, EntityRow { sort, ..row });
        }
    }
}

/// A file that signs all objects which are not signed yet.
pub fn signatures_of(tables: &Tables) -> Vec<u8> {
    let mut file = FileBuilder::version_2();
    for (number, row) in (0..).zip(tables.view().entity_rows()) {
        if row.sort == Sort::Object.number() {
            file = file.sign(number);
        }
    }
    file.bytes()
}
