//! The batch for long files and the plain batch must agree.

use reference::generate::calls::batch_on;
use reference::generate::{
    grown_tables, long_file, long_signed_file, refused_batch, sound_tables,
    unsound_tables_by_one_number, BatchFault,
};
use reference::{long_batch, Call, Kind, Random, TableLengths, Tables};

fn assert_agree(tables: &Tables, file: &[u8]) {
    let (mut plain, mut long) = (tables.clone(), tables.clone());
    assert_eq!(plain.batch(file), long_batch(&mut long, file));
    assert_eq!(plain, long);
}

#[test]
fn on_batches_refused_for_each_reason() {
    let mut random = Random::new(60);
    for fault in BatchFault::ALL {
        for _ in 0..10 {
            let case = refused_batch(&mut random, fault);
            assert_agree(&case.tables, &case.file);
        }
    }
}

#[test]
fn on_any_tables() {
    let mut random = Random::new(61);
    for _ in 0..1_000 {
        let tables = match random.below(8) {
            0 => unsound_tables_by_one_number(&mut random),
            1..=4 => grown_tables(&mut random, 40),
            _ => sound_tables(&mut random),
        };
        if let Call::Batch { file } = batch_on(&mut random, &tables) {
            assert_agree(&tables, &file);
        }
    }
}

#[test]
fn on_long_files() {
    let mut random = Random::new(62);
    for rows in [100, 700, 2_000] {
        let file = long_file(&mut random, 50, &Kind::ALL, 2_000);
        let tables = Tables::fresh(TableLengths::of_rows(50, rows, 1_500));
        assert_agree(&tables, &file);
        assert_agree(&tables, &long_signed_file(&mut random, 50, 2_000));
    }
}
