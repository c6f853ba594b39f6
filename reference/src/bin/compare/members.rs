//! Lists of members. Together they give what each gives alone, in whatever
//! order they stand and however often one is repeated.

use crate::calls::{forward, BufferLengths};
use crate::comparison::{Compared, Comparison};
use crate::difference::{differ, Difference};
use crate::made::Made;
use crate::worked_trail::worked_tables;
use reference::generate::{
    any_members, any_time, declared_members, grown_tables, large_tables, sound_tables,
};
use reference::{Answer, Call, Forward, Random, Tables};
use std::collections::BTreeSet;

/// Tables of each origin.
const TABLES: usize = 6;
/// Lists on each of them.
const LISTS: usize = 12;
/// The lengths of long lists.
const LONG: [usize; 4] = [255, 4_097, 65_537, 1_000_000];

pub fn lists_of_members(comparison: &mut Comparison, random: &mut Random) -> Compared {
    for _ in 0..TABLES {
        let grown = grown_tables(random, 40);
        let nobody_grew = sound_tables(random);
        let larger = large_tables(random, 9, 30, 40);
        for tables in [grown, nobody_grew, larger] {
            for _ in 0..LISTS {
                let members = any_members(random, tables.counts.entities);
                let time = any_time(random, tables.counts.last);
                compare_list(comparison, random, &tables, &members, time)?;
            }
            undeclared_at_each_place(comparison, random, &tables)?;
        }
    }
    Ok(())
}

/// The list, and if it is not refused its members alone and the same list in
/// another order with repeats.
fn compare_list(
    comparison: &mut Comparison,
    random: &mut Random,
    tables: &Tables,
    members: &[u32],
    time: u32,
) -> Compared {
    let Some(together) = forward_of(comparison.forward(tables, members, time)?) else {
        return Ok(());
    };
    let distinct: BTreeSet<u32> = members.iter().copied().collect();
    let mut alone = Vec::new();
    for member in distinct {
        alone.extend(forward_of(comparison.forward(tables, &[member], time)?));
    }
    let repeated = with_repeats(random, members);
    let again = forward_of(comparison.forward(tables, &repeated, time)?);
    let union = Forward::union(tables.counts, &alone);
    let place = differ("list, by its members alone", &together, &union)
        .or_else(|| differ("list, by it with repeats", Some(&together), again.as_ref()));
    match place {
        Some(place) => {
            let call = forward(members, time, BufferLengths::of(tables.counts));
            Err(Difference::new(tables, &call, place))
        }
        None => Ok(()),
    }
}

/// What the forward trace gave, if it was not refused.
fn forward_of(made: Made) -> Option<Forward> {
    match (made.answer, made.call) {
        (Answer::Forward(answer), Call::Forward { work, marks, .. }) if answer.refusal == 0 => {
            Some(Forward {
                answer,
                work,
                marks,
            })
        }
        _ => None,
    }
}

/// Each member once or more, in any order.
fn with_repeats(random: &mut Random, members: &[u32]) -> Vec<u32> {
    let mut repeated = members.to_vec();
    for _ in 0..random.below(4) {
        repeated.extend(random.pick(members));
    }
    random.shuffle(&mut repeated);
    repeated
}

/// One undeclared member at each place of a list, with buffers long enough and
/// with none.
fn undeclared_at_each_place(
    comparison: &mut Comparison,
    random: &mut Random,
    tables: &Tables,
) -> Compared {
    let entities = tables.counts.entities;
    let none = BufferLengths { work: 0, marks: 0 };
    for undeclared in [entities, u32::MAX] {
        for place in 0..4 {
            let mut members = declared_members(random, entities, 4);
            members[place] = undeclared;
            comparison.forward(tables, &members, tables.counts.last)?;
            comparison.call(tables, forward(&members, 0, none))?;
        }
    }
    Ok(())
}

/// Lists far longer than the number of entities, all declared or the last
/// member not.
pub fn long_lists(comparison: &mut Comparison, random: &mut Random) -> Compared {
    for tables in [worked_tables(), large_tables(random, 40, 200, 300)] {
        let last = tables.counts.last;
        for length in LONG {
            let mut members = declared_members(random, tables.counts.entities, length);
            compare_list(comparison, random, &tables, &members, last / 2)?;
            members.push(tables.counts.entities);
            comparison.forward(&tables, &members, last)?;
            comparison.forward(&tables, &vec![1; length], last)?;
        }
    }
    Ok(())
}
