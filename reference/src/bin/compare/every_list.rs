//! Every short list of events, and of events and signatures, between three
//! entities.

use crate::comparison::{Compared, Comparison};
use crate::every_file::fresh;
use crate::round_trip::taken_in_again;
use reference::generate::any_version;
use reference::{Call, Declaration, Event, FileBuilder, FileVersion, Kind, Random, Record};
use reference::{Signature, Sort, TableLengths};

/// Events of a list without signatures, at times of one choice or of each.
const EVENTS: Lengths = Lengths { any: 5, each: 4 };
/// Events and signatures of a list with both, likewise.
const EVENTS_AND_SIGNATURES: Lengths = Lengths { any: 4, each: 3 };

/// The records of lists with any one choice of ticks for their events, and of
/// those with each choice.
#[derive(Clone, Copy)]
struct Lengths {
    any: u32,
    each: u32,
}

const OBJECT: Sort = Sort::Object;
const SUBJECT: Sort = Sort::Subject;

/// All lists of five events, and all of four in each choice of ticks, with all
/// traces.
pub fn every_event_list(comparison: &mut Comparison, random: &mut Random) -> Compared {
    for sorts in [
        [OBJECT, SUBJECT, OBJECT],
        [OBJECT, SUBJECT, SUBJECT],
        [SUBJECT, SUBJECT, SUBJECT],
    ] {
        every_list(comparison, random, sorts, &every_way(sorts), EVENTS)?;
    }
    Ok(())
}

/// All lists of four events and signatures, and all of three in each choice of
/// ticks, with all traces.
pub fn every_signed_list(comparison: &mut Comparison, random: &mut Random) -> Compared {
    for sorts in [[OBJECT, SUBJECT, OBJECT], [OBJECT, SUBJECT, SUBJECT]] {
        let signatures = [0, 1, 2].map(|entity| Record::Signature(Signature { entity }));
        let records = [every_way(sorts), signatures.to_vec()].concat();
        every_list(comparison, random, sorts, &records, EVENTS_AND_SIGNATURES)?;
    }
    Ok(())
}

/// All lists of so many of the records, each of them as often as may be.
fn every_list(
    comparison: &mut Comparison,
    random: &mut Random,
    sorts: [Sort; 3],
    records: &[Record],
    lengths: Lengths,
) -> Compared {
    for number in 0..records.len().pow(lengths.any) {
        let ticks = random.below(1 << (lengths.any - 1)) as u32;
        let list = list_with_number(records, number, lengths.any, ticks);
        compare_list(comparison, random, sorts, &list)?;
    }
    for number in 0..records.len().pow(lengths.each) {
        for ticks in 0..1 << (lengths.each - 1) {
            let list = list_with_number(records, number, lengths.each, ticks);
            compare_list(comparison, random, sorts, &list)?;
        }
    }
    Ok(())
}

/// A read, write, fork or execve that suits the sorts, at time 0.
fn every_way(sorts: [Sort; 3]) -> Vec<Record> {
    let mut ways = Vec::new();
    for kind in [Kind::Read, Kind::Write, Kind::Fork, Kind::Execve] {
        for ends in 0..9 {
            let (source, target) = (ends / 3, ends % 3);
            if source != target && kind.sorts() == (sorts[source], sorts[target]) {
                ways.push(Record::Event(Event {
                    kind,
                    source: source as u16,
                    target: target as u16,
                    time: 0,
                }));
            }
        }
    }
    ways
}

/// The list of records with this number. Its first place has time 1; a bit of
/// `ticks` is 1 where the next place has the same time, else its time is one
/// more.
fn list_with_number(records: &[Record], number: usize, length: u32, ticks: u32) -> Vec<Record> {
    let record = |place: u32| records[number / records.len().pow(place) % records.len()];
    let time_at = |place: u32| 1 + place - (ticks & ((1 << place) - 1)).count_ones();
    let at_time = |place: u32| match record(place) {
        Record::Event(event) => {
            let time = time_at(place);
            Record::Event(Event { time, ..event })
        }
        other => other,
    };
    (0..length).map(at_time).collect()
}

/// Takes the records in by one batch or by two.
fn compare_list(
    comparison: &mut Comparison,
    random: &mut Random,
    sorts: [Sort; 3],
    list: &[Record],
) -> Compared {
    let mut records = declarations(sorts);
    records.extend(list);
    let first = match random.below(3) {
        0 => random.below(records.len()),
        _ => records.len(),
    };
    let version = version_of(random, list);
    let mut trail = fresh(random, TableLengths::of_rows(3, 8, 5));
    for part in [&records[..first], &records[first..]] {
        if !part.is_empty() {
            let file = FileBuilder::of_version(version).records(part).bytes();
            trail.call(comparison, Call::Batch { file })?;
        }
    }
    trail.all_traces(comparison)?;
    trail.small_lists(comparison)?;
    taken_in_again(comparison, &trail.tables, trail.tables.view().lengths())
}

/// Either version; 2 if there is a signature.
fn version_of(random: &mut Random, list: &[Record]) -> FileVersion {
    let is_signature = |record: &Record| matches!(record, Record::Signature(_));
    match list.iter().any(is_signature) {
        true => FileVersion::Two,
        false => any_version(random),
    }
}

fn declarations(sorts: [Sort; 3]) -> Vec<Record> {
    let numbered = (0..).zip(sorts);
    let declaration = |(number, sort)| Record::Declaration(Declaration { number, sort });
    numbered.map(declaration).collect()
}
