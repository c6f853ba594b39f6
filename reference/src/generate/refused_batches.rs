//! Batches refused with a number known beforehand.

use crate::file::HEADER_BYTES;
use crate::file_builder::FileBuilder;
use crate::file_version::FileVersion;
use crate::generate::batch_base::Base;
use crate::generate::batch_faults::BatchFault;
use crate::random::Random;
use crate::record::{encode, Event, Kind, Record, Signature, RECORD_BYTES};
use crate::tables::Tables;

/// A batch and the answer it gets.
#[derive(Clone, Debug)]
pub struct RefusedBatch {
    pub tables: Tables,
    pub file: Vec<u8>,
    pub refusal: u32,
    pub taken: u32,
}

/// A batch refused for this fault: records that are taken in, then the one at
/// fault, then others never reached.
pub fn refused_batch(random: &mut Random, fault: BatchFault) -> RefusedBatch {
    let base = Base::new(random, fault);
    let file = FileBuilder::of_version(base.version).records(&base.records);
    let file = file.raw(&bytes_at_fault(random, &base, fault));
    let is_header_fault = fault.refusal() <= 2;
    RefusedBatch {
        tables: base.tables_for(random, fault),
        file: with_header_fault(random, file.bytes(), fault),
        refusal: fault.refusal(),
        taken: if is_header_fault {
            0
        } else {
            base.records.len() as u32
        },
    }
}

/// The file with its header as the fault asks.
fn with_header_fault(random: &mut Random, mut file: Vec<u8>, fault: BatchFault) -> Vec<u8> {
    let other = random.between(1, 255) as u8;
    let mark = random.below(3);
    let version = no_version(random).to_le_bytes();
    let zero = 5 + random.below(3);
    match fault {
        BatchFault::EmptyFile => file.clear(),
        BatchFault::ShortHeader => file.truncate(1 + random.below(HEADER_BYTES - 1)),
        BatchFault::Mark => file[mark] ^= other,
        BatchFault::HeaderZero => file[zero] = other,
        BatchFault::FileVersion => file[3..5].copy_from_slice(&version),
        BatchFault::MarkAndFileVersion => {
            file[mark] ^= other;
            file[3..5].copy_from_slice(&version);
        }
        BatchFault::HeaderZeroAndFileVersion => {
            file[zero] = other;
            file[3..5].copy_from_slice(&version);
        }
        _ => {}
    }
    file
}

/// A number that is no version of a file.
fn no_version(random: &mut Random) -> u16 {
    let near = [0, 3, 4, 256, 257, 258, 512, 513, u16::MAX];
    match random.below(2) {
        0 => near[random.below(near.len())],
        _ => random.between(3, u32::from(u16::MAX)) as u16,
    }
}

/// The bytes after the good records: the record at fault and those after it.
fn bytes_at_fault(random: &mut Random, base: &Base, fault: BatchFault) -> Vec<u8> {
    let record = record_at_fault(random, base, fault);
    if fault == BatchFault::CutRecord {
        return record[..1 + random.below(RECORD_BYTES - 1)].to_vec();
    }
    let mut bytes = record.to_vec();
    let after = random.below(3 * RECORD_BYTES);
    bytes.extend(random.bytes(after));
    bytes
}

fn record_at_fault(random: &mut Random, base: &Base, fault: BatchFault) -> [u8; RECORD_BYTES] {
    match fault.refusal() {
        _ if fault.is_signature() => signature_at_fault(random, base, fault),
        4 => record_with_field_fault(random, base, fault),
        6 | 10 => declaration_at_fault(base, fault),
        _ if fault == BatchFault::NoVersionRowForDeclaration => declaration_at_fault(base, fault),
        _ => encode(Record::Event(event_at_fault(random, base, fault))),
    }
}

fn record_with_field_fault(
    random: &mut Random,
    base: &Base,
    fault: BatchFault,
) -> [u8; RECORD_BYTES] {
    let other = random.between(1, 255) as u8;
    let event = base.event(Kind::Write, base.subject, base.object);
    let mut event = encode(Record::Event(event));
    let mut declaration = [0; RECORD_BYTES];
    declaration[2..4].copy_from_slice(&base.next().to_le_bytes());
    let event_fields = [1, 6, 7];
    let lowest_kind = match base.version {
        FileVersion::One => 6,
        FileVersion::Two => 7,
    };
    match fault {
        BatchFault::Kind => event[0] = random.between(lowest_kind, 255) as u8,
        BatchFault::KindAndUndeclared => {
            event[0] = lowest_kind as u8;
            event[2] = 255;
        }
        BatchFault::EventZeroField => event[event_fields[random.below(3)]] = other,
        BatchFault::Sort => declaration[1] = random.between(2, 255) as u8,
        BatchFault::SortAndNotNext => {
            declaration[1] = 2;
            declaration[2] = 255;
        }
        _ => declaration[4 + random.below(8)] = other,
    }
    match fault {
        BatchFault::Kind | BatchFault::KindAndUndeclared | BatchFault::EventZeroField => event,
        _ => declaration,
    }
}

fn signature_at_fault(random: &mut Random, base: &Base, fault: BatchFault) -> [u8; RECORD_BYTES] {
    let entity = match fault {
        BatchFault::SignatureUndeclared | BatchFault::SignatureZeroFieldAndUndeclared => {
            base.next() + random.below(3) as u16
        }
        BatchFault::SignatureOnSubject => base.subject,
        _ => [base.object, base.written][random.below(2)],
    };
    let mut bytes = encode(Record::Signature(Signature { entity }));
    let zero_fields = [1, 4, 5, 6, 7, 8, 9, 10, 11];
    if let BatchFault::SignatureZeroField | BatchFault::SignatureZeroFieldAndUndeclared = fault {
        bytes[zero_fields[random.below(9)]] = random.between(1, 255) as u8;
    }
    bytes
}

fn declaration_at_fault(base: &Base, fault: BatchFault) -> [u8; RECORD_BYTES] {
    let number = match fault {
        BatchFault::NumberDeclaredBefore => base.written,
        BatchFault::NumberTooHigh | BatchFault::NotNextAndNoEntityRow => base.next() + 1,
        _ => base.next(),
    };
    let mut bytes = [0; RECORD_BYTES];
    bytes[2..4].copy_from_slice(&number.to_le_bytes());
    bytes
}

fn event_at_fault(random: &mut Random, base: &Base, fault: BatchFault) -> Event {
    let (object, subject, written) = (base.object, base.subject, base.written);
    let next = base.next();
    let event = match fault {
        BatchFault::SourceUndeclared => base.event(Kind::Read, next, subject),
        BatchFault::TargetUndeclared => base.event(Kind::Write, subject, next),
        BatchFault::UndeclaredIntoSigned => base.event(Kind::Write, next, written),
        BatchFault::BothUndeclared => base.event(Kind::Read, next, next + 1),
        BatchFault::UndeclaredToItself => base.event(Kind::Fork, next, next),
        BatchFault::SourceIsTarget => base.event(Kind::Fork, subject, subject),
        BatchFault::SourceIsTargetOfWrongSort | BatchFault::SourceIsTargetSigned => {
            base.event(Kind::Write, object, object)
        }
        BatchFault::SourceSort => base.event(Kind::Fork, object, subject),
        BatchFault::SourceSortIntoSigned => base.event(Kind::Write, object, written),
        BatchFault::TargetSort
        | BatchFault::WrongSortAndTime
        | BatchFault::TargetSortIntoSigned => base.event(Kind::Fork, subject, written),
        BatchFault::BothSorts => base.event(Kind::Write, object, subject),
        BatchFault::AcceptedFullAtRepeat | BatchFault::RepeatIntoSigned => {
            base.event(Kind::Write, subject, written)
        }
        BatchFault::NoVersionRowForEvent | BatchFault::NoEdgeRowAndNoVersionRow => {
            base.event(Kind::Read, object, subject)
        }
        _ => base.event(Kind::Write, subject, object),
    };
    let time = match fault {
        BatchFault::TimeLower | BatchFault::TimeAndAcceptedFull | BatchFault::IntoSignedAndTime => {
            earlier_time(random, base.after.counts.last)
        }
        BatchFault::TimeZero | BatchFault::TimeZeroAtFirst | BatchFault::WrongSortAndTime => 0,
        _ => event.time,
    };
    Event { time, ..event }
}

/// A time above 0 and before the last, often just before it.
fn earlier_time(random: &mut Random, last: u32) -> u32 {
    match random.below(2) {
        0 => last - 1,
        _ => random.between(1, last - 1),
    }
}
