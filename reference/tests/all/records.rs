//! Bytes of the header and of records, written out by hand.

use reference::file::{check_header, events_among, record_after};
use reference::record::{decode, encode};
use reference::{
    worked_file, worked_signed_file, Declaration, Event, FileBuilder, FileVersion, Kind, Random,
    Record, Signature, Sort,
};

const ONE: FileVersion = FileVersion::One;
const TWO: FileVersion = FileVersion::Two;

#[test]
fn header_bytes() {
    let header = [0x53, 0x4C, 0x54, 1, 0, 0, 0, 0];
    assert_eq!(FileBuilder::new().bytes(), header);
    assert_eq!(check_header(&header), Ok(ONE));
    let header = [0x53, 0x4C, 0x54, 2, 0, 0, 0, 0];
    assert_eq!(FileBuilder::version_2().bytes(), header);
    assert_eq!(check_header(&header), Ok(TWO));
    assert_eq!(check_header(&header[..7]), Err(1));
    assert_eq!(check_header(b"SLT\x01\x00\x00\x00\x01"), Err(1));
    assert_eq!(check_header(b"SLt\x01\x00\x00\x00\x00"), Err(1));
    assert_eq!(check_header(b"SLT\x00\x00\x00\x00\x00"), Err(2));
    assert_eq!(check_header(b"SLT\x01\x01\x00\x00\x00"), Err(2));
    assert_eq!(check_header(b"SLT\x00\x01\x00\x00\x00"), Err(2));
    assert_eq!(check_header(b"SLT\x03\x00\x00\x00\x00"), Err(2));
    assert_eq!(check_header(b"SLT\x02\x01\x00\x00\x00"), Err(2));
    assert_eq!(check_header(b"SLT\x00\x02\x00\x00\x00"), Err(2));
    assert_eq!(check_header(b"SLT\x03\x00\x01\x00\x00"), Err(1));
}

#[test]
fn declaration_bytes() {
    let bytes = [0, 1, 0x02, 0x01, 0, 0, 0, 0, 0, 0, 0, 0];
    let record = Record::Declaration(Declaration {
        number: 0x0102,
        sort: Sort::Subject,
    });
    assert_eq!(decode(ONE, bytes), Ok(record));
    assert_eq!(decode(TWO, bytes), Ok(record));
    assert_eq!(encode(record), bytes);
}

#[test]
fn event_bytes() {
    let bytes = [5, 0, 0x02, 0x01, 0x04, 0x03, 0, 0, 0x08, 0x07, 0x06, 0x05];
    let record = Record::Event(Event {
        kind: Kind::Execve,
        source: 0x0102,
        target: 0x0304,
        time: 0x05060708,
    });
    assert_eq!(decode(ONE, bytes), Ok(record));
    assert_eq!(decode(TWO, bytes), Ok(record));
    assert_eq!(encode(record), bytes);
}

#[test]
fn signature_bytes() {
    let bytes = [6, 0, 0x02, 0x01, 0, 0, 0, 0, 0, 0, 0, 0];
    let record = Record::Signature(Signature { entity: 0x0102 });
    assert_eq!(decode(TWO, bytes), Ok(record));
    assert_eq!(decode(ONE, bytes), Err(4));
    assert_eq!(encode(record), bytes);
}

#[test]
fn each_byte_of_a_declaration() {
    for (version, most_kind) in [(ONE, 5), (TWO, 6)] {
        for place in 0..12 {
            for value in 1..=255 {
                let mut bytes = [0; 12];
                bytes[place] = value;
                let is_good = match place {
                    0 => value <= most_kind,
                    1 => value == 1,
                    2 | 3 => true,
                    _ => false,
                };
                let is_decoded = decode(version, bytes).is_ok();
                assert_eq!(is_decoded, is_good, "byte {place} is {value}");
            }
        }
    }
}

#[test]
fn each_byte_of_an_event() {
    for kind in 1..=5 {
        for place in 1..12 {
            for value in 1..=255 {
                let mut bytes = [0; 12];
                bytes[0] = kind;
                bytes[place] = value;
                let is_zero_field = [1, 6, 7].contains(&place);
                assert_eq!(decode(ONE, bytes).is_err(), is_zero_field);
                assert_eq!(decode(TWO, bytes), decode(ONE, bytes));
            }
        }
    }
}

#[test]
fn each_byte_of_a_signature() {
    for place in 1..12 {
        for value in 1..=255 {
            let mut bytes = [6, 0, 9, 9, 0, 0, 0, 0, 0, 0, 0, 0];
            bytes[place] = value;
            let is_entity = [2, 3].contains(&place);
            assert_eq!(decode(TWO, bytes).is_ok(), is_entity);
            assert_eq!(decode(ONE, bytes), Err(4));
        }
    }
}

#[test]
fn decoded_records_encode_to_the_same_bytes() {
    let mut random = Random::new(1);
    let mut signatures = 0;
    for _ in 0..20_000 {
        let mut bytes = [0; 12];
        bytes[0] = random.below(8) as u8;
        bytes[1] = random.below(3) as u8;
        bytes[2..4].copy_from_slice(&random.bytes(2));
        if random.one_in(2) {
            bytes[4..6].copy_from_slice(&random.bytes(2));
            bytes[8..12].copy_from_slice(&random.bytes(4));
        }
        for version in FileVersion::ALL {
            match decode(version, bytes) {
                Ok(record) => assert_eq!(encode(record), bytes),
                Err(refusal) => assert_eq!(refusal, 4),
            }
        }
        signatures += u32::from(matches!(decode(TWO, bytes), Ok(Record::Signature(_))));
    }
    assert!(signatures > 300, "{signatures}");
}

#[test]
fn records_of_a_file_in_order() {
    let file = FileBuilder::new().object(0).subject(1).bytes();
    let first = Record::Declaration(Declaration {
        number: 0,
        sort: Sort::Object,
    });
    assert_eq!(record_after(&file, ONE, 0), Some(Ok(first)));
    assert_eq!(record_after(&file, ONE, 2), None);
    for cut in 1..12 {
        let file = &file[..file.len() - cut];
        assert_eq!(record_after(file, ONE, 0), Some(Ok(first)));
        assert_eq!(record_after(file, ONE, 1), Some(Err(3)));
    }
}

#[test]
fn events_among_the_first_records() {
    let file = worked_file();
    let events = [0, 1, 4, 5, 6, 11].map(|records| events_among(&file, records));
    assert_eq!(events, [0, 0, 0, 1, 2, 7]);
    assert_eq!(events_among(&worked_signed_file().bytes(), 12), 7);
    assert_eq!(events_among(&[], 0), 0);
}
