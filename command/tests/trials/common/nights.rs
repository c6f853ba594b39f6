//! The example nights, recorded from real programs.

use super::recording::{Files, Kind, Record, Recording, Sort, HEADER_LENGTH, RECORD_LENGTH};
use std::path::{Path, PathBuf};

pub fn path(night: usize) -> PathBuf {
    let examples = Path::new(env!("CARGO_MANIFEST_DIR")).join("../examples");
    examples.join(format!("night-{night}.slt"))
}

/// The recording at a path.
pub fn read(path: &Path) -> Recording {
    let files = Files::get(path).unwrap_or_else(|| panic!("no {}", path.display()));
    let names = files.names.unwrap();
    let lines = names
        .strip_suffix(b"\n")
        .unwrap()
        .split(|byte| *byte == b'\n');
    let start = String::from_utf8(files.start.unwrap()).unwrap();
    Recording {
        records: files.events[HEADER_LENGTH..]
            .chunks(RECORD_LENGTH)
            .map(decode)
            .collect(),
        lines: lines.map(<[u8]>::to_vec).collect(),
        start: Some(start.trim_end().to_string()),
    }
}

fn decode(record: &[u8]) -> Record {
    let number = |at: usize| u16::from_le_bytes([record[at], record[at + 1]]);
    let kind = match record[0] {
        0 if record[1] == 0 => return Record::Declaration(Sort::Object),
        0 => return Record::Declaration(Sort::Subject),
        1 => Kind::Read,
        2 => Kind::Write,
        3 => Kind::Load,
        4 => Kind::Fork,
        5 => Kind::Execve,
        _ => return Record::Signature(number(2)),
    };
    Record::Event {
        kind,
        source: number(2),
        target: number(4),
        time: u32::from_le_bytes(record[8..].try_into().unwrap()),
    }
}

/// Hundredths since 1970 of a moment in full.
pub fn hundredths(moment: &str) -> i64 {
    let fields: Vec<i64> = moment
        .split(['-', 'T', ':', '.'])
        .map(|field| field.parse().unwrap())
        .collect();
    let [year, month, day, hour, minute, second, part] = fields[..] else {
        panic!("no moment in full: {moment}");
    };
    // Years begin in March, so that a leap day is the last of its year.
    let (year, month) = if month > 2 {
        (year, month - 3)
    } else {
        (year - 1, month + 9)
    };
    let days =
        365 * year + year / 4 - year / 100 + year / 400 + (153 * month + 2) / 5 + day - 1 - 719_468;
    (((days * 24 + hour) * 60 + minute) * 60 + second) * 100 + part
}
