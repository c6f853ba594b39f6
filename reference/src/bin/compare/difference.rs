//! The first difference found, in words.

use reference::{Call, Tables};
use std::fmt::{self, Debug};

/// Longer files and tables are not printed.
const MOST_PRINTED: usize = 160;

/// What differs, with the tables and the call as they were lent.
pub struct Difference {
    place: String,
    lent: String,
}

impl Difference {
    pub fn new(tables: &Tables, call: &Call, place: String) -> Difference {
        let lent = format!("{}\n{}", tables_text(tables), call_text(call));
        Difference { place, lent }
    }
}

impl fmt::Display for Difference {
    fn fmt(&self, to: &mut fmt::Formatter) -> fmt::Result {
        write!(to, "{}\n{}", self.place, self.lent)
    }
}

pub fn differ<T: PartialEq + Debug>(name: &str, archive: T, reference: T) -> Option<String> {
    let text = || format!("{name}: archive {archive:?}, reference {reference:?}");
    (archive != reference).then(text)
}

pub fn differ_at<T: PartialEq + Debug>(
    name: &str,
    archive: &[T],
    reference: &[T],
) -> Option<String> {
    let mut pairs = archive.iter().zip(reference);
    let place = pairs.position(|(ours, expected)| ours != expected)?;
    let name = format!("{name}[{place}]");
    differ(&name, &archive[place], &reference[place])
}

fn tables_text(tables: &Tables) -> String {
    format!(
        "{:?}\nentities {}\nversions {}\nedges {}",
        tables.counts,
        numbers_text(&tables.entities),
        numbers_text(&tables.versions),
        numbers_text(&tables.edges)
    )
}

fn numbers_text(numbers: &[u32]) -> String {
    if numbers.len() > MOST_PRINTED {
        format!("of length {}", numbers.len())
    } else {
        format!("{numbers:?}")
    }
}

fn call_text(call: &Call) -> String {
    match call {
        Call::Batch { file } => format!("batch of {}", file_text(file)),
        Call::Backward {
            entity,
            time,
            work,
            marks,
        } => trace_text("backward", &entity.to_string(), *time, work, marks),
        Call::Forward {
            members,
            time,
            work,
            marks,
        } => {
            let asked = format!("members {}", numbers_text(members));
            trace_text("forward", &asked, *time, work, marks)
        }
        Call::KeptLog { out } => format!("kept log into {} bytes", out.len()),
    }
}

fn file_text(file: &[u8]) -> String {
    if file.len() > MOST_PRINTED {
        return format!("{} bytes", file.len());
    }
    let bytes: Vec<String> = file.iter().map(|byte| format!("{byte:02X}")).collect();
    bytes.join(" ")
}

fn trace_text(name: &str, asked: &str, time: u32, work: &[u8], marks: &[u8]) -> String {
    let (work, marks) = (work.len(), marks.len());
    format!("{name} from {asked} at {time}, work of {work} bytes, marks of {marks}")
}
