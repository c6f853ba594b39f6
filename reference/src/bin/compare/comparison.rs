//! One call made by the archive and by the reference.

use crate::difference::Difference;
use crate::made::{first_difference, Made};
use crate::tally::Tally;
use reference::archive::Archive;
use reference::{long_batch, Answer, Call, Tables};

/// Longer files go to the reference's batch for long files.
const LONG_FILE: usize = 20_000;

/// Nothing, or the first difference.
pub type Compared<T = ()> = Result<T, Difference>;

#[derive(Default)]
pub struct Comparison {
    archive: Archive,
    pub tally: Tally,
}

impl Comparison {
    /// Begins with the guard values anew, so that a section can be repeated.
    pub fn begin_section(&mut self) {
        self.archive = Archive::new();
    }

    /// Makes the call by both and compares the answers, the counts and every
    /// number and byte lent.
    pub fn call(&mut self, tables: &Tables, call: Call) -> Compared<Made> {
        let made = self.by_archive(tables, &call)?;
        let expected = by_reference(tables, &call);
        if let Some(place) = first_difference(&made, &expected) {
            return Err(Difference::new(tables, &call, place));
        }
        self.tally.note(made.answer);
        Ok(made)
    }

    /// A batch that changes the tables.
    pub fn batch(&mut self, tables: &mut Tables, file: Vec<u8>) -> Compared<Answer> {
        let made = self.call(tables, Call::Batch { file })?;
        *tables = made.tables;
        Ok(made.answer)
    }

    fn by_archive(&mut self, tables: &Tables, call: &Call) -> Compared<Made> {
        let (mut made_tables, mut made_call) = (tables.clone(), call.clone());
        match self.archive.run(&mut made_call, &mut made_tables) {
            Ok(answer) => Ok(Made {
                answer,
                tables: made_tables,
                call: made_call,
            }),
            Err(overrun) => {
                let place = format!("guard values around {}: changed", overrun.0);
                Err(Difference::new(tables, call, place))
            }
        }
    }
}

fn by_reference(tables: &Tables, call: &Call) -> Made {
    let (mut tables, mut call) = (tables.clone(), call.clone());
    let answer = match &call {
        Call::Batch { file } if file.len() > LONG_FILE => {
            Answer::Batch(long_batch(&mut tables, file))
        }
        _ => call.run(&mut tables),
    };
    Made {
        answer,
        tables,
        call,
    }
}
