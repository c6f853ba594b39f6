//! Why a call refused.

use std::error::Error;
use std::fmt;

/// Why a call refused: the first of its conditions, in the order that the header gives for the call, that holds.
#[derive(Clone, Copy, Debug, PartialEq, Eq, Hash)]
pub enum Refusal {
    NotEventFile = 1,
    WrongVersion,
    CutShort,
    BadField,
    Undeclared,
    NotNext,
    SourceIsTarget,
    WrongSort,
    TooEarly,
    EntitiesFull,
    VersionsFull,
    EdgesFull,
    AcceptedFull,
    BufferShort,
    OutputShort,
    Unsound,
    Signed,
}

impl Refusal {
    /// All refusals, by number from 1.
    pub const ALL: [Refusal; 17] = [
        Refusal::NotEventFile,
        Refusal::WrongVersion,
        Refusal::CutShort,
        Refusal::BadField,
        Refusal::Undeclared,
        Refusal::NotNext,
        Refusal::SourceIsTarget,
        Refusal::WrongSort,
        Refusal::TooEarly,
        Refusal::EntitiesFull,
        Refusal::VersionsFull,
        Refusal::EdgesFull,
        Refusal::AcceptedFull,
        Refusal::BufferShort,
        Refusal::OutputShort,
        Refusal::Unsound,
        Refusal::Signed,
    ];

    /// The number that the library gives.
    pub fn number(self) -> u32 {
        self as u32
    }

    /// The reason in words.
    pub fn text(self) -> &'static str {
        match self {
            Refusal::NotEventFile => "not an event file",
            Refusal::WrongVersion => "an event file of a version that is neither 1 nor 2",
            Refusal::CutShort => "the file ends inside a record",
            Refusal::BadField => "a field of the record has a value that it may not have",
            Refusal::Undeclared => "an entity is not declared",
            Refusal::NotNext => "the declared number is not the next",
            Refusal::SourceIsTarget => "source equals target",
            Refusal::WrongSort => "source or target of a sort that the kind does not allow, or a signature of a subject",
            Refusal::TooEarly => "time 0, or earlier than the last accepted time",
            Refusal::EntitiesFull => "no entity row left",
            Refusal::VersionsFull => "no version row left",
            Refusal::EdgesFull => "no edge row left",
            Refusal::AcceptedFull => "as many events are accepted as there may be",
            Refusal::BufferShort => "the work buffer is shorter than the versions, or the mark buffer than the entities",
            Refusal::OutputShort => "the output is shorter than the kept log",
            Refusal::Unsound => "the counts and tables are not sound",
            Refusal::Signed => "an event into a signed object, or a second signature of it",
        }
    }

    /// The refusal that an answer of the library has, if it has one.
    pub(crate) fn of_answer(number: u32) -> Result<(), Refusal> {
        match number.checked_sub(1) {
            None => Ok(()),
            Some(place) => Err(Refusal::ALL[place as usize]),
        }
    }
}

impl fmt::Display for Refusal {
    fn fmt(&self, f: &mut fmt::Formatter<'_>) -> fmt::Result {
        write!(f, "{}: {}", self.number(), self.text())
    }
}

impl Error for Refusal {}
