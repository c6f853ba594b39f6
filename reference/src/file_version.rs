//! The version of an event file.

#[derive(Clone, Copy, Debug, PartialEq, Eq)]
pub enum FileVersion {
    One,
    /// It may hold signatures.
    Two,
}

impl FileVersion {
    pub const ALL: [FileVersion; 2] = [FileVersion::One, FileVersion::Two];

    pub fn number(self) -> u16 {
        match self {
            FileVersion::One => 1,
            FileVersion::Two => 2,
        }
    }

    pub fn from_number(number: u16) -> Option<FileVersion> {
        let mut all = FileVersion::ALL.into_iter();
        all.find(|version| version.number() == number)
    }
}
