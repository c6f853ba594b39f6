//! What each fault of a batch asks for: the version of the file, signed
//! objects, no event before, tables without a row left.

use crate::file_version::FileVersion;
use crate::generate::batch_faults::BatchFault;
use crate::generate::files::any_version;
use crate::random::Random;

impl BatchFault {
    /// The version of the file; either if the fault leaves it open.
    pub fn version(self, random: &mut Random) -> FileVersion {
        match self {
            BatchFault::SignatureInVersion1 => FileVersion::One,
            _ if self.is_signature() || self.signs() => FileVersion::Two,
            _ => any_version(random),
        }
    }

    /// Whether the record at fault is a signature.
    pub fn is_signature(self) -> bool {
        matches!(
            self,
            BatchFault::SignatureInVersion1
                | BatchFault::SignatureZeroField
                | BatchFault::SignatureZeroFieldAndUndeclared
                | BatchFault::SignatureUndeclared
                | BatchFault::SignatureOnSubject
                | BatchFault::SignedTwice
        )
    }

    /// Whether objects are to be signed before the record at fault.
    pub fn signs(self) -> bool {
        matches!(
            self,
            BatchFault::UndeclaredIntoSigned
                | BatchFault::SourceIsTargetSigned
                | BatchFault::SourceSortIntoSigned
                | BatchFault::TargetSortIntoSigned
        ) || self.refusal() == 17
    }

    /// Whether an event is to go out of a signed object before the record at
    /// fault, so that an event into it would make a version.
    pub fn reads_signed(self) -> bool {
        self == BatchFault::IntoSignedAndNoVersionRow
    }

    /// Whether no event is to be accepted before the record at fault.
    pub fn is_at_first_event(self) -> bool {
        self == BatchFault::TimeZeroAtFirst
    }

    /// Whether no entity row is to be left.
    pub fn fills_entities(self) -> bool {
        matches!(
            self,
            BatchFault::NotNextAndNoEntityRow
                | BatchFault::NoEntityRow
                | BatchFault::NoEntityRowAndNoVersionRow
        )
    }

    /// Whether no version row is to be left.
    pub fn fills_versions(self) -> bool {
        matches!(
            self,
            BatchFault::NoEntityRowAndNoVersionRow
                | BatchFault::NoVersionRowForDeclaration
                | BatchFault::NoVersionRowForEvent
                | BatchFault::NoEdgeRowAndNoVersionRow
                | BatchFault::IntoSignedAndNoVersionRow
        )
    }

    /// Whether no edge row is to be left.
    pub fn fills_edges(self) -> bool {
        matches!(
            self,
            BatchFault::NoEdgeRow
                | BatchFault::NoEdgeRowAndNoVersionRow
                | BatchFault::AcceptedFullAndNoEdgeRow
                | BatchFault::IntoSignedAndNoEdgeRow
        )
    }

    /// Whether accepted is to be 1,000,000.
    pub fn fills_accepted(self) -> bool {
        matches!(
            self,
            BatchFault::TimeAndAcceptedFull
                | BatchFault::AcceptedFull
                | BatchFault::AcceptedFullAtRepeat
                | BatchFault::AcceptedFullAndNoEdgeRow
                | BatchFault::IntoSignedAndAcceptedFull
        )
    }
}
