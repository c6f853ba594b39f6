//! The reasons for which a batch is refused.

/// Why a batch is refused. Where two conditions hold, the name has both, and
/// the first is the one that refuses.
#[derive(Clone, Copy, Debug, PartialEq, Eq)]
pub enum BatchFault {
    EmptyFile,
    ShortHeader,
    Mark,
    HeaderZero,
    MarkAndFileVersion,
    HeaderZeroAndFileVersion,
    FileVersion,
    CutRecord,
    Kind,
    Sort,
    EventZeroField,
    DeclarationZeroField,
    KindAndUndeclared,
    SortAndNotNext,
    SignatureInVersion1,
    SignatureZeroField,
    SignatureZeroFieldAndUndeclared,
    SourceUndeclared,
    TargetUndeclared,
    BothUndeclared,
    UndeclaredToItself,
    UndeclaredIntoSigned,
    SignatureUndeclared,
    NumberDeclaredBefore,
    NumberTooHigh,
    NotNextAndNoEntityRow,
    SourceIsTarget,
    SourceIsTargetOfWrongSort,
    SourceIsTargetSigned,
    SourceSort,
    TargetSort,
    BothSorts,
    WrongSortAndTime,
    SourceSortIntoSigned,
    TargetSortIntoSigned,
    SignatureOnSubject,
    IntoSigned,
    RepeatIntoSigned,
    IntoSignedAndTime,
    IntoSignedAndAcceptedFull,
    IntoSignedAndNoEdgeRow,
    IntoSignedAndNoVersionRow,
    SignedTwice,
    TimeLower,
    TimeZero,
    TimeZeroAtFirst,
    TimeAndAcceptedFull,
    NoEntityRow,
    NoEntityRowAndNoVersionRow,
    NoVersionRowForDeclaration,
    NoVersionRowForEvent,
    NoEdgeRow,
    NoEdgeRowAndNoVersionRow,
    AcceptedFull,
    AcceptedFullAtRepeat,
    AcceptedFullAndNoEdgeRow,
}

impl BatchFault {
    pub const ALL: [BatchFault; 56] = [
        BatchFault::EmptyFile,
        BatchFault::ShortHeader,
        BatchFault::Mark,
        BatchFault::HeaderZero,
        BatchFault::MarkAndFileVersion,
        BatchFault::HeaderZeroAndFileVersion,
        BatchFault::FileVersion,
        BatchFault::CutRecord,
        BatchFault::Kind,
        BatchFault::Sort,
        BatchFault::EventZeroField,
        BatchFault::DeclarationZeroField,
        BatchFault::KindAndUndeclared,
        BatchFault::SortAndNotNext,
        BatchFault::SignatureInVersion1,
        BatchFault::SignatureZeroField,
        BatchFault::SignatureZeroFieldAndUndeclared,
        BatchFault::SourceUndeclared,
        BatchFault::TargetUndeclared,
        BatchFault::BothUndeclared,
        BatchFault::UndeclaredToItself,
        BatchFault::UndeclaredIntoSigned,
        BatchFault::SignatureUndeclared,
        BatchFault::NumberDeclaredBefore,
        BatchFault::NumberTooHigh,
        BatchFault::NotNextAndNoEntityRow,
        BatchFault::SourceIsTarget,
        BatchFault::SourceIsTargetOfWrongSort,
        BatchFault::SourceIsTargetSigned,
        BatchFault::SourceSort,
        BatchFault::TargetSort,
        BatchFault::BothSorts,
        BatchFault::WrongSortAndTime,
        BatchFault::SourceSortIntoSigned,
        BatchFault::TargetSortIntoSigned,
        BatchFault::SignatureOnSubject,
        BatchFault::IntoSigned,
        BatchFault::RepeatIntoSigned,
        BatchFault::IntoSignedAndTime,
        BatchFault::IntoSignedAndAcceptedFull,
        BatchFault::IntoSignedAndNoEdgeRow,
        BatchFault::IntoSignedAndNoVersionRow,
        BatchFault::SignedTwice,
        BatchFault::TimeLower,
        BatchFault::TimeZero,
        BatchFault::TimeZeroAtFirst,
        BatchFault::TimeAndAcceptedFull,
        BatchFault::NoEntityRow,
        BatchFault::NoEntityRowAndNoVersionRow,
        BatchFault::NoVersionRowForDeclaration,
        BatchFault::NoVersionRowForEvent,
        BatchFault::NoEdgeRow,
        BatchFault::NoEdgeRowAndNoVersionRow,
        BatchFault::AcceptedFull,
        BatchFault::AcceptedFullAtRepeat,
        BatchFault::AcceptedFullAndNoEdgeRow,
    ];

    /// The number the batch is refused with.
    pub fn refusal(self) -> u32 {
        match self {
            BatchFault::EmptyFile
            | BatchFault::ShortHeader
            | BatchFault::Mark
            | BatchFault::HeaderZero
            | BatchFault::MarkAndFileVersion
            | BatchFault::HeaderZeroAndFileVersion => 1,
            BatchFault::FileVersion => 2,
            BatchFault::CutRecord => 3,
            BatchFault::Kind
            | BatchFault::Sort
            | BatchFault::EventZeroField
            | BatchFault::DeclarationZeroField
            | BatchFault::KindAndUndeclared
            | BatchFault::SortAndNotNext
            | BatchFault::SignatureInVersion1
            | BatchFault::SignatureZeroField
            | BatchFault::SignatureZeroFieldAndUndeclared => 4,
            BatchFault::SourceUndeclared
            | BatchFault::TargetUndeclared
            | BatchFault::BothUndeclared
            | BatchFault::UndeclaredToItself
            | BatchFault::UndeclaredIntoSigned
            | BatchFault::SignatureUndeclared => 5,
            BatchFault::NumberDeclaredBefore
            | BatchFault::NumberTooHigh
            | BatchFault::NotNextAndNoEntityRow => 6,
            BatchFault::SourceIsTarget
            | BatchFault::SourceIsTargetOfWrongSort
            | BatchFault::SourceIsTargetSigned => 7,
            BatchFault::SourceSort
            | BatchFault::TargetSort
            | BatchFault::BothSorts
            | BatchFault::WrongSortAndTime
            | BatchFault::SourceSortIntoSigned
            | BatchFault::TargetSortIntoSigned
            | BatchFault::SignatureOnSubject => 8,
            BatchFault::TimeLower
            | BatchFault::TimeZero
            | BatchFault::TimeZeroAtFirst
            | BatchFault::TimeAndAcceptedFull => 9,
            BatchFault::NoEntityRow | BatchFault::NoEntityRowAndNoVersionRow => 10,
            BatchFault::NoVersionRowForDeclaration | BatchFault::NoVersionRowForEvent => 11,
            BatchFault::NoEdgeRow | BatchFault::NoEdgeRowAndNoVersionRow => 12,
            BatchFault::AcceptedFull
            | BatchFault::AcceptedFullAtRepeat
            | BatchFault::AcceptedFullAndNoEdgeRow => 13,
            BatchFault::IntoSigned
            | BatchFault::RepeatIntoSigned
            | BatchFault::IntoSignedAndTime
            | BatchFault::IntoSignedAndAcceptedFull
            | BatchFault::IntoSignedAndNoEdgeRow
            | BatchFault::IntoSignedAndNoVersionRow
            | BatchFault::SignedTwice => 17,
        }
    }
}
