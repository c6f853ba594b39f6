//! The clauses of sound tables.

/// What sound tables must hold. Each clause is named by what holds.
#[derive(Clone, Copy, Debug, PartialEq, Eq)]
pub enum Clause {
    EntitiesWithinCapacity,
    VersionsWithinCapacity,
    EdgesWithinCapacity,
    EdgesAtMostAccepted,
    AcceptedAtMostMillion,
    SortIsZeroToTwo,
    LatestExists,
    LatestIsOfThatEntity,
    VersionEntityExists,
    StartAtMostEnd,
    EndAtMostLast,
    NoPreviousWhereStartIsZero,
    PreviousWhereStartIsNotZero,
    PreviousHasLowerNumber,
    PreviousIsOfSameEntity,
    PreviousStartsNoLater,
    FromExists,
    ToExists,
    EdgeJoinsTwoEntities,
    KindIsOneToFive,
    SourceHasSortOfKind,
    TargetHasSortOfKind,
    EdgeTimeAtLeastOne,
    EdgeTimeAtMostLast,
    EdgeTimesDoNotFall,
    EdgeCountAtLeastOne,
    EdgeLastAtLeastTime,
    EdgeLastAtMostLast,
    EdgeCountsSumToAccepted,
}

impl Clause {
    pub const ALL: [Clause; 29] = [
        Clause::EntitiesWithinCapacity,
        Clause::VersionsWithinCapacity,
        Clause::EdgesWithinCapacity,
        Clause::EdgesAtMostAccepted,
        Clause::AcceptedAtMostMillion,
        Clause::SortIsZeroToTwo,
        Clause::LatestExists,
        Clause::LatestIsOfThatEntity,
        Clause::VersionEntityExists,
        Clause::StartAtMostEnd,
        Clause::EndAtMostLast,
        Clause::NoPreviousWhereStartIsZero,
        Clause::PreviousWhereStartIsNotZero,
        Clause::PreviousHasLowerNumber,
        Clause::PreviousIsOfSameEntity,
        Clause::PreviousStartsNoLater,
        Clause::FromExists,
        Clause::ToExists,
        Clause::EdgeJoinsTwoEntities,
        Clause::KindIsOneToFive,
        Clause::SourceHasSortOfKind,
        Clause::TargetHasSortOfKind,
        Clause::EdgeTimeAtLeastOne,
        Clause::EdgeTimeAtMostLast,
        Clause::EdgeTimesDoNotFall,
        Clause::EdgeCountAtLeastOne,
        Clause::EdgeLastAtLeastTime,
        Clause::EdgeLastAtMostLast,
        Clause::EdgeCountsSumToAccepted,
    ];

    /// Whether the others imply it: where it does not hold, another one does
    /// not hold either.
    pub fn follows_from_others(self) -> bool {
        matches!(
            self,
            Clause::EdgesAtMostAccepted | Clause::EdgeTimeAtMostLast
        )
    }
}
