// Deliberately wrong variants. `Sound` has none of them and costs nothing.

pub trait Faults: Copy {
    fn has(self, fault: Fault) -> bool;
}

#[derive(Clone, Copy)]
pub struct Sound;

impl Faults for Sound {
    #[inline(always)]
    fn has(self, _: Fault) -> bool {
        false
    }
}

#[derive(Clone, Copy)]
pub struct Faulty(pub Fault);

impl Faults for Faulty {
    #[inline(always)]
    fn has(self, fault: Fault) -> bool {
        self.0 == fault
    }
}

macro_rules! faults {
    ($($name:ident)*) => {
        #[derive(Clone, Copy, Debug, PartialEq, Eq)]
        pub enum Fault { $($name),* }
        /// Every fault, in the order of its number.
        pub const ALL: &[Fault] = &[$(Fault::$name),*];
    };
}

faults! {
    // Plan bytes.
    CutPlaceIsEnd BoundaryPlaceIsHead HeadRangeFirst Constraints129 LengthBeforeCount
    OwnerBeforeCount CodeBeforeOwner OwnerZero LastCodeUnseen SameVariable
    VariablesBeforeKind LastRowUnseen TailPlaceIsEnd
    // What the version fixes of them.
    VersionZero VersionTwoUnknown VersionThree Values32InOne Values16InTwo
    OneValueMore CodesOfLowHalf FiguresOfLowHalf RowsOf2Bytes RowsOf4Bytes
    RowHalvesSwapped ColumnHalvesSwapped RowHighUnread HighBitsUnseen
    FullRowEmpty Bit31Unused
    // The labels of all variables together.
    Sum511 Sum513 SumUntested SumOfEarlier SumAtHead SumAtEnd SumAfterLength
    // Constraints.
    Wraps LimitExcluded HighestLimitIsNone UnrecordedAllowed UnrecordedSummed
    FirstUnrecordedSummed SecondUnrecordedSummed UnrecordedIsZero ZeroUnrecorded
    UnrecordedAlwaysDeleted NoneRecordedUntied NothingAllowedUntied
    EitherConstraint LastConstraintOnly OneWay LatestLimit HighestLimit
    // Set rules.
    SetInOne SetUnknown KindThree SetLengthFirst FurtherAfterLength Further5
    Further7 FurtherRepeats FurtherFromZero FurtherBeyond
    SetNeighbours SetFromFirst SetFirstTwo SetLastUnjudged SetSkipsEmpty
    SetSumsAll SetsCountedOut
    // The pairs that constraints touch.
    Pairs127 Pairs129 PairsUntested SinglePairsUntested PairsOfSetsUntested
    PairsCountedTwice PairsAtHead PairsAtEnd PairsBeforeLength PairsBeforeBits
    PairsWhileReading
    // Loading and deletions.
    CountAfterDeletions NoDeletionAtLoading AllAtLoading OwnDeletionUntreated
    UnlistedLoses DeletedAtOne Descending NewestFirst
    CountsLowHalf CountsIn5Bits TreatsLowHalf Labels16Apart HighHalfFirst
    // Messages and polls.
    EmptySend SendsOne ControllerNotSent SendsCountedEach SenderUncounted
    ReadGoesFirst CountsLabels FirstPollKept AnswerWithWork AnswerWithOut
    AnswerAnyCount AnswerMoreLists UnreadyDropsPoll UnreadyCounts AnswersAgain
    ReplyCarriesWanted IdlePollCounted PollWhenOpen PollsCountedEach MarksKept
    WantedIsSent ListLeavesPoll EarlierReply LateReply OneMarkLess
    DroppedReplyIdle ClosesWhenIdle PollsWhenClosed EveryTurnCounts
    FirstTurnOnly
    // The round.
    RoundTreatsFirst RoundReadsDown RoundPollsFirst
    // The report and the lent buffers.
    ClearsOneLess ClearsOneMore ClearsAll WritesAllLists NeverBare
    EmptyOnlyWhenClosed DeclineClears BadTurnLeavesLists
    ClearsFormer HalvesSwapped HalvesApart OneCellInTwo TwoCellsInOne
    EmptyHalfKept EmptyByLowHalf EmptyByHighHalf
    // The order of declines and the turn list.
    ListsBeforeWork WorkOneLess FormerWork ListsOneLess FormerLists
    ListsByVersion LongestRefused PlanBeforeLength
    TurnsBeforePlan ControllerSends ReadsItself WorkerPolls TurnPlaceInBytes
    // The sweeps.
    SweepReadsItself SweepsAfterLoading RolesExchanged SupportAgainstSome
    SupportsByConstraint EndsBeforeLast LastUnwritten LastUncounted OneSweepMore
    EndsAtEmptyList AsManyAsLabels LaterFirstCleared LaterSecondCleared
    SweepHalvesSwapped SweepReadsSwapped SweepKeepsHighHalf EndsByLowHalf
    // Their declines.
    FirstLengthOnly SecondLengthOnly SweepListsOneLess SweepListsOneMore
    FormerSweepLists SweepListsByVersion
    PlanBeforeSweepLists DeclinedPlanClears ShortListsClear
    // The part that holds the last sweep.
    OtherParity NoSweepIsSecond PartOneLonger WholePartEmpty OtherLength
    ShorterPart CountCut
}
