//! Rules got wrong on purpose, to see that the comparison notices each of them.

/// Makes the enum of all wrong rules, and of each kind a list.
macro_rules! wrong {
    (in_logs: $($log:ident)*; at_the_desk: $($desk:ident)*;) => {
        /// `No` is the rules as they are.
        #[derive(Clone, Copy, PartialEq, Debug)]
        pub enum Wrong { No, $($log,)* $($desk,)* }

        /// Those that a log tells.
        pub const IN_LOGS: &[Wrong] = &[$(Wrong::$log,)*];

        /// Those that the desk tells besides. That a list is longer than the reports held isn't among them: it then names one that isn't held, or one
        /// twice. Neither is the order of 24 or 26 and 3: a sender of no session has none that is unfit, and no last time.
        pub const AT_THE_DESK: &[Wrong] = &[$(Wrong::$desk,)*];
    };
}

// The order of equal cells is told by no log: a finished search takes all or none of them.
wrong! {
    in_logs:
        CellEdge DropBeforeAdd StopAtEqual OneBuffer TieToOlder EntryMustBeAbove SearchChangesNothing MarksNotReplaced ListNotCut
        SlotsFalling RemovedSlotKept AnnouncementDoesNotReplace FourCloses FiveKeeps SixKeeps SevenKeeps NineKeeps TenKeeps
        SixBeforeFive SequenceNotChecked PaddingRead Takes4096 NoteLengthNotChecked SecondWindow RefusedWindowStands
        FramesBeforeTheWindow SkippedNotCounted LengthBeforeEnd SixteenBeforeFifteen WeightOf1001 K17 WeightsSwapped
        ScoreWithoutSign
        // frames with times
        Late750 InTime751 RefusedSetsTheTime ReportLeavesTheTime AnnouncementLeavesTheTime UntimedSetsTheTime UntimedForgetsTheTime
        UntimedTestsTheTime OneTimeForAll NoTimeIsZero TimesWrapAround TimeHighByteFirst TwentySixFirst TwentySixLast TwentySixCloses
        TwentySixSetsTheTime RefusalUndoesTheClosing
        // ranges
        LogCountsTo4094
        // payloads with a heat
        Takes90 Refuses85 Refuses89 ReadsANoteOf65 TagFivePassedOver HeatFromTheNote HeatBehindTheNote EditionByTheSize NoHeatReadAs0 HeatLengthNotChecked
        PieceBehindTheHeat HeatHighByteFirst ReadsHeat4096 ReadsAnyHeat
        // heat: what counts, scores and cells
        NoHeatScoredAs0 NoHeatNeverCounts HeatNeedsAWeight HeatNotScored HeatScoredOneHigher HeatAtTheWrongEnd BestWithoutHeat BestOfAnyHeat BestOfHeat4096
        BestHeatByItsCell TieToTheHotter HeldWithoutHeat HeatWeightNotTested HeatWeightOf1001 HeatWeightFirst HeatWeightWithoutSign HeatWeightPassedOver
        PlainQuestionsWeighHeat EitherTagOfAQuestion
        // ties
        TieRulePassedOver TieRulesSwapped FirstComeTakesAnEqual FirstComeShortListToo FirstComeStopsAtEqual FirstFoundStays EntryRankedByNewest
        TieRuleForgottenOnASearch TieRuleForgottenOnSetting OneTieRuleForAll RemovedTieRuleStays
        // tag 23 and refusal 33
        TakesTieRule2 TakesAnyTieRule TieRuleByItsLowestBit ThirtyThreeBeforeThirteen ThirtyThreeBeforeFifteen SixteenBeforeThirtyThree TieRuleRefused15
        TieRuleReadAsK TieRuleNotRead TieRuleBeforeTheHeatWeight TieRuleWithoutHeat FirstComeWhereNoneIsGiven HeatedQuestionsFirstCome
        EitherTagOfATieRule Tag23Unknown;
    at_the_desk:
        // steps and beginnings
        EqualCellsFalling CellsByNumber LeastCellFirst WholeSearchAtOnce ListedByAStepAgain StepListNotCut FinishedSteps
        EmptySlotSteps EmptySlotBegins UnfinishedBegins BeginKeepsTheList BeginKeepsTheMarks StepLooksAtAllSlots BeginLooksAtAllSlots
        // unfit: the window and its rows
        SizeNotChecked EnteredNotChecked HeldOverSize HeldOverEntered GapNotChecked LossNotChecked ShakeNotChecked
        EmptyRowNumberNotChecked EmptyRowValuesNotChecked
        // unfit: a question and its lines
        KNotChecked FirstWeightNotChecked SecondWeightNotChecked NextNotChecked ListLongerThanK NotHeldListed ScoresNotChecked
        RankNotChecked TwiceListed RestNumberNotChecked RestScoreNotChecked EmptySlotNotChecked UnfinishedOnTheBoard
        // ranges: what counts, and the cells
        RangeEndExclusive EitherRangeIsEnough CountedByTheCell UncountedOnAShortList BestOfTheWholeCell CellWithNoValueTaken CellByItsFirstValue
        RangesForgottenOnASearch BeginForgetsTheRanges RemovingLeavesTheRanges RangesSwapped PokeForgetsTheRanges SetTakesLowOverHigh SetTakes4096
        // unfit: ranges, and what they leave out
        LossOrderNotChecked ShakeOrderNotChecked LossEndsNotChecked ShakeEndsNotChecked NextOutsideTheOrder UncountedLineNotChecked
        EmptySlotRangesNotChecked
        // heat: rows, lines and questions
        EditionLostInTheRow EditionLostInTheLine LineWithoutHeatHas0 RowKeepsTheHeatBefore EntersAnyHeat EntersHeat4096 SetTakesAnyHeatWeight
        HeatWeightForgottenOnASearch BeginForgetsTheHeatWeight RemovingLeavesTheHeatWeight PokeForgetsTheHeatWeight PokeForgetsTheHeat
        // unfit: heat
        ThirdWeightNotChecked LineEditionNotChecked LineHeatNotChecked RestHeatNotChecked EmptyRowHeatNotChecked EmptySlotThirdWeightNotChecked
        EmptySlotHeatNotChecked
        // ties
        FirstComeCellsFalling SearchLeavesNewest BeginForgetsTheTieRule StepByNewest RemovingLeavesTheTieRule PokeForgetsTheTieRule UnsaidIsFirstCome
        SaidTieRuleLost SetTakesTieRule2 SetTakesAnyTieRule
        // unfit: ties
        TieRuleNotChecked TieRule2IsFit EmptySlotTieRuleNotChecked RankCheckedByNewest RankCheckedByFirstCome RankOfFirstComeNotChecked
        RankOfEqualsNotChecked
        // unfit: a session
        SessionSizeNotChecked SessionCountNotChecked SessionNextZero SessionNextPastCount HalfClosed
        // unfit: a last time
        UnfitTimeNotChecked UnfitTimeStopsUntimed
        // the order of refusals
        ThirteenFirst TwelveFirst ElevenBeforeTwelve SixteenFirst TwentyFiveFirst TwentyFourFirst TwentyFourLast TwelveBeforeThree
        NineteenBeforeTwelve TwentyFirst TwentySixBeforeTwentyFour ClosingBeforeTwentyFour ThirtyFirst ThirtyBeforeFifteen ThirtyAfterSixteen
        ThirtyThreeFirst ThirtyThreeBeforeThirty ThirtyThreeAfterSixteen
        // frames, payloads, the bench sender, the board
        OpeningKeepsTheBytes StoresPastTheSize ClosingClearsTheBytes LastPacketNotStored NoteByTheBytes NoteDropped EmptyNoteIsNone
        NoteWithItsHead OwnLostHalf RoomOneByteShort RoomOneByteMore Note65 PaddedWithZeros PrioritySix NoteWithTheHeat HeatByTheBytes WritesAnyHeat
        WritesHeatHighByteFirst SessionsGoWithTheWindow RefusedWindowClears
        SlotsStayWithTheWindow RemovingLeavesTheLines SearchesFalling LateClearsTheBytes TimesGoWithTheWindow PokeForgetsTheTime;
}
