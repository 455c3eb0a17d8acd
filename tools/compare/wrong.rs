//! Deliberately wrong variants of the second program, each with one rule altered. A run against any of them has to find a
//! difference: a comparison that could not fail would show nothing.

#[path = "wrong_live.rs"]
pub mod live;
#[path = "wrong_reading.rs"]
pub mod reading;
#[path = "wrong_round.rs"]
pub mod round;
#[path = "wrong_row.rs"]
pub mod row;
#[path = "wrong_text.rs"]
pub mod text;
#[path = "wrong_volts.rs"]
pub mod volts;
#[path = "wrong_writing.rs"]
pub mod writing;

/// The cases that a variant is to be caught by.
#[derive(Clone, Copy, PartialEq, Debug)]
pub enum Part {
    All,
    Small,
    Volts,
    Writing,
    Reading,
    Live,
    Row,
    Text,
}

macro_rules! variants {
    ($($part:ident { $($name:ident $text:literal)* })*) => {
        #[derive(Clone, Copy, PartialEq, Debug)]
        pub enum Wrong { Nothing, Unaltered, $($($name),*),* }

        /// Each variant with the cases that are to catch it, under the words that the command line takes.
        pub const ALL: &[(Wrong, Part, &str)] = &[$($((Wrong::$name, Part::$part, $text)),*),*];
    };
}

variants! {
    Small {
        CheckNotInverted "check-not-inverted"
        EofEdge "eof-ends-at-281"
        PassiveShortIsOne "passive-short-is-1"
        ShortOf80 "short-of-80-sent"
    }

    Volts {
        Unrounded "difference-not-rounded"
        MovedLevels "levels-moved-by-the-offset"
        OffsetAdded "offset-added"
        AboveActive "active-above-its-level-only"
        BelowPassive "passive-below-its-level-only"
        BetweenPassive "between-is-passive"
        StartsActive "line-starts-active"
        Flushed "small-numbers-taken-for-0"
        FirstZeroDropped "first-interval-of-0-dropped"
        OverflowUsable "overflowing-difference-usable"
        LongestRefused "16384-samples-refused"
        WordsAsSamples "as-many-words-as-samples-enough"
        GateBeforeLength "34-before-33"
        WordsBeforeGate "32-before-34"
        SampleBeforeWords "35-before-32"
        TraceRefusalWrites "refused-trace-writes"
        TracePastCleared "word-past-the-intervals-cleared"
    }

    Writing {
        NormalizationExchanged "normalization-bits-exchanged"
        EodLong "eod-sent-long"
        ResponseCounted "ignored-response-counted"
        ResponseCheckOverBoth "response-check-over-both-parts"
        LowBitFirst "low-bit-first"
        ClosingLeftOut "closing-end-left-out"
        HundredEnough "100-words-enough"
        ElevenRefused "11-bytes-refused"
        MessageBeforeClock "37-before-36"
        WordsBeforeMessage "32-before-37"
        WriteRefusalWrites "refused-message-writes"
        WritePastCleared "word-past-the-frame-cleared"
    }

    Reading {
        NoiseEdge "34-read-as-a-bit"
        ShortEdge "97-read-as-short"
        LongEdge "164-read-as-long"
        SofEdge "240-read-as-eod-or-sof"
        StuckEdge "1000000-read-as-break"
        ClosingSwallowed "closing-end-swallowed"
        QuietAtOpening "quiet-goes-on-at-the-opening"
        UnfinishedAtPosition "unfinished-goes-on-at-the-position"
        JudgedBeforeOpening "noise-judged-before-the-opening"
        OddLooksBack "odd-position-looks-back"
        FewBeforeSplit "17-before-16"
        ResidueZero "residue-against-0"
        NormalizationCounted "normalization-bit-counted-as-data"
        PlainChecked "plain-response-with-a-check"
        LateSofAtNormalization "sof-at-the-normalization-bit-is-12"
        KindsExchanged "response-kinds-exchanged"
        EndIsPast "position-at-the-end-refused"
        LentBeforePosition "32-before-31"
        ElevenBytesEnough "11-lent-bytes-enough"
        ReadPastCleared "byte-past-the-frame-cleared"
        FaultWrites "fault-writes"
    }

    Live {
        LiveClosingSwallowed "live-closing-end-swallowed"
        LiveFaultyEndSwallowed "live-end-at-fault-does-not-open"
        LiveActiveAsPassive "live-level-does-not-alternate"
        LivePlacesIn32 "live-places-in-32-bits"
        LiveFrameAtClosing "live-frame-at-its-closing"
        LiveFaultAtOpening "live-fault-at-its-opening"
        LiveUndecidedIsQuiet "live-undecided-told-as-quiet"
        LiveBytesEarly "live-bytes-written-before-the-closing"
        LivePastCleared "live-byte-past-the-frame-cleared"
        LiveFaultWrites "live-fault-writes"
        LiveElevenEnough "live-11-lent-bytes-enough"
        LiveLentAtClosing "live-32-judged-at-the-closing-alone"
        LiveLentFirst "live-32-before-51"
        LiveLastRefused "live-last-place-refused"
        LivePastTaken "live-interval-past-the-last-heard"
        LiveRefusedHeard "live-refused-interval-heard"
        LiveRefusedForgets "live-refused-interval-ends-the-frame"
        LiveRefusalWrites "live-refusal-writes"
        LiveQuietForUnfinished "live-quiet-for-unfinished"
        LiveUnfinishedAtOnce "live-unfinished-with-the-opening-last"
        LiveQuietAtNext "live-quiet-goes-on-at-the-next-interval"
        LiveAskingForgets "live-asking-ends-the-frame"
    }

    Row {
        RowOf32Refused "row-of-32-refused"
        RowOf33Taken "row-of-33-taken"
        EmptyForgiven "39-for-holders-alone"
        TwelveSound "stored-length-of-12-taken"
        UnsoundBeforeSize "39-before-38"
        PlaceBeforeUnsound "40-before-39"
        OfferedBeforePlace "37-and-36-before-40"
        HeldBeforeMessage "41-before-37"
        PlacesFromOne "places-counted-from-1"
        ElevenNotLoaded "11-bytes-not-loaded"
        LoadClearsRest "loading-clears-the-bytes-past-the-message"
        LoadedBackwards "last-byte-stored-first"
        LoadedOver "loaded-over-a-message"
        RefusedLoadStores "refused-loading-stores"
        WithdrawClears "withdrawing-clears-the-bytes"
        NothingWithdrawn "nothing-to-withdraw-is-done"
        HolderKeepsClock "holder-keeps-its-clock"
        SofNotSet "clock-set-without-its-sof"
        ClockEmpties "setting-a-clock-empties"
        LoserSendsItsByte "loser-sends-out-its-byte"
        LostAByteLate "lost-at-the-end-of-the-byte"
        ShorterAhead "shorter-frame-ahead"
        FinishedThrough "finished-station-let-through"
        FinishedLosesAtLast "finished-station-loses-at-its-last-bit"
        BitsFromZero "bits-counted-from-0"
        CheckNotSent "check-byte-not-sent"
        LongestAndShortestExchanged "longest-and-shortest-exchanged"
        PassiveLongest "passive-bit-as-the-longest"
        ActiveShortest "active-bit-as-the-shortest"
        SofShortest "sof-as-the-shortest"
        IdleShapesSof "idle-clock-shapes-the-sof"
        IdleShapesBits "idle-clock-shapes-the-bits"
        LosersShape "losers-clock-shapes-the-bits"
        FirstShapes "first-clock-shapes-the-bits"
        ClosingCounted "closing-300-counted"
        OpeningNotCounted "opening-300-not-counted"
        OneOfEqual "one-of-equal-messages-goes-out"
        LosersEmptied "losers-emptied"
        ThroughClears "going-through-clears-the-bytes"
        EmptyThrough "empty-place-told-through"
        RoundPastCleared "word-past-the-round-cleared"
        RoundHundredEnough "round-with-100-words"
        RoundWordsFirst "32-before-39"
        NobodyBeforeWords "42-before-32"
        RefusedRoundWrites "refused-round-writes"
        RefusedRoundEmpties "refused-round-empties"
    }

    Text {
        LeadingZeroTaken "leading-zero-taken"
        PlusTaken "plus-taken"
        ReturnTaken "carriage-return-taken"
        WidthWraps "4294967296-taken-for-0"
        UpperWordTaken "upper-case-iv-taken"
        LabelOf17Taken "label-of-17-taken"
        BlankLineSkipped "blank-line-skipped"
        OpenLineTaken "last-line-without-newline-taken"
        TooManyTaken "16385-lines-taken"
        LinesFromZero "lines-counted-from-0"
        EmptyIsLineZero "empty-input-is-line-0"
        LastLineNamed "last-line-named"
        RefusedAfterHeader "refusal-after-a-header"
        RefusedWordsLaid "words-from-a-bad-input"
        HeaderLeftOut "header-left-out"
        LabelsExchanged "labels-exchanged"
        FrameAtClosing "frame-at-its-closing"
        FaultAtOpening "fault-at-its-opening"
        QuietAtTheEnd "quiet-at-the-end"
        UnfinishedLineAtPosition "unfinished-at-the-position"
        LowerHex "lower-case-hex"
        MainWithoutCheck "main-part-without-its-check"
        MarksExchanged "response-marks-exchanged"
        MarksLeftOut "response-marks-left-out"
        NothingForNone "nothing-where-a-part-is-none"
        LastAnswerLeftOut "last-answer-left-out"
        LastNewlineLeftOut "last-newline-left-out"
        WordLessEnough "16383-words-enough"
        ByteLessEnough "442462-bytes-enough"
        ShortLentWritten "too-little-lent-is-written"
        WordPastCleared "word-past-the-widths-cleared"
        BytePastCleared "byte-past-the-text-cleared"
    }
}

/// The variants that break what document 01 says of rounds and of waiting, so that it can be seen without the library.
pub const WATCHED: &[Wrong] = &[
    Wrong::LoserSendsItsByte,
    Wrong::LostAByteLate,
    Wrong::ShorterAhead,
    Wrong::FinishedThrough,
    Wrong::FinishedLosesAtLast,
    Wrong::BitsFromZero,
    Wrong::CheckNotSent,
    Wrong::LongestAndShortestExchanged,
    Wrong::ClosingCounted,
    Wrong::OpeningNotCounted,
    Wrong::OneOfEqual,
    Wrong::LosersEmptied,
    Wrong::EmptyThrough,
];

/// The variant of a name. `unaltered` goes the variants' ways, with no rule altered.
pub fn named(name: &str) -> Option<(Wrong, Part)> {
    if name == "unaltered" {
        return Some((Wrong::Unaltered, Part::All));
    }
    let found = ALL.iter().find(|(_, _, text)| *text == name);
    found.map(|(wrong, part, _)| (*wrong, *part))
}
