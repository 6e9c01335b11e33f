//! Wrong readings that can be switched on, one at a time, to see whether a
//! comparison notices them. All are off unless `with_mistake` is running.

use std::cell::Cell;

use crate::format::Format;

#[derive(Debug, Clone, Copy, PartialEq, Eq, Hash)]
pub enum Mistake {
    /// A symmetric table with a yes at 0 sets the pad bits.
    TableFillsPads,
    /// Counted, a run of ones over pads is worth a whole word of rows in that segment.
    RunCountsPads,
    /// Clean counts go up to one over `MOST_CLEAN`, which spills into the dirty count.
    RunCarries,
    /// Room is judged by twice the named words.
    RoomByBound,
    /// An nth too large is answered with the highest row of all.
    NthPastGivesLast,
    /// A threshold asks for more than T.
    ThresholdAboveT,
    /// A bitmap named twice counts once.
    RepeatCountsOnce,
    /// Piece ends at one segment are counted once for each bitmap.
    StretchPerBitmap,
    /// AND-NOT takes its operands the other way round.
    AndNotSwapped,
    /// The tally takes every bit of the last segment for a row.
    TallyCountsPads,
    /// An answer segment under a dirty word stays a dirty word, even if clean.
    CleanKeptDirty,
    /// A full marker takes one dirty word over `MOST_DIRTY`.
    FullMarkerOneMore,
    /// NOT sets the pad bits.
    NotFillsPads,
    /// Words after the last body are let through.
    FinalEndUnchecked,
    /// At a marker, refusal 6 is tried before 5.
    SixBeforeFive,
    /// In a contents entry, the length is tried before the start.
    LengthBeforeStart,
    /// Missing segments are reported at the body's last word.
    MissingAtLastWord,
    /// Row R is answered "not set".
    RowPastEndFalse,
    /// A table entry of 2 passes for yes.
    TableTwoIsYes,
    /// T above the list's length has an empty answer.
    HighThresholdEmpty,
    /// A marker with both counts zero is refused (as a 6 at the marker).
    IdleMarkerRefused,
    /// Refusal 9 tells the buffer's length.
    NoRoomTellsBuffer,
    /// A sum adds each digit by itself.
    CarryDropped,
    /// A slice may hold rows that don't exist.
    StraysLetThrough,
    /// A value looks at its own row only, so never refuses with 11.
    ValueSkipsStrays,
    /// Refusal 11 tells the slice's place in its list.
    StrayTellsPlace,
    /// Refusal 11 tells the highest row that doesn't exist.
    StrayTellsHighestRow,
    /// The second column's strays are told before the first's.
    SecondColumnFirst,
    /// The slice under the sum's top one also holds rows that only one column has.
    SumSliceUnmasked,
    /// A sum has no empty slices.
    EmptySlicesLeftOut,
    /// A row exists in the sum if one column or both have it.
    SumExistsInEither,
    /// A sum has as many slices as the wider column.
    TopSliceLeftOut,
    /// At a value, signed or not, refusal 11 comes before 8 for the row.
    StrayBeforeRow,
    /// Of two columns, the first one's 11 comes before 8 for the second list.
    StrayBeforeSecondList,
    /// Refusal 9 comes before 11.
    NoRoomBeforeStray,
    /// The value at a row that doesn't exist is 0.
    MissingRowIsZero,
    /// A sum takes lists of `MOST_SUMMED` numbers and one more.
    SumTakesOneMore,
    /// A value takes lists of under `MOST_VALUED` numbers only.
    ValueTakesOneLess,
    /// Refusal 11 tells a column's lowest stray of all, and the slice that has it.
    StrayLowestOfAll,
    /// Of two columns, each is held against the rows that both have.
    StrayAgainstBoth,
    /// Refusal 9 of an index made of two columns counts its bodies alone, without head and contents.
    NeedWithoutContents,
    /// A sum's numbers are cut to a word's bits.
    SumCutAtWord,
    /// The last slice of a list of `MOST_VALUED` numbers isn't searched for strays.
    LastSliceUnsearched,
    /// The words behind a marker's last whole block of 64 dirty ones aren't counted.
    WordsPastBlocksMissed,
    /// Of a marker's whole blocks only the first is counted.
    LaterBlocksMissed,
    /// A bit column of a block with its 16 bits set counts 0: the last carry is lost.
    FullColumnsMissed,
    /// Nth passes a block of 512 dirty words without taking its set rows off.
    PassedBlockKept,
    /// An nth row in a later block of 512 is told as if it lay in its marker's first.
    NthInFirstBlock,
    /// A run of ones over pads is refused with 7, as it once was.
    OnesRunRefused,
    /// A run of ones over the last segment may go one segment further.
    OnesRunPastEnd,
    /// A dirty word may have pad bits, which are no rows.
    DirtyPadPasses,
    /// A last plain word of all ones passes, pad bits and all.
    PlainOnesPass,
    /// A run of ones over pads is two pieces, the last segment by itself.
    RunSplitAtPads,
    /// A pad under a run of ones is a row that is set.
    RowInPads,
    /// Nth goes on into the pads under a run of ones.
    NthInPads,
    /// Plain words have the pad bits that a run of ones spells.
    ExpandKeepsPads,
    /// A full last segment with pads is written as a dirty word, as it once was.
    FullTailDirty,
    /// The same, in a sum's bodies alone.
    SumFullTailDirty,
    /// A full last segment with pads gets a marker of its own, even behind a run of ones.
    FullTailOwnRun,
    /// NOT of a run of ones over pads turns the rows and leaves the pad bits set.
    NotKeepsPads,
    /// NOT of a run of ones over pads leaves the whole last segment set.
    NotKeepsRun,
    /// Two bitmaps' pad bits are answered like rows, set under a run of ones.
    PairKeepsPads,
    /// A table with a yes at 0 sets the pad bits, if a run of ones lies over them.
    TableFillsUnderRun,
    /// A table is asked of the pad bits too, by how many runs of ones lie over them.
    TableKeepsPads,
    /// The tally counts the pads under runs of ones.
    TallyCountsRunPads,
    /// A pad under a slice's run of ones is a stray row where existence has a dirty word.
    PadIsStray,
    /// The value at a pad, signed or not, is told, if existence has a run of ones over it.
    ValueInPads,
    /// A sum's bodies have the pad bits that come of adding the runs over them.
    SumKeepsPads,
    /// Every fill is read as ones: its value bit isn't looked at.
    FillsReadAsOnes,
    /// A fill's count is read from its low 16 bits, as in a marker.
    FillCountShort,
    /// A fill's value bit is counted among its segments.
    FillValueCounted,
    /// Read, a literal has its first row at bit 30.
    LiteralHighestFirst,
    /// A fill of no segments is let through.
    EmptyFillPasses,
    /// A fill of no segments is refused with 6.
    EmptyFillIsSix,
    /// A fill of no segments behind the last segment is refused with 6.
    TenAfterSix,
    /// A fill of no segments is told only of a body without other faults.
    TenAfterAll,
    /// A fill may pass the last segment; what is past it is no row.
    FillPastEndPasses,
    /// Literals behind the last segment are let through.
    LiteralPastEndPasses,
    /// A WAH word that passes the segments left is told at the body's end.
    PastEndAtBodyEnd,
    /// A fill of ones over pads is refused with 7.
    OnesFillRefused,
    /// A literal may have pad bits, which are no rows.
    LiteralPadPasses,
    /// A literal of all ones may have pad bits, as a fill may cover them.
    LiteralOnesPass,
    /// Checked, a last WAH segment has R % 32 rows instead of R % 31.
    LastSegmentBy32,
    /// Checked, a WAH body has a segment for every 32 rows.
    SegmentsBy32,
    /// A WAH body may end early; the rows that are missing aren't set.
    EarlyEndPasses,
    /// A WAH body's early end is told at its last word.
    EarlyEndAtLastWord,
    /// Fills of one value side by side are one piece.
    FillsJoined,
    /// A row of a WAH body is looked for in segment r / 32, at bit r % 32.
    RowBy32,
    /// Nth tells a row of a WAH body as if its segments had 32 rows.
    NthBy32,
    /// Counted, a fill of ones is worth 32 rows a segment.
    FillCounts32,
    /// Plain words read from a WAH body have 31 rows each.
    ExpandBySegments,
    /// Plain words that a WAH body is written from have 31 rows each.
    CompressBySegments,
    /// Where WAH is written, the last plain word has R % 31 rows.
    PlainPadsBy31,
    /// `RowInPads` in WAH alone.
    WahRowInPads,
    /// `RunCountsPads` in WAH alone.
    WahCountsPads,
    /// `NthInPads` in WAH alone.
    WahNthInPads,
    /// `ExpandKeepsPads` in WAH alone.
    WahExpandKeepsPads,
    /// `NotFillsPads` in WAH alone.
    WahNotFillsPads,
    /// `PairKeepsPads` in WAH alone.
    WahPairKeepsPads,
    /// `TableFillsPads` in WAH alone.
    WahTableFillsPads,
    /// `TallyCountsPads` in WAH alone.
    WahTallyCountsPads,
    /// `SumKeepsPads` in WAH alone.
    WahSumKeepsPads,
    /// An answer segment under a literal stays a literal, even if clean.
    CleanKeptLiteral,
    /// A lone clean segment is written as a fill.
    LoneCleanAsFill,
    /// A run of four segments or more is written as two fills.
    RunInTwoFills,
    /// A run of three segments or more is written as a literal and a fill.
    LoneLeftBehind,
    /// A run of two segments is written as two literals.
    PairAsLiterals,
    /// A fill has `MOST_CLEAN` segments at most.
    FillCutAtMarkerLimit,
    /// Two segments of ones are written as a fill of zeros.
    OnesPairIsZeros,
    /// A lone full last segment is written with its pad bits set.
    FullTailPadsWritten,
    /// A full last WAH segment with pads is a literal even behind ones.
    FullTailLiteral,
    /// Word 0 of 3 stands for WAH bodies.
    KindThreeIsWah,
    /// Word 0 of 2 is refused with 2.
    KindTwoRefused,
    /// The answer of a WAH index is written in EWAH.
    AnswerInEwah,
    /// Word 0 of a WAH sum is that of EWAH.
    SumKindOne,
    /// The bodies of a WAH sum are written in EWAH.
    SumBodiesInEwah,
    /// Rewriting leaves out a last segment that isn't whole.
    RewriteLosesTail,
    /// Rewriting takes the pads under a run of ones for rows.
    RewriteKeepsPads,
    /// Rewriting takes each segment over into one of the other width.
    RewriteByWords,
    /// Rewriting to the same format copies the words as they are.
    SameFormatCopied,
    /// Rewriting a body also asks for room for the words read.
    RewriteRoomByOld,
    /// Rewriting a bitmap checks no other body.
    RewriteChecksOwnBody,
    /// A rewritten index keeps its word 0.
    RewrittenKindKept,
    /// A rewritten index keeps its contents, starts and lengths.
    RewrittenContentsKept,
    /// Refusal 9 of a rewritten index counts its bodies alone.
    RewriteNeedsBodiesOnly,
    /// Asked at a row, runs of one value side by side are one piece.
    RowJoinsRuns,
    /// Asked at a row, fills of one value side by side are one piece.
    RowJoinsFills,
    /// In EWAH, the last row of a piece over pads is told as the last pad.
    LastRowInPads,
    /// The same in WAH.
    WahLastRowInPads,
    /// In EWAH, a piece's first and last segment are told for its first and last row.
    ExtentInSegments,
    /// The same in WAH.
    WahExtentInSegments,
    /// The first and last row of a WAH piece are told as if its segments had 32 rows.
    ExtentBy32,
    /// At a dirty word the rows of its marker's clean run are told, if it has one.
    DirtyTellsRun,
    /// At a dirty word the rows of the next marker's clean run are told, if there is one.
    DirtyTellsNextRun,
    /// In EWAH, the row asked is told for the first row of its piece.
    FirstIsAsked,
    /// The same in WAH.
    WahFirstIsAsked,
    /// Asked at a row, a marker's dirty words are one piece.
    DirtyWordsJoined,
    /// Asked at a row, literals side by side are one piece.
    LiteralsJoined,
    /// In EWAH, the row behind a piece is told for its last, unless that's row R.
    LastRowOneMore,
    /// The same in WAH.
    WahLastRowOneMore,
    /// Asked at a row, a clean dirty word beside a run of its value belongs to the run.
    CleanDirtyInRun,
    /// Asked at a row, a clean literal beside a fill of its value belongs to the fill.
    CleanLiteralInFill,
    /// A run is told as the one segment that the row lies in.
    RunIsOneSegment,
    /// A fill is told as the one segment that the row lies in.
    FillIsOneSegment,
    /// An index of one row over `MOST_ROWS` is let through.
    RowsOneOver,
    /// The same of a lone body.
    BodyRowsOneOver,
    /// The same where a body is written from plain words.
    PlainRowsOneOver,
    /// An index of one bitmap over `MOST_BITMAPS` is let through.
    BitmapsOneOver,
    /// A threshold takes a list of one number over `MOST_NAMED`.
    ThresholdListOneOver,
    /// A table does.
    TableListOneOver,
    /// The tally does; rows that all of them hold have no entry.
    TallyListOneOver,
    /// The tally's last entry is missing: rows with `MOST_NAMED` holders aren't counted.
    TallyLastMissing,
    /// A threshold counts holders in a byte: 256 of them are none.
    ThresholdInByte,
    /// A table does.
    TableInByte,
    /// The tally does.
    TallyInByte,
    /// An index made of two columns, but for a difference, of over `MOST_INDEX_WORDS` words is written where the buffer
    /// has room.
    SumByBufferAlone,
    /// The same of an index that is rewritten.
    RewriteByBufferAlone,
    /// An answer that is an index of just `MOST_INDEX_WORDS` words is refused with 9.
    LongestIndexRefused,
    /// Refusal 9 of an answer that is an index never tells more than `MOST_INDEX_WORDS`.
    LongNeedCut,
    /// An index of over `ROWS_ONCE` rows is refused.
    RowsAsOnce,
    /// The same of a lone body.
    BodyRowsAsOnce,
    /// The same where a body is written from plain words.
    PlainRowsAsOnce,
    /// An index of over `BITMAPS_ONCE` bitmaps is refused.
    BitmapsAsOnce,
    /// A threshold refuses a list of over `NAMED_ONCE` numbers.
    ThresholdListAsOnce,
    /// A table does, and so has no more entries than that and one.
    TableListAsOnce,
    /// The tally does.
    TallyListAsOnce,
    /// The tally's entries over `NAMED_ONCE` stay 0.
    TallyAsOnce,
    /// The top slice of a signed column counts like the others.
    SignNotNegated,
    /// A signed value is the number of the lower slices, made negative by the top one.
    SignAndMagnitude,
    /// A list of under `MOST_VALUED` numbers has no sign.
    SignInWidestOnly,
    /// A bitmap that is the sign and a lower slice too is negated in all its places.
    SignNegatedInAllPlaces,
    /// The sign of a row of a WAH column is looked for in segment r / 32, at bit r % 32.
    SignBy32,
    /// A signed value takes lists of under `MOST_VALUED` numbers only.
    SignedTakesOneLess,
    /// A signed value takes lists of `MOST_VALUED` numbers and one more.
    SignedTakesOneMore,
    /// The signed value at a row that doesn't exist is 0.
    SignedMissingIsZero,
    /// A signed value looks at its own row only, so never refuses with 11.
    SignedSkipsStrays,
    /// A signed value is cut to a word's bits, and read as signed again.
    SignedCutAtWord,
    /// A difference takes each digit by itself.
    BorrowDropped,
    /// The borrow out of the wider column's top digit is lost: no difference has a sign.
    SignNeverSet,
    /// A difference of 0 has its sign set, as if the first number were less.
    ZeroIsNegative,
    /// A difference is the second column less the first.
    DifferenceSwapped,
    /// A negative difference is written as its magnitude, under the sign.
    MagnitudeWritten,
    /// A negative difference is written in ones' complement.
    OnesComplement,
    /// A difference is taken in a word's bits, the top one being its sign.
    DifferenceInWord,
    /// In a difference the narrower column is taken for a signed one.
    NarrowerExtended,
    /// A difference has as many slices as the wider column.
    SignSliceLeftOut,
    /// A difference that is negative nowhere has no sign slice.
    EmptySignLeftOut,
    /// The sign slice also holds rows that the second column alone has.
    SignUnmasked,
    /// A row exists in the difference if one column or both have it.
    DifferenceExistsInEither,
    /// A row exists in the difference if the first column has it.
    DifferenceExistsInFirst,
    /// A difference takes lists of `MOST_SUMMED` numbers and one more.
    DifferenceTakesOneMore,
    /// Word 0 of a WAH difference is that of EWAH.
    DifferenceKindOne,
    /// A difference's bodies, with negatives or without, have the pad bits that come of the runs over them.
    DifferenceKeepsPads,
    /// `DifferenceKeepsPads` in WAH alone.
    WahDifferenceKeepsPads,
    /// `SumByBufferAlone` for a difference.
    DifferenceByBufferAlone,
    /// The larger number is taken for the smaller one.
    LargerTaken,
    /// Of two equal numbers the smaller one is 0.
    TieIsZero,
    /// The smaller number has each digit that both numbers have.
    SmallerByDigits,
    /// The smaller number is found by the slices that both columns have.
    ComparedByNarrower,
    /// A column of the smaller numbers has one slice more than the wider one.
    SmallerSliceTooMany,
    /// A column of the smaller numbers has as many slices as the narrower one.
    SmallerCutAtNarrower,
    /// A row exists among the smaller numbers if one column or both have it; a number that is missing counts as 0.
    SmallerExistsInEither,
    /// The bodies of a WAH column of the smaller numbers are written in EWAH.
    SmallerBodiesInEwah,
    /// The bodies of the smaller numbers have the pad bits under the runs of both columns.
    SmallerKeepsPads,
    /// `SmallerKeepsPads` in WAH alone.
    WahSmallerKeepsPads,
    /// A negative difference that should be made 0 is kept, as far as its digits are written.
    NegativeKept,
    /// A negative difference that should be made 0 is turned positive.
    NegativeMadeAbsolute,
    /// A row whose negative difference should be made 0 doesn't exist.
    NegativeRowsGone,
    /// A difference with negatives made 0 has one slice more than the wider column.
    ZeroedSliceTooMany,
    /// A difference with negatives made 0 has as many slices as the first column.
    ZeroedAsWideAsFirst,
    /// Where negatives are made 0, a row exists if the first column has it; a second number that is missing counts as
    /// 0.
    ZeroedExistsInFirst,
    /// The k largest or smallest rows are told of lists of `MOST_SUMMED` numbers and one more.
    RankingTakesOneMore,
    /// They are told of lists of under `MOST_SUMMED` numbers only.
    RankingTakesOneLess,
    /// A k of all rows that exist is refused.
    AllRowsRefused,
    /// A k of 0 is refused.
    NoneRefused,
    /// A k above the rows that exist gives all of these.
    HighRankGivesAll,
    /// A k above the rows that exist gives all of these, if it isn't above R.
    HighRankByRows,
    /// A k above the rows that exist is refused with 9.
    HighRankIsNoRoom,
    /// The pads under a run of ones count as rows that exist where k is held against these.
    RankingCountsPads,
    /// Refusal 11 comes before 8 for k.
    StrayBeforeRank,
    /// The k largest or smallest rows are told of slices that hold rows which don't exist.
    RankingSkipsStrays,
    /// They are told without refusal 11 where k is 0.
    NoneSkipsStrays,
    /// They are told without refusal 11 where k is all rows that exist.
    AllSkipsStrays,
    /// Where they are asked for, no slice but the top one is searched for strays.
    OnlyTopSearched,
    /// Where such rows are asked for, refusal 9 comes before 11.
    RankingRoomBeforeStray,
    /// Their answer also asks for room for the existence bitmap.
    RankingRoomByExistence,
    /// k - 1 rows are given.
    OneRowLess,
    /// k + 1 rows are given.
    OneRowMore,
    /// A k of 0 gives one row.
    NoneGivesOne,
    /// k is kept in 16 bits.
    RankInHalfWord,
    /// Among the largest, a row that doesn't exist is ranked as 0.
    LargestTakesMissing,
    /// The same among the smallest: the slices' complements aren't masked.
    SmallestTakesMissing,
    /// Among the smallest, every pad of the last segment is ranked as 0.
    SmallestFillsPads,
    /// The pads under an existence bitmap's run of ones are ranked like rows.
    RankingTakesPads,
    /// `RankingTakesPads` in WAH alone.
    WahRankingTakesPads,
    /// No row of the first segment is taken.
    FirstSegmentUnranked,
    /// No row of a last segment with pads is taken.
    LastSegmentUnranked,
    /// Behind the last whole block of 16 segments all numbers are ranked as 0.
    PastBlocksAreZero,
    /// Numbers are compared without their lowest digit.
    LowestSliceUnranked,
    /// Numbers are compared without their top digit.
    TopSliceUnranked,
    /// Numbers are compared as those of a signed column.
    RankedSigned,
    /// Numbers are compared in a signed word: those with digit 31 are the smallest.
    RankedInSignedWord,
    /// A bitmap that is several slices counts in its first place alone.
    RankedByFirstPlace,
    /// Numbers are compared from their lowest digit up.
    SlicesTurned,
    /// The smallest rows are given for the largest, and the other way round.
    LargestSmallestSwapped,
    /// Of rows equal to the least of the largest, the highest are taken.
    LargestTiesHighest,
    /// Of rows equal to the greatest of the smallest, the highest are taken.
    SmallestTiesHighest,
    /// Equal rows of which only some should be taken are all left out.
    TiesLeftOut,
    /// Equal rows of which only some should be taken are all taken.
    TiesAllTaken,
    /// Of the rows that are equal to the last taken, or better, the k lowest are taken.
    LowestOfEnough,
    /// In the segment of the last row that is taken, all rows equal to it are taken.
    CutTakesSegment,
    /// Where a segment's equal rows are cut, none of them is taken.
    CutLeavesSegment,
    /// All equal rows side by side are taken, if some are.
    CutTakesRun,
    /// Where equal rows side by side are cut, none of them is taken.
    CutLeavesRun,
    /// In the block of 16 segments of the last row that is taken, all rows equal to it are taken.
    CutTakesBlock,
    /// Where the equal rows of such a block are cut, none of them is taken.
    CutLeavesBlock,
    /// Equal rows that are cut at a segment's end have one row more.
    CutAtEdgeOneMore,
    /// Equal rows that are cut at a segment's end lose that segment: the mask of all its rows is 0.
    CutAtEdgeLosesSegment,
    /// Of equal rows side by side that are cut, none is taken past a marker's `MOST_CLEAN` segments.
    CutInFirstMarker,
    /// Equal rows side by side that are taken count for no more than `MOST_CLEAN` segments.
    LongRunCountsShort,
    /// In WAH, the last equal row that is taken is told as if segments had 32 rows.
    CutBy32,
    /// Where all rows with the last number that is taken are taken, they are left out.
    ExactLosesLast,
    /// Where all rows with the last number that is taken are taken, those with better ones are left out.
    ExactLosesBetter,
    /// The k largest or smallest rows of a WAH index are written in EWAH.
    RankingInEwah,
    /// In them a full last segment with pads is written as a dirty word or a literal.
    RankingFullTailDirty,
    /// In them a segment that is mixed in the existence bitmap stays a dirty word or a literal, even if clean.
    RankingKeepsDirty,
    /// An answer of no rows has no words.
    NoneIsNoWords,
    /// A k of all rows that exist copies the existence bitmap's words as they are.
    AllTakenCopied,
    /// A writer in batches keeps its buffer's length in bytes.
    BegunInBytes,
    /// The buffer's length isn't held against the one that the writer began with.
    RoomUncompared,
    /// A buffer longer than that passes.
    LongerBufferPasses,
    /// A shorter one passes, if it has the words in use.
    ShorterBufferPasses,
    /// Of the length in a state only the low 32 bits are looked at.
    RoomInWord,
    /// The rows in a state may pass `MOST_ROWS`.
    StateRowsPass,
    /// A state of just `MOST_ROWS` rows is refused with 12.
    FullRowsRefused,
    /// Of the rows in a state only the low 32 bits are looked at.
    StateRowsInWord,
    /// The words in a state may pass the buffer, and are all of it then.
    StateWordsPass,
    /// A state whose words are all of the buffer is refused with 12.
    FullBufferRefused,
    /// Of the words in a state only the low 32 bits are looked at.
    StateWordsInWord,
    /// A state of no rows may have words, which aren't looked at.
    WordsWithoutRowsPass,
    /// A state of no words may have rows, none of which is set.
    RowsWithoutWordsPass,
    /// A state of no rows and no words is refused with 12, unless the buffer is all zeros.
    FreshBufferLookedAt,
    /// A body in use passes whose last marker says more dirty words than are there.
    DirtyPastUsePasses,
    /// A body in use passes that has more segments than the rows accepted.
    LongBodyPasses,
    /// A body in use passes that has fewer segments, but some words.
    ShortBodyPasses,
    /// A body in use passes that has a pad bit in its last dirty word.
    PadInUsePasses,
    /// Any sound body in use passes.
    WastefulPasses,
    /// Any sound body in use passes that has no more words than the settled one.
    ShortestPasses,
    /// A body in use passes that is settled but for markers with both counts zero.
    IdleMarkersPass,
    /// A body in use passes in which clean segments are dirty words, and that is settled otherwise.
    CleanDirtyPasses,
    /// A body in use passes in which a full last segment with pads is a dirty word, as it once was.
    DirtyFullTailPasses,
    /// A body in use passes that is two settled bodies, one behind the other.
    UnjoinedPasses,
    /// A body in use passes in which markers without clean segments have the value 1.
    EmptyRunOfOnesPasses,
    /// A body in use with a clean run over `MOST_CLEAN` passes in any shortest form.
    LongRunAnyhowPasses,
    /// A body in use with more dirty words side by side than `MOST_DIRTY` passes in any shortest form.
    ManyDirtyAnyhowPasses,
    /// Refusal 12 tells the place of the fault in the body.
    BrokenStateTellsPlace,
    /// At a batch, 3 is given where 12 is due as well.
    BatchThreeBeforeTwelve,
    /// There 8 is given for 12.
    BatchEightBeforeTwelve,
    /// There 7 is given for 12.
    BatchSevenBeforeTwelve,
    /// There 9 is given for 12, if the batch by itself doesn't fit.
    BatchNineBeforeTwelve,
    /// At a batch, 8 is given where 3 is due as well.
    BatchEightBeforeThree,
    /// There 7 is given for 3.
    BatchSevenBeforeThree,
    /// There 9 is given for 3.
    BatchNineBeforeThree,
    /// At a batch, 7 is given where 8 is due as well.
    BatchSevenBeforeEight,
    /// There 9 is given for 8.
    BatchNineBeforeEight,
    /// At a batch, 9 is given where 7 is due as well.
    BatchNineBeforeSeven,
    /// A batch is refused with 3 only if its own rows pass `MOST_ROWS`.
    BatchRowsAlone,
    /// A batch may bring the rows to one over `MOST_ROWS`.
    BatchRowsOneOver,
    /// A batch may not bring the rows to `MOST_ROWS`.
    BatchRowsOneEarly,
    /// A batch may not bring the rows over `ROWS_ONCE`.
    BatchRowsAsOnce,
    /// The rows accepted and the batch's are added in 32 bits.
    BatchSumWraps,
    /// Where a batch has too many rows, word 0 is told.
    BatchRowsAtWordZero,
    /// A batch may have too few words; rows without one aren't set.
    BatchFewWordsPass,
    /// A batch of rows may have too many words.
    BatchManyWordsPass,
    /// A batch has to have one word for each segment that it begins.
    BatchWordsByAllRows,
    /// A batch of no rows may have words.
    NoRowsWordPasses,
    /// A batch may have bits past its rows, which are left out.
    BatchPadPasses,
    /// A batch may have such bits in a last word of all ones.
    BatchOnesPass,
    /// Which bits of a batch's last word are past its rows is told by all rows.
    BatchPadsByAllRows,
    /// Refusal 7 of a batch tells a place among the words of all rows.
    BatchPadInAllRows,
    /// Refusal 9 of a batch tells the words of the batch by itself.
    BatchRoomTellsBatch,
    /// Refusal 9 of a batch tells how many words are missing.
    BatchRoomTellsMissing,
    /// Room is judged by the words in use and those of the batch by itself.
    BatchRoomByBoth,
    /// Room is judged by a word for each segment, and one more.
    BatchRoomByRows,
    /// A body that would be all of the buffer doesn't fit.
    FullBufferNoRoom,
    /// A batch of no rows isn't tested for 12.
    NoRowsUntested,
    /// A batch of no rows is refused with 8.
    NoRowsRefused,
    /// After a batch of no rows the writer begins anew.
    NoRowsReset,
    /// A batch of no rows tells no words.
    NoRowsTellNone,
    /// The rows of a batch that is refused with 8, 7 or 9 are counted as accepted.
    RefusedRowsCounted,
    /// Where a body doesn't fit, its words are counted as in use.
    RefusedWordsCounted,
    /// Where a body doesn't fit, as much of it as does is written.
    RefusedFrontWritten,
    /// A batch that is refused with 7 is written all the same.
    PadsWritten,
    /// After refusal 12 the writer begins anew.
    BrokenStateReset,
    /// The rows in a state stay as they are.
    StateRowsKept,
    /// The rows in a state are those of the last batch alone.
    StateRowsOfBatch,
    /// The rows in a state are those of whole segments.
    StateRowsRoundedUp,
    /// The words in a state stay as they are.
    StateWordsKept,
    /// The length in a state becomes that of the body.
    RoomBecomesWords,
    /// The words behind a body are set to 0.
    BehindCleared,
    /// A batch tells how many words the body has more than before.
    AddedWordsTold,
    /// A body of as many words as before isn't written.
    SameLengthUnwritten,
    /// Only words behind those in use are written.
    OldWordsKept,
    /// A segment that was begun stays, and comes again with the batch's rows.
    PartSegmentTwice,
    /// The earlier rows of a segment that was begun are lost.
    PartSegmentLost,
    /// A batch begins at a segment.
    BatchAtNextSegment,
    /// A run of ones over a segment that was begun sets all its rows.
    TailRunSpreads,
    /// A batch's rows come in front.
    BatchInFront,
    /// Of a batch's words the bits that belong to the segment behind are lost.
    CarriedBitsLost,
    /// A batch's words behind its first lie in segments as they are.
    LaterWordsUnshifted,
    /// A run of a batch isn't joined to the one before it.
    RunNotJoined,
    /// Mixed segments of a batch aren't joined to those before them.
    DirtyNotJoined,
    /// Mixed segments of a batch get a marker of their own behind a run.
    DirtyNotCarried,
    /// A marker between mixed segments stays, when its only clean segment becomes mixed.
    EmptiedMarkerKept,
    /// `RunCarries` where a batch is written.
    JoinedRunCarries,
    /// `FullMarkerOneMore` where a batch is written.
    JoinedDirtyOneMore,
    /// `FullTailDirty` where a batch is written.
    AppendedTailDirty,
    /// `FullTailOwnRun` where a batch is written.
    AppendedTailOwnRun,
}

/// The most rows of a bitmap as they once were, for mistakes only.
pub const ROWS_ONCE: usize = 16_777_216;
/// The most bitmaps of an index, likewise.
pub const BITMAPS_ONCE: usize = 64;
/// The most numbers in a list, likewise.
pub const NAMED_ONCE: usize = 64;

impl Mistake {
    /// Is it about the writer in batches alone?
    pub fn of_append(self) -> bool {
        self as usize >= Mistake::BegunInBytes as usize
    }

    pub const ALL: &'static [Mistake] = &[
        Mistake::TableFillsPads,
        Mistake::RunCountsPads,
        Mistake::RunCarries,
        Mistake::RoomByBound,
        Mistake::NthPastGivesLast,
        Mistake::ThresholdAboveT,
        Mistake::RepeatCountsOnce,
        Mistake::StretchPerBitmap,
        Mistake::AndNotSwapped,
        Mistake::TallyCountsPads,
        Mistake::CleanKeptDirty,
        Mistake::FullMarkerOneMore,
        Mistake::NotFillsPads,
        Mistake::FinalEndUnchecked,
        Mistake::SixBeforeFive,
        Mistake::LengthBeforeStart,
        Mistake::MissingAtLastWord,
        Mistake::RowPastEndFalse,
        Mistake::TableTwoIsYes,
        Mistake::HighThresholdEmpty,
        Mistake::IdleMarkerRefused,
        Mistake::NoRoomTellsBuffer,
        Mistake::CarryDropped,
        Mistake::StraysLetThrough,
        Mistake::ValueSkipsStrays,
        Mistake::StrayTellsPlace,
        Mistake::StrayTellsHighestRow,
        Mistake::SecondColumnFirst,
        Mistake::SumSliceUnmasked,
        Mistake::EmptySlicesLeftOut,
        Mistake::SumExistsInEither,
        Mistake::TopSliceLeftOut,
        Mistake::StrayBeforeRow,
        Mistake::StrayBeforeSecondList,
        Mistake::NoRoomBeforeStray,
        Mistake::MissingRowIsZero,
        Mistake::SumTakesOneMore,
        Mistake::ValueTakesOneLess,
        Mistake::StrayLowestOfAll,
        Mistake::StrayAgainstBoth,
        Mistake::NeedWithoutContents,
        Mistake::SumCutAtWord,
        Mistake::LastSliceUnsearched,
        Mistake::WordsPastBlocksMissed,
        Mistake::LaterBlocksMissed,
        Mistake::FullColumnsMissed,
        Mistake::PassedBlockKept,
        Mistake::NthInFirstBlock,
        Mistake::OnesRunRefused,
        Mistake::OnesRunPastEnd,
        Mistake::DirtyPadPasses,
        Mistake::PlainOnesPass,
        Mistake::RunSplitAtPads,
        Mistake::RowInPads,
        Mistake::NthInPads,
        Mistake::ExpandKeepsPads,
        Mistake::FullTailDirty,
        Mistake::SumFullTailDirty,
        Mistake::FullTailOwnRun,
        Mistake::NotKeepsPads,
        Mistake::NotKeepsRun,
        Mistake::PairKeepsPads,
        Mistake::TableFillsUnderRun,
        Mistake::TableKeepsPads,
        Mistake::TallyCountsRunPads,
        Mistake::PadIsStray,
        Mistake::ValueInPads,
        Mistake::SumKeepsPads,
        Mistake::FillsReadAsOnes,
        Mistake::FillCountShort,
        Mistake::FillValueCounted,
        Mistake::LiteralHighestFirst,
        Mistake::EmptyFillPasses,
        Mistake::EmptyFillIsSix,
        Mistake::TenAfterSix,
        Mistake::TenAfterAll,
        Mistake::FillPastEndPasses,
        Mistake::LiteralPastEndPasses,
        Mistake::PastEndAtBodyEnd,
        Mistake::OnesFillRefused,
        Mistake::LiteralPadPasses,
        Mistake::LiteralOnesPass,
        Mistake::LastSegmentBy32,
        Mistake::SegmentsBy32,
        Mistake::EarlyEndPasses,
        Mistake::EarlyEndAtLastWord,
        Mistake::FillsJoined,
        Mistake::RowBy32,
        Mistake::NthBy32,
        Mistake::FillCounts32,
        Mistake::ExpandBySegments,
        Mistake::CompressBySegments,
        Mistake::PlainPadsBy31,
        Mistake::WahRowInPads,
        Mistake::WahCountsPads,
        Mistake::WahNthInPads,
        Mistake::WahExpandKeepsPads,
        Mistake::WahNotFillsPads,
        Mistake::WahPairKeepsPads,
        Mistake::WahTableFillsPads,
        Mistake::WahTallyCountsPads,
        Mistake::WahSumKeepsPads,
        Mistake::CleanKeptLiteral,
        Mistake::LoneCleanAsFill,
        Mistake::RunInTwoFills,
        Mistake::LoneLeftBehind,
        Mistake::PairAsLiterals,
        Mistake::FillCutAtMarkerLimit,
        Mistake::OnesPairIsZeros,
        Mistake::FullTailPadsWritten,
        Mistake::FullTailLiteral,
        Mistake::KindThreeIsWah,
        Mistake::KindTwoRefused,
        Mistake::AnswerInEwah,
        Mistake::SumKindOne,
        Mistake::SumBodiesInEwah,
        Mistake::RewriteLosesTail,
        Mistake::RewriteKeepsPads,
        Mistake::RewriteByWords,
        Mistake::SameFormatCopied,
        Mistake::RewriteRoomByOld,
        Mistake::RewriteChecksOwnBody,
        Mistake::RewrittenKindKept,
        Mistake::RewrittenContentsKept,
        Mistake::RewriteNeedsBodiesOnly,
        Mistake::RowJoinsRuns,
        Mistake::RowJoinsFills,
        Mistake::LastRowInPads,
        Mistake::WahLastRowInPads,
        Mistake::ExtentInSegments,
        Mistake::WahExtentInSegments,
        Mistake::ExtentBy32,
        Mistake::DirtyTellsRun,
        Mistake::DirtyTellsNextRun,
        Mistake::FirstIsAsked,
        Mistake::WahFirstIsAsked,
        Mistake::DirtyWordsJoined,
        Mistake::LiteralsJoined,
        Mistake::LastRowOneMore,
        Mistake::WahLastRowOneMore,
        Mistake::CleanDirtyInRun,
        Mistake::CleanLiteralInFill,
        Mistake::RunIsOneSegment,
        Mistake::FillIsOneSegment,
        Mistake::RowsOneOver,
        Mistake::BodyRowsOneOver,
        Mistake::PlainRowsOneOver,
        Mistake::BitmapsOneOver,
        Mistake::ThresholdListOneOver,
        Mistake::TableListOneOver,
        Mistake::TallyListOneOver,
        Mistake::TallyLastMissing,
        Mistake::ThresholdInByte,
        Mistake::TableInByte,
        Mistake::TallyInByte,
        Mistake::SumByBufferAlone,
        Mistake::RewriteByBufferAlone,
        Mistake::LongestIndexRefused,
        Mistake::LongNeedCut,
        Mistake::RowsAsOnce,
        Mistake::BodyRowsAsOnce,
        Mistake::PlainRowsAsOnce,
        Mistake::BitmapsAsOnce,
        Mistake::ThresholdListAsOnce,
        Mistake::TableListAsOnce,
        Mistake::TallyListAsOnce,
        Mistake::TallyAsOnce,
        Mistake::SignNotNegated,
        Mistake::SignAndMagnitude,
        Mistake::SignInWidestOnly,
        Mistake::SignNegatedInAllPlaces,
        Mistake::SignBy32,
        Mistake::SignedTakesOneLess,
        Mistake::SignedTakesOneMore,
        Mistake::SignedMissingIsZero,
        Mistake::SignedSkipsStrays,
        Mistake::SignedCutAtWord,
        Mistake::BorrowDropped,
        Mistake::SignNeverSet,
        Mistake::ZeroIsNegative,
        Mistake::DifferenceSwapped,
        Mistake::MagnitudeWritten,
        Mistake::OnesComplement,
        Mistake::DifferenceInWord,
        Mistake::NarrowerExtended,
        Mistake::SignSliceLeftOut,
        Mistake::EmptySignLeftOut,
        Mistake::SignUnmasked,
        Mistake::DifferenceExistsInEither,
        Mistake::DifferenceExistsInFirst,
        Mistake::DifferenceTakesOneMore,
        Mistake::DifferenceKindOne,
        Mistake::DifferenceKeepsPads,
        Mistake::WahDifferenceKeepsPads,
        Mistake::DifferenceByBufferAlone,
        Mistake::LargerTaken,
        Mistake::TieIsZero,
        Mistake::SmallerByDigits,
        Mistake::ComparedByNarrower,
        Mistake::SmallerSliceTooMany,
        Mistake::SmallerCutAtNarrower,
        Mistake::SmallerExistsInEither,
        Mistake::SmallerBodiesInEwah,
        Mistake::SmallerKeepsPads,
        Mistake::WahSmallerKeepsPads,
        Mistake::NegativeKept,
        Mistake::NegativeMadeAbsolute,
        Mistake::NegativeRowsGone,
        Mistake::ZeroedSliceTooMany,
        Mistake::ZeroedAsWideAsFirst,
        Mistake::ZeroedExistsInFirst,
        Mistake::RankingTakesOneMore,
        Mistake::RankingTakesOneLess,
        Mistake::AllRowsRefused,
        Mistake::NoneRefused,
        Mistake::HighRankGivesAll,
        Mistake::HighRankByRows,
        Mistake::HighRankIsNoRoom,
        Mistake::RankingCountsPads,
        Mistake::StrayBeforeRank,
        Mistake::RankingSkipsStrays,
        Mistake::NoneSkipsStrays,
        Mistake::AllSkipsStrays,
        Mistake::OnlyTopSearched,
        Mistake::RankingRoomBeforeStray,
        Mistake::RankingRoomByExistence,
        Mistake::OneRowLess,
        Mistake::OneRowMore,
        Mistake::NoneGivesOne,
        Mistake::RankInHalfWord,
        Mistake::LargestTakesMissing,
        Mistake::SmallestTakesMissing,
        Mistake::SmallestFillsPads,
        Mistake::RankingTakesPads,
        Mistake::WahRankingTakesPads,
        Mistake::FirstSegmentUnranked,
        Mistake::LastSegmentUnranked,
        Mistake::PastBlocksAreZero,
        Mistake::LowestSliceUnranked,
        Mistake::TopSliceUnranked,
        Mistake::RankedSigned,
        Mistake::RankedInSignedWord,
        Mistake::RankedByFirstPlace,
        Mistake::SlicesTurned,
        Mistake::LargestSmallestSwapped,
        Mistake::LargestTiesHighest,
        Mistake::SmallestTiesHighest,
        Mistake::TiesLeftOut,
        Mistake::TiesAllTaken,
        Mistake::LowestOfEnough,
        Mistake::CutTakesSegment,
        Mistake::CutLeavesSegment,
        Mistake::CutTakesRun,
        Mistake::CutLeavesRun,
        Mistake::CutTakesBlock,
        Mistake::CutLeavesBlock,
        Mistake::CutAtEdgeOneMore,
        Mistake::CutAtEdgeLosesSegment,
        Mistake::CutInFirstMarker,
        Mistake::LongRunCountsShort,
        Mistake::CutBy32,
        Mistake::ExactLosesLast,
        Mistake::ExactLosesBetter,
        Mistake::RankingInEwah,
        Mistake::RankingFullTailDirty,
        Mistake::RankingKeepsDirty,
        Mistake::NoneIsNoWords,
        Mistake::AllTakenCopied,
        Mistake::BegunInBytes,
        Mistake::RoomUncompared,
        Mistake::LongerBufferPasses,
        Mistake::ShorterBufferPasses,
        Mistake::RoomInWord,
        Mistake::StateRowsPass,
        Mistake::FullRowsRefused,
        Mistake::StateRowsInWord,
        Mistake::StateWordsPass,
        Mistake::FullBufferRefused,
        Mistake::StateWordsInWord,
        Mistake::WordsWithoutRowsPass,
        Mistake::RowsWithoutWordsPass,
        Mistake::FreshBufferLookedAt,
        Mistake::DirtyPastUsePasses,
        Mistake::LongBodyPasses,
        Mistake::ShortBodyPasses,
        Mistake::PadInUsePasses,
        Mistake::WastefulPasses,
        Mistake::ShortestPasses,
        Mistake::IdleMarkersPass,
        Mistake::CleanDirtyPasses,
        Mistake::DirtyFullTailPasses,
        Mistake::UnjoinedPasses,
        Mistake::EmptyRunOfOnesPasses,
        Mistake::LongRunAnyhowPasses,
        Mistake::ManyDirtyAnyhowPasses,
        Mistake::BrokenStateTellsPlace,
        Mistake::BatchThreeBeforeTwelve,
        Mistake::BatchEightBeforeTwelve,
        Mistake::BatchSevenBeforeTwelve,
        Mistake::BatchNineBeforeTwelve,
        Mistake::BatchEightBeforeThree,
        Mistake::BatchSevenBeforeThree,
        Mistake::BatchNineBeforeThree,
        Mistake::BatchSevenBeforeEight,
        Mistake::BatchNineBeforeEight,
        Mistake::BatchNineBeforeSeven,
        Mistake::BatchRowsAlone,
        Mistake::BatchRowsOneOver,
        Mistake::BatchRowsOneEarly,
        Mistake::BatchRowsAsOnce,
        Mistake::BatchSumWraps,
        Mistake::BatchRowsAtWordZero,
        Mistake::BatchFewWordsPass,
        Mistake::BatchManyWordsPass,
        Mistake::BatchWordsByAllRows,
        Mistake::NoRowsWordPasses,
        Mistake::BatchPadPasses,
        Mistake::BatchOnesPass,
        Mistake::BatchPadsByAllRows,
        Mistake::BatchPadInAllRows,
        Mistake::BatchRoomTellsBatch,
        Mistake::BatchRoomTellsMissing,
        Mistake::BatchRoomByBoth,
        Mistake::BatchRoomByRows,
        Mistake::FullBufferNoRoom,
        Mistake::NoRowsUntested,
        Mistake::NoRowsRefused,
        Mistake::NoRowsReset,
        Mistake::NoRowsTellNone,
        Mistake::RefusedRowsCounted,
        Mistake::RefusedWordsCounted,
        Mistake::RefusedFrontWritten,
        Mistake::PadsWritten,
        Mistake::BrokenStateReset,
        Mistake::StateRowsKept,
        Mistake::StateRowsOfBatch,
        Mistake::StateRowsRoundedUp,
        Mistake::StateWordsKept,
        Mistake::RoomBecomesWords,
        Mistake::BehindCleared,
        Mistake::AddedWordsTold,
        Mistake::SameLengthUnwritten,
        Mistake::OldWordsKept,
        Mistake::PartSegmentTwice,
        Mistake::PartSegmentLost,
        Mistake::BatchAtNextSegment,
        Mistake::TailRunSpreads,
        Mistake::BatchInFront,
        Mistake::CarriedBitsLost,
        Mistake::LaterWordsUnshifted,
        Mistake::RunNotJoined,
        Mistake::DirtyNotJoined,
        Mistake::DirtyNotCarried,
        Mistake::EmptiedMarkerKept,
        Mistake::JoinedRunCarries,
        Mistake::JoinedDirtyOneMore,
        Mistake::AppendedTailDirty,
        Mistake::AppendedTailOwnRun,
    ];
}

thread_local! {
    static CURRENT: Cell<Option<Mistake>> = const { Cell::new(None) };
}

/// Puts the earlier setting back, also after a panic.
struct Restore(Option<Mistake>);

impl Drop for Restore {
    fn drop(&mut self) {
        CURRENT.with(|current| current.set(self.0));
    }
}

/// Runs `f` on this thread with the mistake `m` switched on.
pub fn with_mistake<T>(m: Mistake, f: impl FnOnce() -> T) -> T {
    let _restore = Restore(CURRENT.with(|current| current.replace(Some(m))));
    f()
}

/// Is this mistake switched on here and now?
pub(crate) fn mistaken(m: Mistake) -> bool {
    CURRENT.with(|current| current.get()) == Some(m)
}

/// Is a mistake of both formats switched on, or its like in WAH alone, this format being WAH?
pub(crate) fn mistaken_in(format: Format, both: Mistake, wah: Mistake) -> bool {
    mistaken(both) || format == Format::Wah && mistaken(wah)
}

/// A limit; one more with the mistake `one_over`, and what it once was with the mistake `as_once`.
pub(crate) fn limit(now: usize, one_over: Mistake, as_once: Mistake, once: usize) -> usize {
    if mistaken(as_once) {
        return once;
    }
    now + usize::from(mistaken(one_over))
}
