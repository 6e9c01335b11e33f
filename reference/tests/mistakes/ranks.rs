//! The mistakes about the k largest and the k smallest rows.

use super::common::*;
use super::wah::{case, hex, Case};
use super::{columns, tails, wah, ANY};
use reference::limits::*;
use reference::*;

pub fn all() -> Vec<Case> {
    let tables = [refusals(), how_many(), candidates(), numbers(), ties(), cuts(), long_cuts(), answers()];
    tables.into_iter().flatten().collect()
}

type Ranking = fn(&[u32], &[u32], u32, usize) -> Result<Vec<u32>, Refusal>;

/// 1, 2, 3 at rows 0 to 2.
const WIDE: &[u32] = &[0, 1, 2];
/// 0, 0, 1 at rows 1 to 3.
const LATE: &[u32] = &[3, 4];
/// 1 at rows 0 to 2.
const ALIKE: &[u32] = &[0, 0];
/// Row 3 doesn't exist.
const STRAY: &[u32] = &[0, 4];
/// 0 at all of 40 rows.
const ZEROS: &[u32] = &[0, 3];
const BAD: &str = "refused 8 0 0";

fn of(call: Ranking, list: &[u32], k: u32) -> String {
    hex(call(&columns(), list, k, ANY))
}

/// Of 40 rows in EWAH, and in WAH.
fn of_40(call: Ranking, list: &[u32], k: u32) -> String {
    hex(call(&tails(), list, k, ANY))
}

fn of_wah(call: Ranking, list: &[u32], k: u32) -> String {
    hex(call(&wah::tails(), list, k, ANY))
}

fn refusals() -> Vec<Case> {
    vec![
        case(Mistake::RankingTakesOneMore, || of(largest, &[0; MOST_SUMMED + 1], 1), BAD, "[20000, 1]"),
        case(Mistake::RankingTakesOneLess, || of(smallest, &[0; MOST_SUMMED], 1), "[20000, 1]", BAD),
        case(Mistake::AllRowsRefused, || of(largest, WIDE, 3), "[20000, 7]", BAD),
        case(Mistake::NoneRefused, || of(smallest, WIDE, 0), "[2]", BAD),
        case(Mistake::HighRankGivesAll, || of(largest, WIDE, 5), BAD, "[20000, 7]"),
        case(Mistake::HighRankByRows, || of(smallest, WIDE, 4), BAD, "[20000, 7]"),
        case(Mistake::HighRankIsNoRoom, || of(largest, WIDE, 4), BAD, "refused 9 0 4"),
        case(Mistake::RankingCountsPads, || of_40(largest, ZEROS, 41), BAD, "[5]"),
        case(Mistake::StrayBeforeRank, || of(largest, STRAY, 4), BAD, "refused 11 4 3"),
        case(Mistake::RankingSkipsStrays, || of(largest, STRAY, 1), "refused 11 4 3", "[20000, 1]"),
        case(Mistake::NoneSkipsStrays, || of(smallest, STRAY, 0), "refused 11 4 3", "[2]"),
        case(Mistake::AllSkipsStrays, || of(largest, STRAY, 3), "refused 11 4 3", "[20000, 7]"),
        // The lowest slice has row 3; rows 0 and 2 are 2.
        case(Mistake::OnlyTopSearched, || of(largest, &[0, 4, 1], 1), "refused 11 4 3", "[20000, 1]"),
        case(
            Mistake::RankingRoomBeforeStray,
            || hex(smallest(&columns(), STRAY, 1, 0)),
            "refused 11 4 3",
            "refused 9 0 2",
        ),
        case(Mistake::RankingRoomByExistence, || hex(largest(&columns(), WIDE, 0, 1)), "[2]", "refused 9 0 2"),
    ]
}

fn how_many() -> Vec<Case> {
    /// 2,049 segments of 0: 2,048 of them and one row.
    fn over_half_word() -> String {
        hex(largest(&index_of(65_568, &[&[0x1003], &[0x1002]]), &[0, 1], 65_537, ANY))
    }
    vec![
        case(Mistake::OneRowLess, || of(largest, WIDE, 2), "[20000, 6]", "[20000, 4]"),
        case(Mistake::OneRowMore, || of(largest, WIDE, 1), "[20000, 4]", "[20000, 6]"),
        case(Mistake::NoneGivesOne, || of(smallest, WIDE, 0), "[2]", "[20000, 1]"),
        case(Mistake::RankInHalfWord, over_half_word, "[21001, 1]", "[20000, 1, 1000]"),
    ]
}

/// Of the pads, 1; of row 39 too, and 3 of the others.
const OVER_PADS: &[u32] = &[0, 0, 2];

fn candidates() -> Vec<Case> {
    /// 17 segments: 1 in the last, else 0.
    fn one_past_block() -> String {
        hex(largest(&index_of(544, &[&[0x23], &[0x20, 0x3]]), &[0, 1], 1, ANY))
    }
    vec![
        // Row 3, then row 1; row 0 doesn't exist.
        case(Mistake::LargestTakesMissing, || of(largest, LATE, 2), "[20000, a]", "[20000, 9]"),
        case(Mistake::SmallestTakesMissing, || of(smallest, ALIKE, 1), "[20000, 1]", "[20000, 8]"),
        case(Mistake::SmallestFillsPads, || of(smallest, ALIKE, 1), "[20000, 1]", "[20000, 10]"),
        case(Mistake::RankingTakesPads, || of_40(smallest, OVER_PADS, 2), "[40000, 1, 80]", "[20002, 180]"),
        case(Mistake::WahRankingTakesPads, || of_wah(smallest, OVER_PADS, 2), "[1, 100]", "[0, 300]"),
        case(Mistake::FirstSegmentUnranked, || of_40(largest, ZEROS, 1), "[20000, 1, 2]", "[20002, 1]"),
        case(Mistake::LastSegmentUnranked, || of_40(largest, ZEROS, 40), "[5]", "[3, 2]"),
        case(Mistake::PastBlocksAreZero, one_past_block, "[20020, 1]", "[20000, 1, 20]"),
    ]
}

fn numbers() -> Vec<Case> {
    /// 0 at row 0, 2^31 at rows 1 and 2.
    fn high_digit() -> String {
        let mut list = [5; MOST_SUMMED];
        (list[0], list[MOST_SUMMED - 1]) = (0, 2);
        of(largest, &list, 1)
    }
    vec![
        // 0, 2, 2.
        case(Mistake::LowestSliceUnranked, || of(largest, WIDE, 1), "[20000, 4]", "[20000, 2]"),
        // 1, 0, 1.
        case(Mistake::TopSliceUnranked, || of(largest, WIDE, 1), "[20000, 4]", "[20000, 1]"),
        // 1, -2, -1.
        case(Mistake::RankedSigned, || of(smallest, WIDE, 1), "[20000, 1]", "[20000, 2]"),
        case(Mistake::RankedInSignedWord, high_digit, "[20000, 2]", "[20000, 1]"),
        // 5, 2, 7, or 1, 2, 3.
        case(Mistake::RankedByFirstPlace, || of(largest, &[0, 1, 2, 1], 2), "[20000, 5]", "[20000, 6]"),
        // 2, 1, 3.
        case(Mistake::SlicesTurned, || of(largest, WIDE, 2), "[20000, 6]", "[20000, 5]"),
        case(Mistake::LargestSmallestSwapped, || of(largest, WIDE, 1), "[20000, 4]", "[20000, 1]"),
    ]
}

fn ties() -> Vec<Case> {
    vec![
        case(Mistake::LargestTiesHighest, || of(largest, ALIKE, 1), "[20000, 1]", "[20000, 4]"),
        case(Mistake::SmallestTiesHighest, || of(smallest, ALIKE, 1), "[20000, 1]", "[20000, 4]"),
        // 1 at rows 0 and 2.
        case(Mistake::TiesLeftOut, || of(largest, &[0, 1], 1), "[20000, 1]", "[2]"),
        case(Mistake::TiesAllTaken, || of(largest, &[0, 1], 1), "[20000, 1]", "[20000, 5]"),
        case(Mistake::LowestOfEnough, || of(largest, LATE, 2), "[20000, a]", "[20000, 6]"),
    ]
}

fn cuts() -> Vec<Case> {
    /// The first rows of 17 segments, all equal.
    fn of_17(k: u32) -> String {
        hex(smallest(&index_of(544, &[&[0x23]]), &[0, 0], k, ANY))
    }
    vec![
        case(Mistake::CutTakesSegment, || of_40(largest, ZEROS, 33), "[20003, 1]", "[5]"),
        case(Mistake::CutLeavesSegment, || of_40(largest, ZEROS, 33), "[20003, 1]", "[3, 2]"),
        case(Mistake::CutTakesRun, || of_40(smallest, ZEROS, 1), "[20000, 1, 2]", "[5]"),
        case(Mistake::CutLeavesRun, || of_40(smallest, ZEROS, 33), "[20003, 1]", "[4]"),
        case(Mistake::CutTakesBlock, || of_17(1), "[20000, 1, 20]", "[21, 2]"),
        case(Mistake::CutLeavesBlock, || of_17(513), "[20021, 1]", "[21, 2]"),
        case(Mistake::CutAtEdgeOneMore, || of_40(largest, ZEROS, 32), "[3, 2]", "[20003, 1]"),
        case(Mistake::CutAtEdgeLosesSegment, || of_40(largest, ZEROS, 32), "[3, 2]", "[4]"),
        case(Mistake::ExactLosesLast, || of(largest, WIDE, 2), "[20000, 6]", "[20000, 4]"),
        case(Mistake::ExactLosesBetter, || of(largest, WIDE, 2), "[20000, 6]", "[20000, 2]"),
        // Row 32 is told as row 31.
        case(Mistake::CutBy32, || of_wah(largest, ZEROS, 33), "[7fffffff, 3]", "[7fffffff, 1]"),
    ]
}

fn long_cuts() -> Vec<Case> {
    /// 65,537 segments: 1 in all but the last, where it is 0.
    fn of_long(k: u32) -> String {
        hex(largest(&index_of(2_097_184, &[&[0x1_FFFF, 0x5], &[0x1_FFFF, 0x3, 0x2]]), &[0, 1], k, ANY))
    }
    vec![
        // A full marker and one row.
        case(Mistake::CutInFirstMarker, || of_long(2_097_121), "[3ffff, 1, 2]", "[1ffff, 4]"),
        case(Mistake::LongRunCountsShort, || of_long(2_097_152), "[1ffff, 3, 2]", "[1ffff, 5]"),
    ]
}

fn answers() -> Vec<Case> {
    vec![
        case(Mistake::RankingInEwah, || of_wah(largest, ZEROS, 0), "[80000002]", "[4]"),
        case(Mistake::RankingFullTailDirty, || of_40(largest, ZEROS, 40), "[5]", "[20003, ff]"),
        case(Mistake::RankingKeepsDirty, || of(largest, WIDE, 0), "[2]", "[20000, 0]"),
        case(Mistake::NoneIsNoWords, || of(largest, WIDE, 0), "[2]", "[]"),
        case(Mistake::AllTakenCopied, || of_40(smallest, &[1, 3], 40), "[5]", "[20003, ff]"),
    ]
}

/// What a mistake says of some k or of some rows holds of these alone.
#[test]
fn right_elsewhere() {
    let same = |m, right: &str, ask: &dyn Fn() -> String| assert_eq!(with_mistake(m, ask), right, "{m:?}");
    // All rows of a number are taken: nothing is cut.
    for m in [Mistake::TiesLeftOut, Mistake::TiesAllTaken, Mistake::LowestOfEnough, Mistake::CutLeavesSegment] {
        same(m, "[20000, 5]", &|| of(largest, &[0, 1], 2));
        same(m, "[2]", &|| of(largest, &[0, 1], 0));
    }
    // Only some of a number's rows are.
    for m in [Mistake::ExactLosesLast, Mistake::ExactLosesBetter] {
        same(m, "[20000, 3]", &|| of(smallest, ALIKE, 2));
    }
    // Not at a segment's end; at a segment's end.
    for m in [Mistake::CutAtEdgeOneMore, Mistake::CutAtEdgeLosesSegment] {
        same(m, "[20003, 1]", &|| of_40(largest, ZEROS, 33));
        same(m, "[20000, 7fffffff, 2]", &|| of_40(largest, ZEROS, 31));
    }
    for m in [Mistake::CutTakesSegment, Mistake::CutLeavesSegment] {
        same(m, "[3, 2]", &|| of_40(largest, ZEROS, 32));
    }
    // The other order, the other format, other columns.
    same(Mistake::LargestTiesHighest, "[20000, 1]", &|| of(smallest, ALIKE, 1));
    same(Mistake::SmallestTiesHighest, "[20000, 1]", &|| of(largest, ALIKE, 1));
    same(Mistake::SmallestTakesMissing, "[20000, a]", &|| of(largest, LATE, 2));
    same(Mistake::WahRankingTakesPads, "[40000, 1, 80]", &|| of_40(smallest, OVER_PADS, 2));
    same(Mistake::CutBy32, "[20003, 1]", &|| of_40(largest, ZEROS, 33));
    same(Mistake::RankedInSignedWord, "[20000, 4]", &|| of(largest, WIDE, 1));
    same(Mistake::AllTakenCopied, "[20003, 7f]", &|| of_40(smallest, &[1, 3], 39));
}
