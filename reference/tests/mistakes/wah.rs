//! The mistakes about WAH and rewriting: what is asked, the right answer, and the mistake's.

use std::fmt::Debug;

use super::common::*;
use super::ANY;
use reference::*;

pub struct Case {
    pub mistake: Mistake,
    pub ask: fn() -> String,
    pub right: &'static str,
    pub wrong: &'static str,
}

pub fn case(mistake: Mistake, ask: fn() -> String, right: &'static str, wrong: &'static str) -> Case {
    Case { mistake, ask, right, wrong }
}

pub fn all() -> Vec<Case> {
    [words(), checks(), ends(), rows(), pads(), runs(), indexes(), rewriting()].into_iter().flatten().collect()
}

/// A result, numbers in hexadecimal.
pub fn hex<T: Debug>(result: Result<T, Refusal>) -> String {
    match result {
        Ok(value) => format!("{value:x?}"),
        Err(r) => format!("refused {} {} {}", r.number, r.bitmap, r.word),
    }
}

/// A result, numbers in decimal.
pub fn told<T: Debug>(result: Result<T, Refusal>) -> String {
    match result {
        Ok(value) => format!("{value:?}"),
        Err(_) => hex(result),
    }
}

fn checked(body: &[u32], rows: u32) -> String {
    told(check_body(body, rows, Wah))
}

fn written(rows: u32, plain: &[u32]) -> String {
    hex(compress(rows, plain, Wah, ANY))
}

/// Indexes by their rows and WAH bodies.
fn wah(rows: u32, bodies: &[&[u32]]) -> Vec<u32> {
    index_in(Wah, rows, bodies)
}

/// 40 rows: all as a fill, all as literals, all but row 39, none.
pub fn tails() -> Vec<u32> {
    wah(40, &[&[0xC000_0002], &[0x7FFF_FFFF, 0x1FF], &[0x7FFF_FFFF, 0xFF], &[0x8000_0002]])
}

fn words() -> Vec<Case> {
    vec![
        case(Mistake::FillsReadAsOnes, || told(body_count(&[0x8000_0002], 62, Wah)), "0", "62"),
        case(Mistake::FillCountShort, || checked(&[0x8001_0002], 62), "refused 6 0 0", "()"),
        case(Mistake::FillValueCounted, || checked(&[0xC000_0002], 62), "()", "refused 6 0 0"),
        case(Mistake::LiteralHighestFirst, || hex(expand(&[1], 31, Wah, ANY)), "[1]", "[40000000]"),
    ]
}

fn checks() -> Vec<Case> {
    vec![
        case(Mistake::EmptyFillPasses, || checked(&[0x8000_0000, 0x8000_0002], 62), "refused 10 0 0", "()"),
        case(Mistake::EmptyFillIsSix, || checked(&[0x8000_0000, 0x8000_0002], 62), "refused 10 0 0", "refused 6 0 0"),
        case(Mistake::TenAfterSix, || checked(&[0x8000_0002, 0x8000_0000], 62), "refused 10 0 1", "refused 6 0 1"),
        case(Mistake::TenAfterAll, || checked(&[0x8000_0000, 0x8000_0003], 62), "refused 10 0 0", "refused 6 0 1"),
        case(Mistake::OnesFillRefused, || checked(&[0xC000_0002], 40), "()", "refused 7 0 0"),
        case(Mistake::LiteralPadPasses, || checked(&[0, 0x200], 40), "refused 7 0 1", "()"),
        case(Mistake::LiteralOnesPass, || checked(&[0, 0x7FFF_FFFF], 40), "refused 7 0 1", "()"),
        // Row 39.
        case(Mistake::LastSegmentBy32, || checked(&[0, 0x100], 40), "()", "refused 7 0 1"),
    ]
}

fn ends() -> Vec<Case> {
    vec![
        case(Mistake::FillPastEndPasses, || checked(&[0x8000_0003], 62), "refused 6 0 0", "()"),
        case(Mistake::LiteralPastEndPasses, || checked(&[0x8000_0002, 0], 62), "refused 6 0 1", "()"),
        case(Mistake::PastEndAtBodyEnd, || checked(&[0x8000_0003], 62), "refused 6 0 0", "refused 6 0 1"),
        case(Mistake::SegmentsBy32, || checked(&[0x8000_0002], 32), "()", "refused 6 0 0"),
        case(Mistake::EarlyEndPasses, || checked(&[0], 62), "refused 6 0 1", "()"),
        case(Mistake::EarlyEndAtLastWord, || checked(&[0], 62), "refused 6 0 1", "refused 6 0 0"),
    ]
}

fn rows() -> Vec<Case> {
    vec![
        case(
            Mistake::FillsJoined,
            || hex(threshold(&wah(93, &[&[0x8000_0001, 0x8000_0002]]), &[0], 1, ANY)),
            "Answer { words: [80000003], stretches: 2 }",
            "Answer { words: [80000003], stretches: 1 }",
        ),
        // Row 31 alone is set.
        case(Mistake::RowBy32, || told(body_row(&[0, 1], 62, Wah, 32).map(|row| row.set)), "false", "true"),
        case(Mistake::NthBy32, || told(body_nth(&[0, 1], 62, Wah, 0)), "31", "32"),
        case(Mistake::FillCounts32, || told(body_count(&[0xC000_0002], 62, Wah)), "62", "64"),
        case(Mistake::ExpandBySegments, || hex(expand(&[0, 1], 62, Wah, ANY)), "[80000000, 0]", "[0, 1]"),
        case(Mistake::CompressBySegments, || written(40, &[0x8000_0000, 0]), "[0, 1]", "[80000002]"),
        case(Mistake::PlainPadsBy31, || written(40, &[0, 0x100]), "refused 7 0 1", "[80000002]"),
    ]
}

fn pads() -> Vec<Case> {
    fn tally(list: &[u32]) -> String {
        told(histogram(&tails(), list).map(|tally| tally[..3].to_vec()))
    }
    vec![
        case(Mistake::WahRowInPads, || told(row(&tails(), 0, 40).map(|row| row.set)), "refused 8 0 0", "true"),
        case(Mistake::WahCountsPads, || told(count(&tails(), 0)), "40", "62"),
        case(Mistake::WahNthInPads, || told(nth(&tails(), 0, 40)), "refused 8 0 0", "40"),
        case(
            Mistake::WahExpandKeepsPads,
            || hex(expand_bitmap(&tails(), 0, ANY)),
            "[ffffffff, ff]",
            "[ffffffff, 3fffffff]",
        ),
        case(Mistake::WahNotFillsPads, || hex(not(&tails(), 2, ANY)), "[0, 100]", "[0, 7fffff00]"),
        case(Mistake::WahPairKeepsPads, || hex(xor(&tails(), 0, 2, ANY)), "[0, 100]", "[0, 7fffff00]"),
        case(
            Mistake::WahTableFillsPads,
            || hex(symmetric(&tails(), &[1], &[1, 0], ANY)),
            "Answer { words: [80000002], stretches: 2 }",
            "Answer { words: [0, 7ffffe00], stretches: 2 }",
        ),
        case(Mistake::WahTallyCountsPads, || tally(&[0, 1]), "[0, 0, 40]", "[22, 0, 40]"),
        // 1 + 0 in row 39, 1 + 1 in the others; of the pads, 1 + 0.
        case(
            Mistake::WahSumKeepsPads,
            || hex(sum(&tails(), &[0, 0], &[0, 2], ANY)),
            "[2, 28, 3, 9, 1, a, 2, c, 2, c0000002, 0, 100, 7fffffff, ff]",
            "[2, 28, 3, 9, 1, a, 2, c, 2, c0000002, 0, 7fffff00, 7fffffff, ff]",
        ),
    ]
}

fn runs() -> Vec<Case> {
    vec![
        case(
            Mistake::CleanKeptLiteral,
            || hex(and(&wah(93, &[&[0, 1, 0], &[0x8000_0001, 2, 0x8000_0001]]), 0, 1, ANY)),
            "[80000003]",
            "[0, 0, 0]",
        ),
        case(Mistake::LoneCleanAsFill, || written(31, &[0]), "[0]", "[80000001]"),
        case(Mistake::RunInTwoFills, || written(124, &[0; 4]), "[80000004]", "[80000002, 80000002]"),
        case(Mistake::LoneLeftBehind, || written(93, &[0; 3]), "[80000003]", "[0, 80000002]"),
        case(Mistake::PairAsLiterals, || written(62, &[0; 2]), "[80000002]", "[0, 0]"),
        // 65,536 segments of 31 rows.
        case(Mistake::FillCutAtMarkerLimit, || written(2_031_616, &[0; 63_488]), "[80010000]", "[8000ffff, 0]"),
        case(Mistake::OnesPairIsZeros, || written(62, &[u32::MAX, 0x3FFF_FFFF]), "[c0000002]", "[80000002]"),
        case(Mistake::FullTailPadsWritten, || written(9, &[0x1FF]), "[1ff]", "[7fffffff]"),
        case(Mistake::FullTailLiteral, || written(40, &[u32::MAX, 0xFF]), "[c0000002]", "[7fffffff, 1ff]"),
    ]
}

fn indexes() -> Vec<Case> {
    // No row exists.
    fn nothing() -> String {
        hex(sum(&tails(), &[3, 3], &[3, 3], ANY))
    }
    vec![
        case(Mistake::KindThreeIsWah, || told(check(&[3, 40, 0])), "refused 2 0 0", "()"),
        case(Mistake::KindTwoRefused, || told(check(&[2, 40, 0])), "()", "refused 2 0 0"),
        case(Mistake::AnswerInEwah, || hex(not(&tails(), 3, ANY)), "[c0000002]", "[5]"),
        case(
            Mistake::SumKindOne,
            nothing,
            "[2, 28, 3, 9, 1, a, 1, b, 1, 80000002, 80000002, 80000002]",
            "[1, 28, 3, 9, 1, a, 1, b, 1, 80000002, 80000002, 80000002]",
        ),
        case(
            Mistake::SumBodiesInEwah,
            nothing,
            "[2, 28, 3, 9, 1, a, 1, b, 1, 80000002, 80000002, 80000002]",
            "[2, 28, 3, 9, 1, a, 1, b, 1, 4, 4, 4]",
        ),
    ]
}

fn rewriting() -> Vec<Case> {
    /// The same body from WAH.
    fn again(body: &[u32], rows: u32, to: Format, room: usize) -> String {
        hex(rewrite(body, rows, Wah, to, room))
    }
    /// None of 62 rows, twice.
    fn whole(room: usize) -> String {
        hex(rewrite_index(&wah(62, &[&[0, 0], &[0x8000_0002]]), Ewah, room))
    }
    fn torn() -> Vec<u32> {
        wah(62, &[&[0x8000_0002], &[0x8000_0003]])
    }
    vec![
        case(Mistake::RewriteLosesTail, || again(&[0xC000_0002], 40, Ewah, ANY), "[5]", "[3]"),
        case(Mistake::RewriteKeepsPads, || again(&[0xC000_0002], 32, Ewah, ANY), "[3]", "[5]"),
        // Row 31 alone is set.
        case(Mistake::RewriteByWords, || again(&[0, 1], 62, Ewah, ANY), "[20000, 80000000, 2]", "[20002, 1]"),
        case(Mistake::SameFormatCopied, || again(&[0, 0], 62, Wah, ANY), "[80000002]", "[0, 0]"),
        case(Mistake::RewriteRoomByOld, || again(&[0, 0], 62, Wah, 1), "[80000002]", "refused 9 0 2"),
        case(Mistake::RewriteChecksOwnBody, || hex(rewrite_bitmap(&torn(), 0, Ewah, ANY)), "refused 6 1 8", "[4]"),
        case(Mistake::RewrittenKindKept, || hex(rewrite_index(&[2, 62, 0], Ewah, ANY)), "[1, 3e, 0]", "[2, 3e, 0]"),
        case(
            Mistake::RewrittenContentsKept,
            || whole(ANY),
            "[1, 3e, 2, 7, 1, 8, 1, 4, 4]",
            "[1, 3e, 2, 7, 2, 9, 1, 4, 4]",
        ),
        case(Mistake::RewriteNeedsBodiesOnly, || whole(0), "refused 9 0 9", "refused 9 0 2"),
    ]
}
