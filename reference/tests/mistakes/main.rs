//! Each mistake changes the result of some hand-made input.

mod appending;
#[path = "../common/mod.rs"]
mod common;
mod limits;
mod pairs;
mod pieces;
mod ranks;
mod wah;
use common::*;
use reference::limits::{DIRTY_SHIFT, ENTRY_WORDS, HEAD_WORDS, WORD_BITS};
use reference::limits::{MOST_CLEAN, MOST_DIRTY, MOST_SUMMED, MOST_VALUED};
use reference::*;

const ANY: usize = usize::MAX;

/// So many segments of this word, compressed.
fn repeated(word: u32, segments: usize) -> Result<Vec<u32>, Refusal> {
    compress((WORD_BITS * segments) as u32, &vec![word; segments], Ewah, ANY)
}

/// 4 rows, one segment each: 0 to 2; 0 and 2; 1 and 2; 1 to 3; 3; none.
fn columns() -> Vec<u32> {
    let one = |rows| [0x0002_0000, rows];
    index_of(4, &[&one(0x7), &one(0x5), &one(0x6), &one(0xE), &one(0x8), &[2]])
}

/// The same for the mistakes about columns.
fn column_case(m: Mistake) -> String {
    let index = columns();
    let value_of = |list: &[u32], row| format!("{:?}", value(&index, list, row));
    let summed = |first: &[u32], second: &[u32], room| sum_text(&index, first, second, room);
    match m {
        Mistake::CarryDropped => summed(&[0, 1], &[0, 1], ANY),
        Mistake::StraysLetThrough => summed(&[0, 4], &[0, 1], ANY),
        Mistake::ValueSkipsStrays => value_of(&[0, 2, 4], 1),
        Mistake::StrayTellsPlace => value_of(&[0, 1, 4], 1),
        Mistake::StrayTellsHighestRow => value_of(&[4, 3], 3),
        Mistake::SecondColumnFirst => summed(&[0, 4], &[3, 0], ANY),
        Mistake::SumSliceUnmasked => summed(&[0, 1], &[3, 5], ANY),
        Mistake::EmptySlicesLeftOut => summed(&[0, 1], &[0, 5], ANY),
        Mistake::SumExistsInEither => summed(&[0, 5], &[3, 5], ANY),
        Mistake::TopSliceLeftOut => summed(&[0, 1, 2], &[3, 2], ANY),
        Mistake::StrayBeforeRow => value_of(&[0, 4], 3),
        Mistake::StrayBeforeSecondList => summed(&[0, 4], &[0], ANY),
        Mistake::NoRoomBeforeStray => summed(&[0, 4], &[0, 1], 0),
        Mistake::MissingRowIsZero => value_of(&[0, 1], 3),
        Mistake::SumTakesOneMore => summed(&[5; MOST_SUMMED + 1], &[5, 5], 0),
        Mistake::ValueTakesOneLess => value_of(&[0; MOST_VALUED], 0),
        Mistake::StrayLowestOfAll => value_of(&[2, 4, 1], 1),
        Mistake::StrayAgainstBoth => summed(&[0, 1], &[3, 2], ANY),
        Mistake::NeedWithoutContents => summed(&[0, 1], &[0, 5], 13),
        Mistake::SumCutAtWord => summed(&[0; MOST_SUMMED], &[0, 0], ANY),
        Mistake::LastSliceUnsearched => {
            let mut list = [1; MOST_VALUED];
            (list[0], list[MOST_VALUED - 1]) = (0, 4);
            value_of(&list, 0)
        }
        _ => unreachable!("not about columns"),
    }
}

fn sum_text(index: &[u32], first: &[u32], second: &[u32], room: usize) -> String {
    bodies_text(sum(index, first, second, room))
}

/// The bodies of a new index, one after the other, or why there is none. The contents are due by the bodies.
fn bodies_text(index: Result<Vec<u32>, Refusal>) -> String {
    match index {
        Ok(words) => {
            let entries = words[HEAD_WORDS..].chunks(ENTRY_WORDS).take(words[2] as usize);
            let bodies = entries.map(|entry| &words[entry[0] as usize..][..entry[1] as usize]);
            format!("{:x?}", bodies.collect::<Vec<_>>())
        }
        Err(refusal) => format!("Err({refusal:?})"),
    }
}

/// So many segments under one marker's dirty words, each with its lowest row set.
fn lowest_rows(segments: usize) -> (Vec<u32>, u32) {
    let mut body = vec![(segments as u32) << DIRTY_SHIFT];
    body.resize(1 + segments, 1);
    (body, (WORD_BITS * segments) as u32)
}

/// The same for the mistakes about blocks of dirty words.
fn block_case(m: Mistake) -> String {
    let counted = |segments| {
        let (body, rows) = lowest_rows(segments);
        format!("{:?}", body_count(&body, rows, Ewah))
    };
    let nth_of = |segments, n| {
        let (body, rows) = lowest_rows(segments);
        format!("{:?}", body_nth(&body, rows, Ewah, n))
    };
    match m {
        Mistake::WordsPastBlocksMissed => counted(130),
        Mistake::LaterBlocksMissed => counted(193),
        Mistake::FullColumnsMissed => counted(67),
        Mistake::PassedBlockKept => nth_of(1_100, 1_030),
        Mistake::NthInFirstBlock => nth_of(1_100, 1_025),
        _ => column_case(m),
    }
}

/// 40 rows: all as a run, all with a dirty word, all but row 39, none.
fn tails() -> Vec<u32> {
    index_of(40, &[&[5], &[0x0002_0003, 0xFF], &[0x0002_0003, 0x7F], &[4]])
}

/// The same for the mistakes about the last segment.
fn tail_case(m: Mistake) -> String {
    let index = tails();
    let compressed = |last| format!("{:x?}", compress(40, &[u32::MAX, last], Ewah, ANY));
    let summed = |first: &[u32], second: &[u32]| sum_text(&index, first, second, ANY);
    let chosen = |list: &[u32], table: &[u32]| format!("{:x?}", symmetric(&index, list, table, ANY));
    match m {
        Mistake::RunCountsPads => format!("{:?}", body_count(&[5], 40, Ewah)),
        Mistake::OnesRunRefused => format!("{:?}", check_body(&[2, 3], 40, Ewah)),
        Mistake::OnesRunPastEnd => format!("{:?}", check_body(&[7], 40, Ewah)),
        Mistake::DirtyPadPasses => format!("{:?}", check_body(&[0x0002_0003, 0x1FF], 40, Ewah)),
        Mistake::PlainOnesPass => compressed(u32::MAX),
        Mistake::RunSplitAtPads => format!("{:x?}", threshold(&index, &[0, 3], 2, ANY)),
        Mistake::RowInPads => format!("{:?}", row(&index, 0, 63)),
        Mistake::NthInPads => format!("{:?}", nth(&index, 0, 40)),
        Mistake::ExpandKeepsPads => format!("{:x?}", expand_bitmap(&index, 0, ANY)),
        Mistake::FullTailDirty | Mistake::FullTailOwnRun => compressed(0xFF),
        Mistake::SumFullTailDirty => summed(&[0, 0], &[1, 1]),
        Mistake::NotKeepsPads | Mistake::NotKeepsRun => format!("{:x?}", not(&index, 0, ANY)),
        Mistake::PairKeepsPads => format!("{:x?}", xor(&index, 0, 2, ANY)),
        Mistake::TableFillsUnderRun => chosen(&[0], &[1, 0]),
        Mistake::TableKeepsPads => chosen(&[0, 2], &[0, 1, 0]),
        Mistake::TallyCountsRunPads => format!("{:?}", histogram(&index, &[0, 1]).map(|tally| tally[..3].to_vec())),
        Mistake::PadIsStray => format!("{:?}", value(&index, &[1, 0], 0)),
        Mistake::ValueInPads => format!("{:?}", value(&index, &[0, 0, 2], 40)),
        Mistake::SumKeepsPads => summed(&[0, 0], &[0, 2]),
        _ => block_case(m),
    }
}

/// The mistakes that have tables of their own.
fn tables() -> Vec<wah::Case> {
    [wah::all(), pieces::all(), limits::all(), pairs::all(), ranks::all(), appending::all()]
        .into_iter()
        .flatten()
        .collect()
}

fn find(m: Mistake) -> Option<wah::Case> {
    tables().into_iter().find(|case| case.mistake == m)
}

/// A result in words, the case chosen for this mistake.
fn case(m: Mistake) -> String {
    find(m).map_or_else(|| ewah_case(m), |case| (case.ask)())
}

/// The same for the mistakes that were there before WAH.
fn ewah_case(m: Mistake) -> String {
    let list = [0, 1, 2];
    let padded = index_of(40, &[&[4], &FORTY]);
    let ninety_six = index_of(96, &[&[6], &FIVE_64]);
    match m {
        Mistake::TableFillsPads => format!("{:x?}", symmetric(&padded, &[1], &[1, 0], ANY)),
        Mistake::RunCarries => format!("{:x?}", repeated(0, MOST_CLEAN + 1)),
        Mistake::RoomByBound => format!("{:x?}", threshold(&LOOPED, &list, 2, 2)),
        Mistake::NthPastGivesLast => format!("{:?}", nth(&LOOPED, 0, 2)),
        Mistake::ThresholdAboveT => format!("{:x?}", threshold(&LOOPED, &list, 2, ANY)),
        Mistake::RepeatCountsOnce => format!("{:x?}", threshold(&LOOPED, &[0, 0], 2, ANY)),
        Mistake::StretchPerBitmap => format!("{:x?}", threshold(&ninety_six, &[0, 1], 1, ANY)),
        Mistake::AndNotSwapped => format!("{:x?}", and_not(&LOOPED, 0, 1, ANY)),
        Mistake::TallyCountsPads => format!("{:?}", &histogram(&LOOPED, &list).unwrap()[..4]),
        Mistake::CleanKeptDirty => format!("{:x?}", and(&LOOPED, 0, 2, ANY)),
        Mistake::FullMarkerOneMore => {
            let words = repeated(1, MOST_DIRTY + 1).unwrap();
            format!("{} {:x}", words.len(), words[0])
        }
        Mistake::NotFillsPads => format!("{:x?}", not(&padded, 1, ANY)),
        Mistake::FinalEndUnchecked => format!("{:?}", check(&[1, 32, 1, 5, 1, 2, 2])),
        Mistake::SixBeforeFive => format!("{:?}", check_body(&[0x0004_0000, 1], 32, Ewah)),
        Mistake::LengthBeforeStart => format!("{:?}", check(&[1, 32, 1, 6, 2, 2])),
        Mistake::MissingAtLastWord => format!("{:?}", check_body(&[2], 64, Ewah)),
        Mistake::RowPastEndFalse => format!("{:?}", row(&LOOPED, 0, 4)),
        Mistake::TableTwoIsYes => format!("{:x?}", symmetric(&LOOPED, &list, &[0, 0, 2, 0], ANY)),
        Mistake::HighThresholdEmpty => format!("{:x?}", threshold(&LOOPED, &list, 4, ANY)),
        Mistake::IdleMarkerRefused => format!("{:?}", check(&index_of(32, &[&[0, 2]]))),
        Mistake::NoRoomTellsBuffer => format!("{:?}", threshold(&LOOPED, &list, 2, 1)),
        _ => tail_case(m),
    }
}

const FORTY: [u32; 3] = [0x0004_0000, 1, 0x80];

fn refused(number: u32, bitmap: u32, word: u64) -> String {
    format!("Err({:?})", no(number, bitmap, word))
}

fn answer(words: &str, stretches: u32) -> String {
    format!("Ok(Answer {{ words: [{words}], stretches: {stretches} }})")
}

/// A sum of rows 0 to 2: 32 empty slices, then this one on top.
fn wide(top: &str) -> String {
    format!("[[20000, 7], {}{top}]", "[2], ".repeat(32))
}

/// The same for the mistakes about columns.
fn column_expected(m: Mistake) -> (String, String) {
    let bad = || refused(8, 0, 0);
    let text = |s: &str| s.to_string();
    match m {
        Mistake::CarryDropped => (text("[[20000, 7], [2], [20000, 5]]"), text("[[20000, 7], [2], [2]]")),
        Mistake::StraysLetThrough => (refused(11, 4, 3), text("[[20000, 7], [20000, 5], [2]]")),
        Mistake::ValueSkipsStrays => (refused(11, 4, 3), text("Ok(1)")),
        Mistake::StrayTellsPlace => (refused(11, 4, 3), refused(11, 2, 3)),
        Mistake::StrayTellsHighestRow => (refused(11, 3, 1), refused(11, 3, 2)),
        Mistake::SecondColumnFirst => (refused(11, 4, 3), refused(11, 0, 0)),
        // Row 0 is in the first column only.
        Mistake::SumSliceUnmasked => (text("[[20000, 6], [20000, 4], [2]]"), text("[[20000, 6], [20000, 5], [2]]")),
        Mistake::EmptySlicesLeftOut => (text("[[20000, 7], [20000, 5], [2]]"), text("[[20000, 7], [20000, 5]]")),
        Mistake::SumExistsInEither => (text("[[20000, 6], [2], [2]]"), text("[[3], [2], [2]]")),
        // Row 1: 2 + 1 = 3. Row 2: 3 + 1 = 4.
        Mistake::TopSliceLeftOut => {
            (text("[[20000, 6], [20000, 2], [20000, 2], [20000, 4]]"), text("[[20000, 6], [20000, 2], [20000, 2]]"))
        }
        Mistake::StrayBeforeRow => (bad(), refused(11, 4, 3)),
        Mistake::StrayBeforeSecondList => (bad(), refused(11, 4, 3)),
        // Three bodies: 9 words of contents, then 2, 2 and 1.
        Mistake::NoRoomBeforeStray => (refused(11, 4, 3), refused(9, 0, 14)),
        Mistake::MissingRowIsZero => (bad(), text("Ok(0)")),
        // 35 bodies of one word: 73 words of contents, then 35.
        Mistake::SumTakesOneMore => (bad(), refused(9, 0, 108)),
        Mistake::ValueTakesOneLess => (text("Ok(8589934591)"), bad()),
        Mistake::StrayLowestOfAll => (refused(11, 4, 3), refused(11, 1, 0)),
        // Row 1: 0 + 1 = 1. Row 2: 1 + 1 = 2. Row 0 is the first column's alone.
        Mistake::StrayAgainstBoth => (text("[[20000, 6], [20000, 2], [20000, 4]]"), refused(11, 1, 0)),
        // Bodies of 2, 2 and 1 behind 9 words of contents.
        Mistake::NeedWithoutContents => (refused(9, 0, 14), refused(9, 0, 5)),
        // 4294967295 + 1 in each row.
        Mistake::SumCutAtWord => (wide("[20000, 7]"), wide("[2]")),
        // 32 slices have row 0.
        Mistake::LastSliceUnsearched => (refused(11, 4, 3), text("Ok(4294967295)")),
        _ => unreachable!("not about columns"),
    }
}

/// The same for the mistakes about blocks of dirty words.
fn block_expected(m: Mistake) -> (String, String) {
    let text = |s: &str| s.to_string();
    match m {
        // Two blocks of 64 and 2 words.
        Mistake::WordsPastBlocksMissed => (text("Ok(130)"), text("Ok(128)")),
        // Three blocks and a word.
        Mistake::LaterBlocksMissed => (text("Ok(193)"), text("Ok(65)")),
        // Four columns of 16.
        Mistake::FullColumnsMissed => (text("Ok(67)"), text("Ok(3)")),
        // Two blocks of 512 are passed, and 1,030 rows are still to pass in 76.
        Mistake::PassedBlockKept => (text("Ok(32960)"), refused(8, 0, 0)),
        // Row 0 of segment 1,025, told as of segment 1.
        Mistake::NthInFirstBlock => (text("Ok(32800)"), text("Ok(32)")),
        _ => column_expected(m),
    }
}

/// The same for the mistakes about the last segment.
fn tail_expected(m: Mistake) -> (String, String) {
    let bad = || refused(8, 0, 0);
    let text = |s: &str| s.to_string();
    match m {
        Mistake::RunCountsPads => (text("Ok(40)"), text("Ok(64)")),
        Mistake::OnesRunRefused => (text("Ok(())"), refused(7, 0, 1)),
        Mistake::OnesRunPastEnd => (refused(6, 0, 0), text("Ok(())")),
        Mistake::DirtyPadPasses => (refused(7, 0, 1), text("Ok(())")),
        Mistake::PlainOnesPass => (refused(7, 0, 1), text("Ok([5])")),
        Mistake::RunSplitAtPads => (answer("4", 1), answer("4", 2)),
        Mistake::RowInPads => (bad(), text("Ok(Row { set: true, first: 0, last: 39 })")),
        Mistake::NthInPads => (bad(), text("Ok(40)")),
        Mistake::ExpandKeepsPads => (text("Ok([ffffffff, ff])"), text("Ok([ffffffff, ffffffff])")),
        Mistake::FullTailDirty => (text("Ok([5])"), text("Ok([20003, ff])")),
        Mistake::FullTailOwnRun => (text("Ok([5])"), text("Ok([3, 3])")),
        Mistake::SumFullTailDirty => (text("[[5], [4], [5]]"), text("[[20003, ff], [4], [20003, ff]]")),
        Mistake::NotKeepsPads => (text("Ok([4])"), text("Ok([20002, ffffff00])")),
        Mistake::NotKeepsRun => (text("Ok([4])"), text("Ok([2, 3])")),
        Mistake::PairKeepsPads => (text("Ok([20002, 80])"), text("Ok([20002, ffffff80])")),
        Mistake::TableFillsUnderRun => (answer("4", 1), answer("20002, ffffff00", 1)),
        Mistake::TableKeepsPads => (answer("20002, 80", 2), answer("20002, ffffff80", 2)),
        Mistake::TallyCountsRunPads => (text("Ok([0, 0, 40])"), text("Ok([0, 24, 40])")),
        Mistake::PadIsStray => (text("Ok(1)"), refused(11, 0, 40)),
        Mistake::ValueInPads => (bad(), text("Ok(1)")),
        // 1 + 0 in row 39, 1 + 1 in the others; of the pads, 1 + 0.
        Mistake::SumKeepsPads => {
            (text("[[5], [20002, 80], [20003, 7f]]"), text("[[5], [20002, ffffff80], [20003, 7f]]"))
        }
        _ => block_expected(m),
    }
}

/// (without, with) as they should be.
fn expected(m: Mistake) -> (String, String) {
    find(m).map_or_else(|| ewah_expected(m), |case| (case.right.to_string(), case.wrong.to_string()))
}

/// The same for the mistakes that were there before WAH.
fn ewah_expected(m: Mistake) -> (String, String) {
    let bad = || refused(8, 0, 0);
    let text = |s: &str| s.to_string();
    match m {
        Mistake::TableFillsPads => (answer("40000, fffffffe, 7f", 2), answer("40000, fffffffe, ffffff7f", 2)),
        Mistake::RunCarries => (text("Ok([1fffe, 2])"), text("Ok([20000])")),
        // "c" is twelve: twice the six named words.
        Mistake::RoomByBound => (answer("20000, a", 1), text("Err(Refusal { number: 9, bitmap: 0, word: c })")),
        Mistake::NthPastGivesLast => (bad(), text("Ok(1)")),
        Mistake::ThresholdAboveT => (answer("20000, a", 1), answer("2", 1)),
        Mistake::RepeatCountsOnce => (answer("20000, 3", 1), answer("2", 1)),
        Mistake::StretchPerBitmap => (answer("20000, 20, 20002, 1", 3), answer("20000, 20, 20002, 1", 4)),
        Mistake::AndNotSwapped => (text("Ok([20000, 1])"), text("Ok([20000, c])")),
        Mistake::TallyCountsPads => (text("[0, 2, 2, 0]"), text("[28, 2, 2, 0]")),
        Mistake::CleanKeptDirty => (text("Ok([2])"), text("Ok([20000, 0])")),
        Mistake::FullMarkerOneMore => (text("32770 fffe0000"), text("32769 0")),
        Mistake::NotFillsPads => (text("Ok([40000, fffffffe, 7f])"), text("Ok([40000, fffffffe, ffffff7f])")),
        Mistake::FinalEndUnchecked => (refused(4, 0, 6), text("Ok(())")),
        Mistake::SixBeforeFive => (refused(5, 0, 0), refused(6, 0, 0)),
        Mistake::LengthBeforeStart => (refused(4, 0, 3), refused(4, 0, 4)),
        Mistake::MissingAtLastWord => (refused(6, 0, 1), refused(6, 0, 0)),
        Mistake::RowPastEndFalse => (bad(), text("Ok(Row { set: false, first: 4, last: 4 })")),
        Mistake::TableTwoIsYes => (bad(), answer("20000, a", 1)),
        Mistake::HighThresholdEmpty => (bad(), answer("2", 1)),
        Mistake::IdleMarkerRefused => (text("Ok(())"), refused(6, 0, 5)),
        Mistake::NoRoomTellsBuffer => (refused(9, 0, 2), refused(9, 0, 1)),
        _ => tail_expected(m),
    }
}

/// The mistakes that a small case shows.
fn short() -> impl Iterator<Item = Mistake> {
    Mistake::ALL.iter().copied().filter(|m| !limits::LONG.contains(m))
}

#[test]
fn each_mistake_shows() {
    assert_eq!(Mistake::ALL.len(), 68 + tables().len() + limits::LONG.len());
    for (place, &m) in Mistake::ALL.iter().enumerate() {
        assert!(!Mistake::ALL[..place].contains(&m));
    }
    for m in short() {
        let before = case(m);
        let during = with_mistake(m, || case(m));
        let after = case(m);
        assert_ne!(before, during, "{m:?}");
        assert_eq!(before, after, "{m:?}");
        assert_eq!((before, during), expected(m), "{m:?}");
    }
}

/// A mistake touches its own case and few others; none shows in all of them.
#[test]
fn no_mistake_shows_everywhere() {
    let rights: Vec<(Mistake, String)> = short().map(|m| (m, case(m))).collect();
    for m in short() {
        let shown = rights.iter().filter(|(c, right)| with_mistake(m, || case(*c)) != *right).count();
        assert!((1..rights.len() / 3).contains(&shown), "{m:?} {shown}");
    }
}

#[test]
fn switched_off_after_a_panic() {
    let caught = std::panic::catch_unwind(|| with_mistake(Mistake::AndNotSwapped, || panic!("on purpose")));
    assert!(caught.is_err());
    assert_eq!(case(Mistake::AndNotSwapped), "Ok([20000, 1])");
}

#[test]
fn other_threads_are_free_of_it() {
    with_mistake(Mistake::AndNotSwapped, || {
        let there = std::thread::spawn(|| case(Mistake::AndNotSwapped)).join().unwrap();
        assert_eq!(there, "Ok([20000, 1])");
        assert_eq!(case(Mistake::AndNotSwapped), "Ok([20000, c])");
    });
}
