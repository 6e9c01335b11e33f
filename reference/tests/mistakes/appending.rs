//! The mistakes about a writer in batches. A result is what is told, the state as room/rows/words, and the buffer.

use super::common::*;
use super::wah::{case, told, Case};
use reference::limits::*;
use reference::*;

pub fn all() -> Vec<Case> {
    let tables =
        [numbers(), bodies(), long_bodies(), order(), rows(), words(), room(), none(), left(), joins(), long()];
    tables.into_iter().flatten().collect()
}

const HIGH: u64 = 1 << 32;
const MOST: u64 = MOST_ROWS as u64;

/// Words in hexadecimal, equal neighbours counted.
fn text(words: &[u32]) -> String {
    let run = |run: &[u32]| match run.len() {
        1 => format!("{:x}", run[0]),
        length => format!("{:x}*{length}", run[0]),
    };
    words.chunk_by(|a, b| a == b).map(run).collect::<Vec<_>>().join(" ")
}

fn state_text(state: AppendState) -> String {
    format!("{}/{}/{}", state.room, state.rows, state.words)
}

/// What comes of a batch.
fn batch([room, rows, words]: [u64; 3], buffer: &[u32], more: u32, plain: &[u32]) -> String {
    let (mut state, mut buffer) = (AppendState { room, rows, words }, buffer.to_vec());
    let result = told(append(&mut state, &mut buffer, more, plain));
    format!("{result} {} {}", state_text(state), text(&buffer))
}

/// 8 rows, the lowest four set.
const EIGHT: [u32; 4] = [0x0002_0000, 0xF, 0xA, 0xB];
const AT_EIGHT: [u64; 3] = [4, 8, 2];

/// A batch behind them, in a buffer of four words or of two.
fn behind(more: u32, plain: &[u32]) -> String {
    batch(AT_EIGHT, &EIGHT, more, plain)
}

fn behind_in_two(more: u32, plain: &[u32]) -> String {
    batch([2, 8, 2], &EIGHT[..2], more, plain)
}

/// 8 rows more, the highest four set, with such a state.
fn eight_more(state: [u64; 3], buffer: &[u32]) -> String {
    batch(state, buffer, 8, &[0xF0])
}

const SIXTEEN: &str = "2 4/16/2 20000 f00f a b";

/// None set, of rows about the most: so many segments under the last marker, 512 under none.
fn most(rows: u64, last: u32) -> ([u64; 3], Vec<u32>) {
    ([513, rows, 513], [&[0x1_FFFE; 512][..], &[last << 1]].concat())
}

fn most_and(rows: u64, last: u32, more: u32, plain: &[u32]) -> String {
    let (state, buffer) = most(rows, last);
    batch(state, &buffer, more, plain)
}

/// The three numbers of a state.
fn numbers() -> Vec<Case> {
    vec![
        case(Mistake::BegunInBytes, || state_text(begin(&[7; 3])), "3/0/0", "12/0/0"),
        case(
            Mistake::RoomUncompared,
            || eight_more([5, 8, 2], &EIGHT),
            "refused 12 0 0 5/8/2 20000 f a b",
            "2 5/16/2 20000 f00f a b",
        ),
        case(
            Mistake::LongerBufferPasses,
            || eight_more([3, 8, 2], &EIGHT),
            "refused 12 0 0 3/8/2 20000 f a b",
            "2 3/16/2 20000 f00f a b",
        ),
        case(
            Mistake::ShorterBufferPasses,
            || eight_more([5, 8, 2], &EIGHT),
            "refused 12 0 0 5/8/2 20000 f a b",
            "2 5/16/2 20000 f00f a b",
        ),
        case(
            Mistake::RoomInWord,
            || eight_more([HIGH + 4, 8, 2], &EIGHT),
            "refused 12 0 0 4294967300/8/2 20000 f a b",
            SIXTEEN,
        ),
        case(
            Mistake::StateRowsPass,
            || most_and(MOST + 1, 513, 0, &[]),
            "refused 12 0 0 513/1073741825/513 1fffe*512 402",
            "refused 3 0 1 513/1073741825/513 1fffe*512 402",
        ),
        case(
            Mistake::FullRowsRefused,
            || most_and(MOST, 512, 0, &[]),
            "513 513/1073741824/513 1fffe*512 400",
            "refused 12 0 0 513/1073741824/513 1fffe*512 400",
        ),
        case(
            Mistake::StateRowsInWord,
            || eight_more([4, HIGH + 8, 2], &EIGHT),
            "refused 12 0 0 4/4294967304/2 20000 f a b",
            SIXTEEN,
        ),
        case(
            Mistake::StateWordsPass,
            || eight_more([2, 8, 3], &EIGHT[..2]),
            "refused 12 0 0 2/8/3 20000 f",
            "2 2/16/2 20000 f00f",
        ),
        case(
            Mistake::FullBufferRefused,
            || behind_in_two(8, &[0xF0]),
            "2 2/16/2 20000 f00f",
            "refused 12 0 0 2/8/2 20000 f",
        ),
        case(
            Mistake::StateWordsInWord,
            || eight_more([4, 8, HIGH + 2], &EIGHT),
            "refused 12 0 0 4/8/4294967298 20000 f a b",
            SIXTEEN,
        ),
        case(
            Mistake::WordsWithoutRowsPass,
            || eight_more([4, 0, 1], &[9, 0xA, 0xB, 0xC]),
            "refused 12 0 0 4/0/1 9 a b c",
            "2 4/8/2 20000 f0 b c",
        ),
        case(
            Mistake::RowsWithoutWordsPass,
            || eight_more([4, 8, 0], &EIGHT),
            "refused 12 0 0 4/8/0 20000 f a b",
            "2 4/16/2 20000 f000 a b",
        ),
        case(
            Mistake::FreshBufferLookedAt,
            || eight_more([4, 0, 0], &EIGHT),
            "2 4/8/2 20000 f0 a b",
            "refused 12 0 0 4/0/0 20000 f a b",
        ),
    ]
}

/// The body in use.
fn bodies() -> Vec<Case> {
    vec![
        case(
            Mistake::DirtyPastUsePasses,
            || eight_more([4, 8, 1], &EIGHT),
            "refused 12 0 0 4/8/1 20000 f a b",
            "2 4/16/2 20000 f000 a b",
        ),
        case(
            Mistake::LongBodyPasses,
            || eight_more([4, 8, 1], &[4, 0xF, 0xA, 0xB]),
            "refused 12 0 0 4/8/1 4 f a b",
            "2 4/16/2 20000 f000 a b",
        ),
        case(
            Mistake::ShortBodyPasses,
            || eight_more([4, 40, 1], &[2, 0xF, 0xA, 0xB]),
            "refused 12 0 0 4/40/1 2 f a b",
            "2 4/48/2 20002 f000 a b",
        ),
        case(
            Mistake::PadInUsePasses,
            || eight_more(AT_EIGHT, &[0x0002_0000, 0x10F, 0xA, 0xB]),
            "refused 12 0 0 4/8/2 20000 10f a b",
            SIXTEEN,
        ),
        // Two runs of one segment.
        case(
            Mistake::WastefulPasses,
            || batch([4, 64, 2], &[2, 2, 0xA, 0xB], 32, &[0]),
            "refused 12 0 0 4/64/2 2*2 a b",
            "1 4/96/1 6 2 a b",
        ),
        case(
            Mistake::ShortestPasses,
            || batch([6, 96, 4], &[&FIVE_64_WASTEFUL[..], &[9, 0xA]].concat(), 32, &[0]),
            "refused 12 0 0 6/96/4 60000 20 0 1 9 a",
            "5 6/128/5 20000 20 20002 1 2 a",
        ),
        case(
            Mistake::IdleMarkersPass,
            || eight_more([4, 8, 3], &[0, 0x0002_0000, 0xF, 0xB]),
            "refused 12 0 0 4/8/3 0 20000 f b",
            "2 4/16/2 20000 f00f f b",
        ),
        // No row of the first segment.
        case(
            Mistake::CleanDirtyPasses,
            || batch([4, 64, 3], &[0x0004_0000, 0, 0xF, 0xB], 32, &[0]),
            "refused 12 0 0 4/64/3 40000 0 f b",
            "3 4/96/3 20002 f 2 b",
        ),
        case(
            Mistake::DirtyFullTailPasses,
            || eight_more(AT_EIGHT, &[0x0002_0000, 0xFF, 0xA, 0xB]),
            "refused 12 0 0 4/8/2 20000 ff a b",
            "2 4/16/2 20000 f0ff a b",
        ),
        case(
            Mistake::UnjoinedPasses,
            || batch([4, 64, 2], &[3, 3, 0xA, 0xB], 32, &[0]),
            "refused 12 0 0 4/64/2 3*2 a b",
            "2 4/96/2 5 2 a b",
        ),
        case(
            Mistake::EmptyRunOfOnesPasses,
            || eight_more(AT_EIGHT, &[0x0002_0001, 0xF, 0xA, 0xB]),
            "refused 12 0 0 4/8/2 20001 f a b",
            SIXTEEN,
        ),
        case(
            Mistake::BrokenStateTellsPlace,
            || eight_more([4, 40, 1], &[2, 0xF, 0xA, 0xB]),
            "refused 12 0 0 4/40/1 2 f a b",
            "refused 12 0 1 4/40/1 2 f a b",
        ),
    ]
}

fn long_bodies() -> Vec<Case> {
    vec![
        // 65,536 segments, the full marker last.
        case(
            Mistake::LongRunAnyhowPasses,
            || batch([3, 2_097_152, 2], &[2, 0x1_FFFE, 0xA], 32, &[0]),
            "refused 12 0 0 3/2097152/2 2 1fffe a",
            "2 3/2097184/2 1fffe 4 a",
        ),
        // 32,768 mixed segments, the full marker last.
        case(
            Mistake::ManyDirtyAnyhowPasses,
            || {
                let body = [&[0x0002_0000, 1, 0xFFFE_0000][..], &[1; 32_767], &[0xA]].concat();
                batch([32_771, 1_048_576, 32_770], &body, 32, &[0])
            },
            "refused 12 0 0 32771/1048576/32770 20000 1 fffe0000 1*32767 a",
            "32771 32771/1048608/32771 fffe0000 1*32767 20000 1 2",
        ),
    ]
}

/// Two refusals at once.
fn order() -> Vec<Case> {
    vec![
        case(
            Mistake::BatchThreeBeforeTwelve,
            || batch([5, 8, 2], &EIGHT, MOST_ROWS, &[]),
            "refused 12 0 0 5/8/2 20000 f a b",
            "refused 3 0 1 5/8/2 20000 f a b",
        ),
        case(
            Mistake::BatchEightBeforeTwelve,
            || batch([5, 8, 2], &EIGHT, 8, &[]),
            "refused 12 0 0 5/8/2 20000 f a b",
            "refused 8 0 0 5/8/2 20000 f a b",
        ),
        case(
            Mistake::BatchSevenBeforeTwelve,
            || batch([5, 8, 2], &EIGHT, 8, &[0x100]),
            "refused 12 0 0 5/8/2 20000 f a b",
            "refused 7 0 0 5/8/2 20000 f a b",
        ),
        case(
            Mistake::BatchNineBeforeTwelve,
            || eight_more([2, 8, 1], &[2]),
            "refused 12 0 0 2/8/1 2",
            "refused 9 0 2 2/8/1 2",
        ),
        case(
            Mistake::BatchEightBeforeThree,
            || behind(MOST_ROWS, &[]),
            "refused 3 0 1 4/8/2 20000 f a b",
            "refused 8 0 0 4/8/2 20000 f a b",
        ),
        // 25 rows in the last word.
        case(
            Mistake::BatchSevenBeforeThree,
            || behind(MOST_ROWS - 7, &[0x0200_0000]),
            "refused 3 0 1 4/8/2 20000 f a b",
            "refused 7 0 0 4/8/2 20000 f a b",
        ),
        case(
            Mistake::BatchNineBeforeThree,
            || most_and(MOST, 512, 1, &[1]),
            "refused 3 0 1 513/1073741824/513 1fffe*512 400",
            "refused 9 0 514 513/1073741824/513 1fffe*512 400",
        ),
        case(
            Mistake::BatchSevenBeforeEight,
            || behind(8, &[0, 0x100]),
            "refused 8 0 0 4/8/2 20000 f a b",
            "refused 7 0 1 4/8/2 20000 f a b",
        ),
        case(
            Mistake::BatchNineBeforeEight,
            || behind_in_two(40, &[0xF0]),
            "refused 8 0 0 2/8/2 20000 f",
            "refused 9 0 3 2/8/2 20000 f",
        ),
        case(
            Mistake::BatchNineBeforeSeven,
            || behind_in_two(30, &[0x4000_0000]),
            "refused 7 0 0 2/8/2 20000 f",
            "refused 9 0 3 2/8/2 20000 f",
        ),
    ]
}

/// Refusal 3.
fn rows() -> Vec<Case> {
    const TOO_MANY: &str = "refused 3 0 1 513/1073741824/513 1fffe*512 400";
    const ONE_OVER: &str = "513 513/1073741825/513 1fffe*512 402";
    vec![
        case(Mistake::BatchRowsAlone, || most_and(MOST, 512, 1, &[0]), TOO_MANY, ONE_OVER),
        case(Mistake::BatchRowsOneOver, || most_and(MOST, 512, 1, &[0]), TOO_MANY, ONE_OVER),
        case(
            Mistake::BatchRowsOneEarly,
            || most_and(MOST - 1, 512, 1, &[0]),
            "513 513/1073741824/513 1fffe*512 400",
            "refused 3 0 1 513/1073741823/513 1fffe*512 400",
        ),
        // 16,777,216 rows: eight full markers and 8 segments.
        case(
            Mistake::BatchRowsAsOnce,
            || batch([9, 16_777_216, 9], &[&[0x1_FFFE; 8][..], &[0x10]].concat(), 1, &[0]),
            "9 9/16777217/9 1fffe*8 12",
            "refused 3 0 1 9/16777216/9 1fffe*8 10",
        ),
        // With the rows that are there they are 4,294,967,296.
        case(
            Mistake::BatchSumWraps,
            || most_and(MOST, 512, 3_221_225_472, &[]),
            TOO_MANY,
            "refused 8 0 0 513/1073741824/513 1fffe*512 400",
        ),
        case(
            Mistake::BatchRowsAtWordZero,
            || most_and(MOST, 512, 1, &[0]),
            TOO_MANY,
            "refused 3 0 0 513/1073741824/513 1fffe*512 400",
        ),
    ]
}

/// Refusals 8 and 7.
fn words() -> Vec<Case> {
    const BAD: &str = "refused 8 0 0 4/8/2 20000 f a b";
    const PAD: &str = "refused 7 0 0 4/8/2 20000 f a b";
    vec![
        case(Mistake::BatchFewWordsPass, || behind(8, &[]), BAD, "2 4/16/2 20000 f a b"),
        case(Mistake::BatchManyWordsPass, || behind(8, &[0xF0, 0]), BAD, SIXTEEN),
        case(Mistake::BatchWordsByAllRows, || behind(8, &[0xF0]), SIXTEEN, BAD),
        case(Mistake::NoRowsWordPasses, || behind(0, &[0]), BAD, "2 4/8/2 20000 f a b"),
        case(Mistake::BatchPadPasses, || behind(8, &[0x1F0]), PAD, SIXTEEN),
        case(Mistake::BatchOnesPass, || behind(8, &[u32::MAX]), PAD, "2 4/16/2 20000 ff0f a b"),
        case(Mistake::BatchPadsByAllRows, || behind(8, &[0x1F0]), PAD, SIXTEEN),
        case(
            Mistake::BatchPadInAllRows,
            || batch([4, 40, 3], &[0x0004_0000, 1, 0x80, 0xB], 8, &[0x100]),
            "refused 7 0 0 4/40/3 40000 1 80 b",
            "refused 7 0 1 4/40/3 40000 1 80 b",
        ),
    ]
}

/// Refusal 9.
fn room() -> Vec<Case> {
    // The batch by itself has one word.
    const NO_ROOM: &str = "refused 9 0 3 2/8/2 20000 f";
    vec![
        case(Mistake::BatchRoomTellsBatch, || behind_in_two(56, &[0, 0]), NO_ROOM, "refused 9 0 1 2/8/2 20000 f"),
        case(Mistake::BatchRoomTellsMissing, || behind_in_two(56, &[0, 0]), NO_ROOM, "refused 9 0 1 2/8/2 20000 f"),
        case(
            Mistake::BatchRoomByBoth,
            || eight_more([3, 8, 2], &EIGHT[..3]),
            "2 3/16/2 20000 f00f a",
            "refused 9 0 4 3/8/2 20000 f a",
        ),
        case(Mistake::BatchRoomByRows, || batch([1, 64, 1], &[4], 32, &[0]), "1 1/96/1 6", "refused 9 0 4 1/64/1 4"),
        case(
            Mistake::FullBufferNoRoom,
            || behind_in_two(8, &[0xF0]),
            "2 2/16/2 20000 f00f",
            "refused 9 0 2 2/8/2 20000 f",
        ),
    ]
}

/// No rows.
fn none() -> Vec<Case> {
    const SAME: &str = "2 4/8/2 20000 f a b";
    vec![
        case(
            Mistake::NoRowsUntested,
            || batch([5, 8, 2], &EIGHT, 0, &[]),
            "refused 12 0 0 5/8/2 20000 f a b",
            "2 5/8/2 20000 f a b",
        ),
        case(Mistake::NoRowsRefused, || behind(0, &[]), SAME, "refused 8 0 0 4/8/2 20000 f a b"),
        case(Mistake::NoRowsReset, || behind(0, &[]), SAME, "2 4/0/0 20000 f a b"),
        case(Mistake::NoRowsTellNone, || behind(0, &[]), SAME, "0 4/8/2 20000 f a b"),
    ]
}

/// What is left behind.
fn left() -> Vec<Case> {
    const NO_ROOM: &str = "refused 9 0 3 2/8/2 20000 f";
    const TWELVE: &str = "2 4/12/2 20000 f0f a b";
    const SIXTY_FOUR: &str = "3 4/64/3 20000 f 2 b";
    vec![
        case(Mistake::RefusedRowsCounted, || behind_in_two(56, &[0, 0]), NO_ROOM, "refused 9 0 3 2/64/2 20000 f"),
        case(Mistake::RefusedWordsCounted, || behind_in_two(56, &[0, 0]), NO_ROOM, "refused 9 0 3 2/8/3 20000 f"),
        case(Mistake::RefusedFrontWritten, || behind_in_two(56, &[0xF0, 0]), NO_ROOM, "refused 9 0 3 2/8/2 20000 f00f"),
        case(
            Mistake::PadsWritten,
            || behind(8, &[0x1F0]),
            "refused 7 0 0 4/8/2 20000 f a b",
            "refused 7 0 0 4/8/2 20000 f00f a b",
        ),
        case(
            Mistake::BrokenStateReset,
            || eight_more([5, 8, 2], &EIGHT),
            "refused 12 0 0 5/8/2 20000 f a b",
            "refused 12 0 0 4/0/0 20000 f a b",
        ),
        case(Mistake::StateRowsKept, || behind(4, &[0xF]), TWELVE, "2 4/8/2 20000 f0f a b"),
        case(Mistake::StateRowsOfBatch, || behind(4, &[0xF]), TWELVE, "2 4/4/2 20000 f0f a b"),
        case(Mistake::StateRowsRoundedUp, || behind(4, &[0xF]), TWELVE, "2 4/32/2 20000 f0f a b"),
        case(Mistake::StateWordsKept, || behind(56, &[0, 0]), SIXTY_FOUR, "3 4/64/2 20000 f 2 b"),
        case(Mistake::RoomBecomesWords, || behind(56, &[0, 0]), SIXTY_FOUR, "3 3/64/3 20000 f 2 b"),
        case(Mistake::BehindCleared, || behind(56, &[0, 0]), SIXTY_FOUR, "3 4/64/3 20000 f 2 0"),
        case(Mistake::AddedWordsTold, || behind(56, &[0, 0]), SIXTY_FOUR, "1 4/64/3 20000 f 2 b"),
        case(Mistake::SameLengthUnwritten, || behind(4, &[0xF]), TWELVE, "2 4/12/2 20000 f a b"),
        case(Mistake::OldWordsKept, || behind(56, &[0xF0, 0]), "3 4/64/3 20000 f00f 2 b", "3 4/64/3 20000 f 2 b"),
    ]
}

/// Where a batch meets the rows before it.
fn joins() -> Vec<Case> {
    vec![
        case(Mistake::PartSegmentTwice, || behind(8, &[0xF0]), SIXTEEN, "3 4/16/3 40000 f f00f b"),
        case(Mistake::PartSegmentLost, || behind(8, &[0xF0]), SIXTEEN, "2 4/16/2 20000 f000 a b"),
        case(Mistake::BatchAtNextSegment, || behind(8, &[0xF0]), SIXTEEN, "3 4/16/3 40000 f f0 b"),
        // All of 8 rows are set.
        case(
            Mistake::TailRunSpreads,
            || eight_more([4, 8, 1], &[3, 0xF, 0xA, 0xB]),
            "2 4/16/2 20000 f0ff a b",
            "1 4/16/1 3 f a b",
        ),
        case(Mistake::BatchInFront, || behind(8, &[0xF0]), SIXTEEN, "2 4/16/2 20000 ff0 a b"),
        case(
            Mistake::CarriedBitsLost,
            || behind(32, &[u32::MAX]),
            "3 4/40/3 20000 ffffff0f 3 b",
            "3 4/40/3 20000 ffffff0f 2 b",
        ),
        case(
            Mistake::LaterWordsUnshifted,
            || behind(40, &[0, 0xF0]),
            "3 4/48/3 40000 f f000 b",
            "3 4/48/3 40000 f f0 b",
        ),
        case(
            Mistake::RunNotJoined,
            || batch([4, 64, 1], &[4, 0xF, 0xA, 0xB], 32, &[0]),
            "1 4/96/1 6 f a b",
            "2 4/96/2 4 2 a b",
        ),
        case(
            Mistake::DirtyNotJoined,
            || batch([4, 32, 2], &EIGHT, 32, &[0xF0]),
            "3 4/64/3 40000 f f0 b",
            "4 4/64/4 20000 f 20000 f0",
        ),
        case(
            Mistake::DirtyNotCarried,
            || batch([4, 64, 1], &[4, 0xF, 0xA, 0xB], 32, &[0xF0]),
            "2 4/96/2 20004 f0 a b",
            "3 4/96/3 4 20000 f0 b",
        ),
        // 8 rows of the second segment, none set.
        case(
            Mistake::EmptiedMarkerKept,
            || eight_more([4, 40, 3], &[0x0002_0000, 0xF, 2, 0xB]),
            "3 4/48/3 40000 f f000 b",
            "4 4/48/4 20000 f 20000 f000",
        ),
        case(
            Mistake::AppendedTailDirty,
            || batch([4, 32, 1], &[3, 0xF, 0xA, 0xB], 8, &[0xFF]),
            "1 4/40/1 5 f a b",
            "2 4/40/2 20003 ff a b",
        ),
        case(
            Mistake::AppendedTailOwnRun,
            || batch([4, 32, 1], &[3, 0xF, 0xA, 0xB], 8, &[0xFF]),
            "1 4/40/1 5 f a b",
            "2 4/40/2 3*2 a b",
        ),
    ]
}

/// The same at a marker's limits.
fn long() -> Vec<Case> {
    vec![
        case(
            Mistake::JoinedRunCarries,
            || batch([3, 2_097_120, 1], &[0x1_FFFE, 0xA, 0xB], 32, &[0]),
            "2 3/2097152/2 1fffe 2 b",
            "1 3/2097152/1 20000 a b",
        ),
        case(
            Mistake::JoinedDirtyOneMore,
            || {
                let body = [&[0xFFFE_0000][..], &[1; 32_767], &[8, 9, 0xA]].concat();
                batch([32_771, 1_048_544, 32_768], &body, 32, &[1])
            },
            "32770 32771/1048576/32770 fffe0000 1*32767 20000 1 a",
            "32769 32771/1048576/32769 0 1*32768 9 a",
        ),
    ]
}

/// These are all there are, and nothing else shows them.
#[test]
fn of_append_alone() {
    let own: Vec<Mistake> = all().iter().map(|case| case.mistake).collect();
    for &m in Mistake::ALL {
        assert_eq!(m.of_append(), own.contains(&m), "{m:?}");
    }
}

/// States and batches near the rules: every mistake answers or refuses.
#[test]
fn no_mistake_panics() {
    let mut dice = Dice(9);
    for _ in 0..1_500 {
        let kinds = [0, 1, 2, 3, 5, 7, 0x0002_0000, 0x0002_0003, 0x0004_0003, 0xF, 0x1_FFFE, u32::MAX];
        let buffer: Vec<u32> = (0..dice.below(6)).map(|_| kinds[dice.below(12) as usize]).collect();
        let mut number = |most: u32| match dice.below(12) {
            0 => u64::MAX,
            1 => HIGH + u64::from(dice.below(most)),
            2 => MOST + u64::from(dice.below(3)) - 1,
            _ => u64::from(dice.below(most)),
        };
        let near = buffer.len() as u32 + 2;
        let state = [if number(4) == 1 { number(near) } else { buffer.len() as u64 }, number(140), number(near)];
        let rows = [dice.below(140), dice.below(140), MOST_ROWS - dice.below(70), u32::MAX][dice.below(4) as usize];
        let due = if rows < 140 { rows.div_ceil(32) } else { 0 };
        let length = [due, due, due, due + 1, due.saturating_sub(1)][dice.below(5) as usize];
        let plain: Vec<u32> = (0..length).map(|_| kinds[dice.below(12) as usize]).collect();
        for &m in Mistake::ALL {
            with_mistake(m, || batch(state, &buffer, rows, &plain));
        }
    }
}

/// What a mistake says of some states or batches holds of these alone.
#[test]
fn right_elsewhere() {
    let same = |m, right: &str, ask: &dyn Fn() -> String| assert_eq!(with_mistake(m, ask), right, "{m:?}");
    // One refusal alone is due.
    let swapped = Mistake::ALL.iter().copied().filter(|m| {
        let name = format!("{m:?}");
        name.starts_with("Batch") && name.contains("Before")
    });
    for m in swapped.chain([Mistake::RefusedFrontWritten]) {
        same(m, "refused 12 0 0 5/8/2 20000 f a b", &|| eight_more([5, 8, 2], &EIGHT));
        same(m, "refused 3 0 1 513/1073741824/513 1fffe*512 400", &|| most_and(MOST, 512, 1, &[0]));
        same(m, "refused 8 0 0 4/8/2 20000 f a b", &|| behind(8, &[0, 0]));
        same(m, "refused 7 0 0 4/8/2 20000 f a b", &|| behind(8, &[0x100]));
        same(m, "refused 9 0 3 2/8/2 20000 f", &|| behind_in_two(56, &[0, 0]));
    }
    // A batch that begins a segment.
    for m in [Mistake::PartSegmentTwice, Mistake::PartSegmentLost, Mistake::BatchAtNextSegment] {
        same(m, "3 4/64/3 40000 f f0 b", &|| batch([4, 32, 2], &EIGHT, 32, &[0xF0]));
    }
    for m in [Mistake::TailRunSpreads, Mistake::CarriedBitsLost, Mistake::LaterWordsUnshifted] {
        same(m, "3 4/96/3 40003 f0 f b", &|| batch([4, 32, 1], &[3, 0xF, 0xA, 0xB], 64, &[0xF0, 0xF]));
    }
    // The other neighbours.
    for m in [Mistake::RunNotJoined, Mistake::DirtyNotJoined, Mistake::EmptiedMarkerKept] {
        same(m, "2 4/96/2 20004 f0 a b", &|| batch([4, 64, 1], &[4, 0xF, 0xA, 0xB], 32, &[0xF0]));
    }
    same(Mistake::DirtyNotCarried, "1 4/96/1 6 f a b", &|| batch([4, 64, 1], &[4, 0xF, 0xA, 0xB], 32, &[0]));
    // No rows to add.
    for m in [Mistake::StateRowsRoundedUp, Mistake::BehindCleared, Mistake::PartSegmentTwice] {
        same(m, "2 4/8/2 20000 f a b", &|| behind(0, &[]));
    }
}
