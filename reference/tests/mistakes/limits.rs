//! The mistakes about the limits.

use super::common::*;
use super::wah::{case, told, Case};
use super::ANY;
use reference::limits::*;
use reference::*;

pub fn all() -> Vec<Case> {
    [over(), holders(), as_once()].into_iter().flatten().collect()
}

fn refused_of(index: &[u32]) -> String {
    told(check(index))
}

fn body(rows: u32) -> String {
    told(check_body(&[], rows, Ewah))
}

fn plain(rows: u32) -> String {
    told(compress(rows, &[], Wah, ANY))
}

/// 32 rows, all set.
fn ones() -> Vec<u32> {
    index_of(32, &[&[3]])
}

fn list(length: usize) -> Vec<u32> {
    vec![0; length]
}

/// Rows with all holders, as a threshold and as a table have them.
fn held_by_all(length: usize) -> String {
    told(threshold(&ones(), &list(length), length as u32, ANY))
}

fn table_of_all(length: usize) -> String {
    let mut table = vec![0; length + 1];
    table[length] = 1;
    told(symmetric(&ones(), &list(length), &table, ANY))
}

/// The tally's entries that aren't 0.
fn tally(length: usize) -> String {
    let filled =
        |tally: [u32; TALLY_ENTRIES]| (0..TALLY_ENTRIES).filter(|&c| tally[c] > 0).map(|c| (c, tally[c])).collect();
    told(histogram(&ones(), &list(length)).map::<Vec<_>, _>(filled))
}

const ALL: &str = "Answer { words: [3], stretches: 1 }";
const NONE: &str = "Answer { words: [2], stretches: 1 }";

fn over() -> Vec<Case> {
    vec![
        case(Mistake::RowsOneOver, || refused_of(&[1, MOST_ROWS + 1, 0]), "refused 3 0 1", "()"),
        case(Mistake::BodyRowsOneOver, || body(MOST_ROWS + 1), "refused 3 0 1", "refused 6 0 0"),
        case(Mistake::PlainRowsOneOver, || plain(MOST_ROWS + 1), "refused 3 0 1", "refused 8 0 0"),
        case(Mistake::BitmapsOneOver, || refused_of(&[2, 4, MOST_BITMAPS + 1]), "refused 3 0 2", "refused 1 0 3"),
        case(Mistake::ThresholdListOneOver, || held_by_all(257), "refused 8 0 0", ALL),
        case(Mistake::TableListOneOver, || table_of_all(257), "refused 8 0 0", ALL),
        case(Mistake::TallyListOneOver, || tally(257), "refused 8 0 0", "[]"),
    ]
}

fn holders() -> Vec<Case> {
    vec![
        case(Mistake::TallyLastMissing, || tally(256), "[(256, 32)]", "[]"),
        case(Mistake::ThresholdInByte, || held_by_all(256), ALL, NONE),
        case(Mistake::TableInByte, || table_of_all(256), ALL, NONE),
        case(Mistake::TallyInByte, || tally(256), "[(256, 32)]", "[(0, 32)]"),
    ]
}

fn as_once() -> Vec<Case> {
    vec![
        case(Mistake::RowsAsOnce, || refused_of(&[1, 16_777_217, 0]), "()", "refused 3 0 1"),
        case(Mistake::BodyRowsAsOnce, || body(16_777_217), "refused 6 0 0", "refused 3 0 1"),
        case(Mistake::PlainRowsAsOnce, || plain(16_777_217), "refused 8 0 0", "refused 3 0 1"),
        case(Mistake::BitmapsAsOnce, || refused_of(&[1, 4, 65]), "refused 1 0 3", "refused 3 0 2"),
        case(Mistake::ThresholdListAsOnce, || held_by_all(65), ALL, "refused 8 0 0"),
        case(Mistake::TableListAsOnce, || table_of_all(65), ALL, "refused 8 0 0"),
        case(Mistake::TallyListAsOnce, || tally(65), "[(65, 32)]", "refused 8 0 0"),
        case(Mistake::TallyAsOnce, || tally(65), "[(65, 32)]", "[]"),
    ]
}

// ---- answers that are an index: these take long, and so have no part in the tables ----

/// The mistakes that need an index of `MOST_INDEX_WORDS` words or more to show.
pub const LONG: [Mistake; 5] = [
    Mistake::SumByBufferAlone,
    Mistake::RewriteByBufferAlone,
    Mistake::LongestIndexRefused,
    Mistake::LongNeedCut,
    Mistake::DifferenceByBufferAlone,
];

/// How many words, or which number is told.
fn length_of(words: Result<Vec<u32>, Refusal>) -> Result<usize, Refusal> {
    words.map(|words| words.len())
}

/// A body that begins with so many mixed segments, whose value changes in the middle. None are set in the others.
fn mixed(rows: u32, segments: u32) -> Vec<u32> {
    let word = |at| if at % 2 == 0 { 0xFFFF } else { 0xFFFF_0000 };
    let plain: Vec<u32> = (0..rows / 32).map(|at| if at < segments { word(at) } else { 0 }).collect();
    compress(rows, &plain, Ewah, ANY).unwrap()
}

/// 2^32 - 1 in the rows of this body, twice: it comes 33 times, and a slice of none.
fn doubled(rows: u32, segments: u32) -> Result<usize, Refusal> {
    let index = index_of(rows, &[&mixed(rows, segments)]);
    length_of(sum(&index, &[0; MOST_SUMMED], &[0; MOST_SUMMED], ANY))
}

/// The same less 0: so many words again.
fn less_nothing(rows: u32, segments: u32) -> Result<usize, Refusal> {
    let index = index_of(rows, &[&mixed(rows, segments), &mixed(rows, 0)]);
    length_of(signed_difference(&index, &[0; MOST_SUMMED], &[0, 1], ANY))
}

/// Just the limit and one word more. 59 markers of 65,535 segments have no row. The mixed segments have 63 markers
/// and the rest 28, so that 71 + 59 + 33 * (2,033,507 + 91) = 67,108,864; one segment more is 33 words more.
#[test]
#[ignore = "a minute; cargo test -p reference --test mistakes -- --ignored"]
fn long_sums() {
    const ROWS: u32 = 59 * 65_535 * 32;
    let fits = || doubled(ROWS, 2_033_507);
    let passes = || doubled(ROWS, 2_033_508);
    assert_eq!((fits(), passes()), (Ok(67_108_864), Err(no(9, 0, 67_108_897))));
    assert_eq!(with_mistake(Mistake::LongestIndexRefused, fits), Err(no(9, 0, 67_108_864)));
    assert_eq!(with_mistake(Mistake::LongNeedCut, passes), Err(no(9, 0, 67_108_864)));
    assert_eq!(with_mistake(Mistake::SumByBufferAlone, passes), Ok(67_108_897));
    assert_eq!(with_mistake(Mistake::RewriteByBufferAlone, passes), passes());
    assert_eq!(with_mistake(Mistake::DifferenceByBufferAlone, passes), passes());

    let less = || less_nothing(ROWS, 2_033_508);
    assert_eq!((less_nothing(ROWS, 2_033_507), less()), (fits(), passes()));
    assert_eq!(with_mistake(Mistake::DifferenceByBufferAlone, less), Ok(67_108_897));
    assert_eq!(with_mistake(Mistake::SumByBufferAlone, less), passes());
}

/// 2^26 rows, every segment mixed, 31 times: 31 * 2,097,217 words behind 3 + 2 * 31. In WAH it is 31 * 2,164,803.
#[test]
#[ignore = "half a minute; cargo test -p reference --test mistakes -- --ignored"]
fn long_rewriting() {
    let body = mixed(1 << 26, 1 << 21);
    let index = index_of(1 << 26, &[&body[..]; 31]);
    let to = |format| length_of(rewrite_index(&index, format, ANY));
    assert_eq!((to(Ewah), to(Wah)), (Ok(65_013_792), Err(no(9, 0, 67_108_958))));
    assert_eq!(with_mistake(Mistake::LongNeedCut, || to(Wah)), Err(no(9, 0, 67_108_864)));
    assert_eq!(with_mistake(Mistake::RewriteByBufferAlone, || to(Wah)), Ok(67_108_958));
    assert_eq!(with_mistake(Mistake::SumByBufferAlone, || to(Wah)), to(Wah));
}
