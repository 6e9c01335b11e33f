//! The mistakes about the first and last row of a piece.

use super::common::*;
use super::wah::{case, told, Case};
use reference::*;

pub fn all() -> Vec<Case> {
    [joins(), ends(), parts()].into_iter().flatten().collect()
}

/// First and last row as told, in short.
fn ends_of(row: Result<Row, Refusal>) -> String {
    told(row.map(|row| (row.first, row.last)))
}

fn ewah(body: &[u32], rows: u32, row: u32) -> String {
    ends_of(body_row(body, rows, Ewah, row))
}

fn wah(body: &[u32], rows: u32, row: u32) -> String {
    ends_of(body_row(body, rows, Wah, row))
}

fn joins() -> Vec<Case> {
    vec![
        // The run of ones in front stays out.
        case(Mistake::RowJoinsRuns, || ewah(&[5, 2, 4], 160, 64), "(64, 95)", "(64, 159)"),
        case(
            Mistake::RowJoinsFills,
            || wah(&[0xC000_0002, 0x8000_0001, 0x8000_0002], 155, 100),
            "(93, 154)",
            "(62, 154)",
        ),
        // Two markers with two dirty words each.
        case(
            Mistake::DirtyWordsJoined,
            || ewah(&[0x0004_0002, 7, 7, 0x0004_0000, 7, 7], 160, 64),
            "(64, 95)",
            "(32, 95)",
        ),
        case(Mistake::LiteralsJoined, || wah(&[0x8000_0001, 7, 9, 0xC000_0001], 124, 40), "(31, 61)", "(31, 92)"),
        // Only the word of zeros right behind the run.
        case(Mistake::CleanDirtyInRun, || ewah(&[0x0006_0002, 0, 0, 7], 128, 0), "(0, 31)", "(0, 63)"),
        case(Mistake::CleanLiteralInFill, || wah(&[0x7FFF_FFFF, 0xC000_0002], 80, 0), "(0, 30)", "(0, 79)"),
    ]
}

fn ends() -> Vec<Case> {
    vec![
        case(Mistake::LastRowInPads, || ewah(&[5], 40, 39), "(0, 39)", "(0, 63)"),
        case(Mistake::WahLastRowInPads, || wah(&[0, 9], 40, 31), "(31, 39)", "(31, 61)"),
        case(Mistake::LastRowOneMore, || ewah(&[3, 5], 96, 31), "(0, 31)", "(0, 32)"),
        case(Mistake::WahLastRowOneMore, || wah(&[0, 9], 40, 30), "(0, 30)", "(0, 31)"),
        case(Mistake::FirstIsAsked, || ewah(&[5], 40, 39), "(0, 39)", "(39, 39)"),
        case(Mistake::WahFirstIsAsked, || wah(&[0x8000_0002], 62, 7), "(0, 61)", "(7, 61)"),
    ]
}

fn parts() -> Vec<Case> {
    vec![
        case(Mistake::ExtentInSegments, || ewah(&[2, 5], 96, 95), "(32, 95)", "(1, 2)"),
        case(Mistake::WahExtentInSegments, || wah(&[7, 0x8000_0002], 93, 31), "(31, 92)", "(1, 2)"),
        case(Mistake::ExtentBy32, || wah(&[7, 0x8000_0002, 9], 124, 31), "(31, 92)", "(32, 95)"),
        case(Mistake::DirtyTellsRun, || ewah(&[0x0004_0004, 7, 9], 128, 96), "(96, 127)", "(0, 63)"),
        case(Mistake::DirtyTellsNextRun, || ewah(&[0x0002_0000, 7, 4], 96, 9), "(0, 31)", "(32, 95)"),
        case(Mistake::RunIsOneSegment, || ewah(&[6], 96, 40), "(0, 95)", "(32, 63)"),
        case(Mistake::FillIsOneSegment, || wah(&[0xC000_0003], 93, 62), "(0, 92)", "(62, 92)"),
    ]
}

/// Where a mistake has nothing to get wrong, the answer is right.
#[test]
fn right_elsewhere() {
    let same = |m, right: &str, ask: &dyn Fn() -> String| assert_eq!(with_mistake(m, ask), right, "{m:?}");
    // The run is another marker's; the marker has none.
    same(Mistake::DirtyTellsRun, "(64, 95)", &|| ewah(&[4, 0x0002_0000, 7], 96, 64));
    same(Mistake::DirtyTellsRun, "(0, 63)", &|| ewah(&[0x0004_0004, 7, 9], 128, 9));
    // There is no next marker; it has no run.
    same(Mistake::DirtyTellsNextRun, "(96, 127)", &|| ewah(&[0x0004_0004, 7, 9], 128, 96));
    same(Mistake::DirtyTellsNextRun, "(0, 31)", &|| ewah(&[0x0002_0000, 7, 0x0002_0000, 9], 64, 9));
    same(Mistake::DirtyWordsJoined, "(0, 63)", &|| ewah(&[0x0004_0004, 7, 9], 128, 9));
    // Cut at the last row.
    same(Mistake::LastRowOneMore, "(32, 39)", &|| ewah(&[3, 3], 40, 32));
    same(Mistake::LastRowOneMore, "(32, 63)", &|| ewah(&[3, 3], 64, 32));
    // Runs that differ, a dirty word that isn't clean, and one that isn't beside the run.
    same(Mistake::RowJoinsRuns, "(0, 31)", &|| ewah(&[3, 2], 64, 0));
    same(Mistake::RowJoinsRuns, "(0, 31)", &|| ewah(&[0x0002_0002, 0], 64, 0));
    same(Mistake::CleanDirtyInRun, "(0, 31)", &|| ewah(&[0x0002_0002, u32::MAX], 64, 0));
    same(Mistake::CleanDirtyInRun, "(64, 95)", &|| ewah(&[0x0006_0002, 0, 0, 7], 128, 64));
    // One format's mistakes leave the other alone.
    same(Mistake::FirstIsAsked, "(0, 61)", &|| wah(&[0x8000_0002], 62, 7));
    same(Mistake::WahFirstIsAsked, "(0, 39)", &|| ewah(&[5], 40, 39));
    same(Mistake::LiteralsJoined, "(32, 63)", &|| ewah(&[0x0004_0000, 7, 9], 64, 40));
    same(Mistake::ExtentBy32, "(32, 95)", &|| ewah(&[2, 5], 96, 95));
}

/// Words near the rules, sound or not: every mistake answers or refuses.
#[test]
fn no_mistake_panics() {
    let mut dice = Dice(6);
    for format in Format::ALL {
        for _ in 0..400 {
            let rows = dice.below(140);
            let kinds = [0, 1, 2, 3, 5, 7, 0x0002_0000, 0x0004_0003, u32::MAX, 0x8000_0001, 0xC000_0002, 0x8000_0000];
            let body: Vec<u32> = (0..dice.below(6)).map(|_| kinds[dice.below(12) as usize]).collect();
            for &m in Mistake::ALL {
                with_mistake(m, || {
                    let _ = body_pieces(&body, rows, format);
                    let _ = (0..=rows + 32).map(|row| body_row(&body, rows, format, row)).collect::<Vec<_>>();
                });
            }
        }
    }
}
