//! The mistakes about signed values, and about what two columns are made into besides a sum.

use super::common::columns::Pairs;
use super::common::*;
use super::wah::{case, hex, told, Case};
use super::{bodies_text, columns, tails, wah, ANY};
use reference::limits::*;
use reference::*;

pub fn all() -> Vec<Case> {
    let tables = [
        signed(),
        differences(),
        difference_ends(),
        difference_slices(),
        rows_there(),
        smallest(),
        or_zero(),
        pads(),
        indexes(),
    ];
    tables.into_iter().flatten().collect()
}

/// 1, 2, 3 at rows 0 to 2.
const WIDE: &[u32] = &[0, 1, 2];
/// 1, 1, 0 at rows 1 to 3.
const NARROW: &[u32] = &[3, 2];
/// 0 at rows 0 to 2, and at rows 1 to 3.
const ZEROS: [&[u32]; 2] = [&[0, 5], &[3, 5]];

fn made(call: Pairs, first: &[u32], second: &[u32]) -> String {
    bodies_text(call(&columns(), first, second, ANY))
}

fn difference(first: &[u32], second: &[u32]) -> String {
    made(signed_difference, first, second)
}

fn signed_at(list: &[u32], row: u32) -> String {
    told(signed_value(&columns(), list, row))
}

/// The number of 32 digits that are all set, with a sign that isn't.
fn largest() -> Vec<u32> {
    let mut list = vec![0; MOST_VALUED];
    list[MOST_VALUED - 1] = 5;
    list
}

fn signed() -> Vec<Case> {
    vec![
        // Digits 10.
        case(Mistake::SignNotNegated, || signed_at(WIDE, 1), "-2", "2"),
        case(Mistake::SignAndMagnitude, || signed_at(WIDE, 1), "-2", "0"),
        case(Mistake::SignInWidestOnly, || signed_at(WIDE, 1), "-2", "2"),
        // Digits 101, of which bitmap 1 has both.
        case(Mistake::SignNegatedInAllPlaces, || signed_at(&[0, 1, 2, 1], 0), "-3", "-5"),
        // Row 31 alone is set.
        case(
            Mistake::SignBy32,
            || told(signed_value(&index_in(Wah, 62, &[&[0xC000_0002], &[0, 1]]), &[0, 1], 32)),
            "0",
            "-1",
        ),
        case(Mistake::SignedTakesOneLess, || signed_at(&[0; MOST_VALUED], 0), "-1", "refused 8 0 0"),
        case(Mistake::SignedTakesOneMore, || signed_at(&[0; MOST_VALUED + 1], 0), "refused 8 0 0", "-1"),
        case(Mistake::SignedMissingIsZero, || signed_at(&[0, 1], 3), "refused 8 0 0", "0"),
        case(Mistake::SignedSkipsStrays, || signed_at(&[0, 2, 4], 1), "refused 11 4 3", "1"),
        case(Mistake::SignedCutAtWord, || signed_at(&largest(), 2), "4294967295", "-1"),
    ]
}

/// 2 - 1 = 1 in row 1, 3 - 1 = 2 in row 2.
const LESS: &str = "[[20000, 6], [20000, 2], [20000, 4], [2]]";
/// The other way round -1 and -2: digits 111 and 110.
const TURNED: &str = "[[20000, 6], [20000, 2], [20000, 6], [20000, 6]]";

fn differences() -> Vec<Case> {
    vec![
        // Digits 11 and 10.
        case(Mistake::BorrowDropped, || difference(WIDE, NARROW), LESS, "[[20000, 6], [20000, 2], [20000, 6], [2]]"),
        case(Mistake::SignNeverSet, || difference(NARROW, WIDE), TURNED, "[[20000, 6], [20000, 2], [20000, 6], [2]]"),
        case(
            Mistake::ZeroIsNegative,
            || difference(&[0, 1], &[0, 1]),
            "[[20000, 7], [2], [2]]",
            "[[20000, 7], [2], [20000, 7]]",
        ),
        case(Mistake::DifferenceSwapped, || difference(WIDE, NARROW), LESS, TURNED),
        // Digits 101 and 110.
        case(
            Mistake::MagnitudeWritten,
            || difference(NARROW, WIDE),
            TURNED,
            "[[20000, 6], [20000, 2], [20000, 4], [20000, 6]]",
        ),
        // Digits 110 and 101.
        case(
            Mistake::OnesComplement,
            || difference(NARROW, WIDE),
            TURNED,
            "[[20000, 6], [20000, 4], [20000, 2], [20000, 6]]",
        ),
    ]
}

fn difference_ends() -> Vec<Case> {
    /// 2^32 - 1 less 0, read again.
    fn end() -> String {
        let words = signed_difference(&columns(), &[0; MOST_SUMMED], &[0, 5], ANY).unwrap();
        let list: Vec<u32> = (0..words[2]).collect();
        told(signed_value(&words, &list, 0))
    }
    vec![
        case(Mistake::DifferenceInWord, end, "4294967295", "-1"),
        // 1, 2, 3 less 1; or plus 1, which is 2, 3, 4.
        case(
            Mistake::NarrowerExtended,
            || difference(WIDE, &[0, 0]),
            "[[20000, 7], [20000, 2], [20000, 4], [2]]",
            "[[20000, 7], [20000, 2], [20000, 3], [20000, 4]]",
        ),
    ]
}

fn difference_slices() -> Vec<Case> {
    let short = "[[20000, 6], [20000, 2], [20000, 4]]";
    vec![
        case(Mistake::SignSliceLeftOut, || difference(WIDE, NARROW), LESS, short),
        case(Mistake::EmptySignLeftOut, || difference(WIDE, NARROW), LESS, short),
        // 0 - 1 in row 1, 1 - 1 in row 2; row 3 is the second column's alone.
        case(
            Mistake::SignUnmasked,
            || difference(&[0, 1], &[3, 3]),
            "[[20000, 6], [20000, 2], [20000, 2]]",
            "[[20000, 6], [20000, 2], [20000, a]]",
        ),
        // 35 bodies of one word behind 73.
        case(
            Mistake::DifferenceTakesOneMore,
            || told(signed_difference(&columns(), &[5; MOST_SUMMED + 1], &[5, 5], 0)),
            "refused 8 0 0",
            "refused 9 0 108",
        ),
    ]
}

fn rows_there() -> Vec<Case> {
    fn of_zeros(call: Pairs) -> String {
        made(call, ZEROS[0], ZEROS[1])
    }
    let (right, right_signed) = ("[[20000, 6], [2]]", "[[20000, 6], [2], [2]]");
    vec![
        case(Mistake::DifferenceExistsInEither, || of_zeros(signed_difference), right_signed, "[[3], [2], [2]]"),
        case(Mistake::DifferenceExistsInFirst, || of_zeros(signed_difference), right_signed, "[[20000, 7], [2], [2]]"),
        case(Mistake::SmallerExistsInEither, || of_zeros(smaller), right, "[[3], [2]]"),
        case(Mistake::ZeroedExistsInFirst, || of_zeros(difference_or_zero), right, "[[20000, 7], [2]]"),
    ]
}

fn smallest() -> Vec<Case> {
    fn least() -> String {
        made(smaller, WIDE, NARROW)
    }
    // 1 in rows 1 and 2.
    let right = "[[20000, 6], [20000, 6], [2]]";
    vec![
        case(Mistake::LargerTaken, least, right, "[[20000, 6], [20000, 4], [20000, 6]]"),
        case(Mistake::TieIsZero, || made(smaller, &[0, 1], &[0, 1]), "[[20000, 7], [20000, 5]]", "[[20000, 7], [2]]"),
        case(Mistake::SmallerByDigits, least, right, "[[20000, 6], [20000, 4], [2]]"),
        // By the lowest digit, 2 is less than 1, and 3 isn't.
        case(Mistake::ComparedByNarrower, least, right, "[[20000, 6], [20000, 4], [20000, 2]]"),
        case(Mistake::SmallerSliceTooMany, least, right, "[[20000, 6], [20000, 6], [2], [2]]"),
        case(Mistake::SmallerCutAtNarrower, least, right, "[[20000, 6], [20000, 6]]"),
    ]
}

fn or_zero() -> Vec<Case> {
    /// -1 and -2, made 0.
    fn negative() -> String {
        made(difference_or_zero, NARROW, WIDE)
    }
    let (right, zero) = ("[[20000, 6], [20000, 2], [20000, 4]]", "[[20000, 6], [2], [2]]");
    vec![
        case(Mistake::NegativeKept, negative, zero, "[[20000, 6], [20000, 2], [20000, 6]]"),
        case(Mistake::NegativeMadeAbsolute, negative, zero, right),
        case(Mistake::NegativeRowsGone, negative, zero, "[[2], [2], [2]]"),
        case(Mistake::ZeroedAsWideAsFirst, negative, zero, "[[20000, 6], [2]]"),
        case(Mistake::ZeroedSliceTooMany, || made(difference_or_zero, WIDE, NARROW), right, LESS),
    ]
}

/// 3 in rows 0 to 38 and 1 in row 39; of the pads, 1. Then 2 everywhere, in the pads too.
const OVER_PADS: [&[u32]; 2] = [&[0, 0, 2], &[0, 3, 0]];

fn pads() -> Vec<Case> {
    fn of(call: Pairs, index: &[u32], first: &[u32], second: &[u32]) -> String {
        bodies_text(call(index, first, second, ANY))
    }
    vec![
        // 1 - 0 in row 39, 1 - 1 in the others; of the pads, 1 - 0.
        case(
            Mistake::DifferenceKeepsPads,
            || of(signed_difference, &tails(), &[0, 0], &[0, 2]),
            "[[5], [20002, 80], [4]]",
            "[[5], [20002, ffffff80], [4]]",
        ),
        case(
            Mistake::WahDifferenceKeepsPads,
            || of(difference_or_zero, &wah::tails(), &[0, 0], &[0, 2]),
            "[[c0000002], [0, 100]]",
            "[[c0000002], [0, 7fffff00]]",
        ),
        case(
            Mistake::SmallerKeepsPads,
            || of(smaller, &tails(), OVER_PADS[0], OVER_PADS[1]),
            "[[5], [20002, 80], [20003, 7f]]",
            "[[5], [20002, ffffff80], [20003, 7f]]",
        ),
        case(
            Mistake::WahSmallerKeepsPads,
            || of(smaller, &wah::tails(), OVER_PADS[0], OVER_PADS[1]),
            "[[c0000002], [0, 100], [7fffffff, ff]]",
            "[[c0000002], [0, 7fffff00], [7fffffff, ff]]",
        ),
    ]
}

fn indexes() -> Vec<Case> {
    // No row exists.
    fn nothing(call: Pairs) -> String {
        hex(call(&wah::tails(), &[3, 3], &[3, 3], ANY))
    }
    vec![
        case(
            Mistake::DifferenceKindOne,
            || nothing(signed_difference),
            "[2, 28, 3, 9, 1, a, 1, b, 1, 80000002, 80000002, 80000002]",
            "[1, 28, 3, 9, 1, a, 1, b, 1, 80000002, 80000002, 80000002]",
        ),
        case(
            Mistake::SmallerBodiesInEwah,
            || nothing(smaller),
            "[2, 28, 2, 7, 1, 8, 1, 80000002, 80000002]",
            "[2, 28, 2, 7, 1, 8, 1, 4, 4]",
        ),
    ]
}

/// What a mistake says of one call holds for that call alone.
#[test]
fn right_elsewhere() {
    let same = |m, right: &str, ask: &dyn Fn() -> String| assert_eq!(with_mistake(m, ask), right, "{m:?}");
    let calls: [Pairs; 3] = [signed_difference, smaller, difference_or_zero];
    for m in [Mistake::CarryDropped, Mistake::TopSliceLeftOut, Mistake::SumExistsInEither, Mistake::SumSliceUnmasked] {
        for call in calls {
            let right = made(call, &[0, 1], &[3, 2]);
            same(m, &right, &|| made(call, &[0, 1], &[3, 2]));
        }
    }
    // In EWAH a sign is where it should be, and so are the pads.
    same(Mistake::SignBy32, "-2", &|| signed_at(WIDE, 1));
    same(Mistake::WahDifferenceKeepsPads, LESS, &|| difference(WIDE, NARROW));
    // A row that exists in both, a number of one place for each bitmap, differences that aren't negative.
    same(Mistake::SignNegatedInAllPlaces, "-2", &|| signed_at(WIDE, 1));
    same(Mistake::SignedMissingIsZero, "-1", &|| signed_at(WIDE, 2));
    same(Mistake::SignedMissingIsZero, "refused 8 0 0", &|| signed_at(WIDE, 4));
    for m in [Mistake::NegativeKept, Mistake::NegativeMadeAbsolute, Mistake::NegativeRowsGone] {
        same(m, "[[20000, 6], [20000, 2], [20000, 4]]", &|| made(difference_or_zero, WIDE, NARROW));
        same(m, TURNED, &|| difference(NARROW, WIDE));
    }
    for m in [Mistake::SignNeverSet, Mistake::MagnitudeWritten, Mistake::OnesComplement, Mistake::ZeroIsNegative] {
        same(m, LESS, &|| difference(WIDE, NARROW));
    }
}
