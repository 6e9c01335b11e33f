//! Two columns put together row by row, as a new index: contents, existence, slices.

use crate::body::settled;
use crate::columns::{column, no_strays, no_strays_in_either, Column};
use crate::format::Format;
use crate::index::{open, Bodies};
use crate::limits::MOST_SUMMED;
use crate::mistakes::{mistaken, mistaken_in, with_mistake, Mistake};
use crate::refusal::Refusal;
use crate::spans::Spans;

/// The first column and the second added.
pub fn sum(index: &[u32], first: &[u32], second: &[u32], room: usize) -> Result<Vec<u32>, Refusal> {
    paired(Pairing::Sum, index, first, second, room)
}

/// The first column less the second, as a signed column.
pub fn signed_difference(index: &[u32], first: &[u32], second: &[u32], room: usize) -> Result<Vec<u32>, Refusal> {
    paired(Pairing::Difference, index, first, second, room)
}

/// The smaller of both numbers.
pub fn smaller(index: &[u32], first: &[u32], second: &[u32], room: usize) -> Result<Vec<u32>, Refusal> {
    paired(Pairing::Smaller, index, first, second, room)
}

/// The first column less the second; 0 where that would be negative.
pub fn difference_or_zero(index: &[u32], first: &[u32], second: &[u32], room: usize) -> Result<Vec<u32>, Refusal> {
    paired(Pairing::DifferenceOrZero, index, first, second, room)
}

// ---- what is made of a row ----

/// What two columns are made into.
#[derive(Clone, Copy, PartialEq, Eq)]
enum Pairing {
    Sum,
    Difference,
    Smaller,
    DifferenceOrZero,
}

use Pairing::{Difference, DifferenceOrZero, Smaller, Sum};

impl Pairing {
    /// Is this the pairing that a mistake is about, and the mistake switched on?
    fn makes(self, about: Pairing, m: Mistake) -> bool {
        self == about && mistaken(m)
    }

    /// Numbers that a list may have.
    fn most(self) -> usize {
        let one_more =
            self.makes(Sum, Mistake::SumTakesOneMore) || self.makes(Difference, Mistake::DifferenceTakesOneMore);
        MOST_SUMMED + usize::from(one_more)
    }

    /// The mistake of writing whatever the buffer takes.
    fn by_buffer(self) -> Mistake {
        match self {
            Difference => Mistake::DifferenceByBufferAlone,
            _ => Mistake::SumByBufferAlone,
        }
    }

    /// Slices of the answer. A carry, or a sign, takes one above the wider column's.
    fn digits(self, first: &Column, second: &Column) -> usize {
        let wider = first.digits.max(second.digits);
        match self {
            Sum => wider + usize::from(!mistaken(Mistake::TopSliceLeftOut)),
            Difference => wider + usize::from(!mistaken(Mistake::SignSliceLeftOut)),
            Smaller if mistaken(Mistake::SmallerCutAtNarrower) => first.digits.min(second.digits),
            Smaller => wider + usize::from(mistaken(Mistake::SmallerSliceTooMany)),
            DifferenceOrZero if mistaken(Mistake::ZeroedAsWideAsFirst) => first.digits,
            DifferenceOrZero => wider + usize::from(mistaken(Mistake::ZeroedSliceTooMany)),
        }
    }

    /// Does a row exist that the columns have, or have not?
    fn exists(self, first: bool, second: bool) -> bool {
        let either = match self {
            Sum => mistaken(Mistake::SumExistsInEither),
            Difference => mistaken(Mistake::DifferenceExistsInEither),
            Smaller => mistaken(Mistake::SmallerExistsInEither),
            DifferenceOrZero => false,
        };
        let by_first = self.makes(Difference, Mistake::DifferenceExistsInFirst)
            || self.makes(DifferenceOrZero, Mistake::ZeroedExistsInFirst);
        first && second || either && (first || second) || by_first && first
    }

    /// What is made of a row's two numbers. How many slices the columns have matters for mistakes only.
    fn number(self, first: i64, second: i64, narrower: usize, wider: usize) -> i64 {
        match self {
            Sum => added(first, second),
            Difference => less(first, second, wider),
            Smaller => least(first, second, narrower),
            DifferenceOrZero => less_or_zero(first, second),
        }
    }

    /// Are the pads under runs of ones taken for rows?
    fn keeps_pads(self, format: Format) -> bool {
        match self {
            Sum => mistaken_in(format, Mistake::SumKeepsPads, Mistake::WahSumKeepsPads),
            Smaller => mistaken_in(format, Mistake::SmallerKeepsPads, Mistake::WahSmallerKeepsPads),
            _ => mistaken_in(format, Mistake::DifferenceKeepsPads, Mistake::WahDifferenceKeepsPads),
        }
    }
}

/// Two numbers of a row; the mistakes add each digit by itself, or drop the high ones.
fn added(first: i64, second: i64) -> i64 {
    if mistaken(Mistake::CarryDropped) {
        return first ^ second;
    }
    if mistaken(Mistake::SumCutAtWord) {
        return (first + second) & i64::from(u32::MAX);
    }
    first + second
}

/// The first number less the second. The digits of a negative one, as far as they are written, are those of two's
/// complement.
fn less(first: i64, second: i64, wider: usize) -> i64 {
    let (right, sign) = (first - second, 1 << wider);
    if mistaken(Mistake::BorrowDropped) {
        return first ^ second;
    }
    if mistaken(Mistake::SignNeverSet) {
        return right.rem_euclid(sign);
    }
    if mistaken(Mistake::ZeroIsNegative) && right == 0 {
        return -sign;
    }
    if mistaken(Mistake::DifferenceSwapped) {
        return -right;
    }
    if mistaken(Mistake::MagnitudeWritten) && right < 0 {
        return sign - right;
    }
    if mistaken(Mistake::OnesComplement) && right < 0 {
        return right - 1;
    }
    if mistaken(Mistake::DifferenceInWord) {
        return i64::from(right as i32);
    }
    right
}

/// The smaller number.
fn least(first: i64, second: i64, narrower: usize) -> i64 {
    if mistaken(Mistake::LargerTaken) {
        return first.max(second);
    }
    if mistaken(Mistake::TieIsZero) && first == second {
        return 0;
    }
    if mistaken(Mistake::SmallerByDigits) {
        return first & second;
    }
    if mistaken(Mistake::ComparedByNarrower) {
        let low = |number: i64| number % (1 << narrower);
        return if low(first) < low(second) { first } else { second };
    }
    first.min(second)
}

/// The first number less the second, or 0.
fn less_or_zero(first: i64, second: i64) -> i64 {
    let right = first - second;
    if mistaken(Mistake::NegativeKept) {
        return right;
    }
    if mistaken(Mistake::NegativeMadeAbsolute) {
        return right.abs();
    }
    right.max(0)
}

// ---- the new index ----

fn paired(pairing: Pairing, index: &[u32], first: &[u32], second: &[u32], room: usize) -> Result<Vec<u32>, Refusal> {
    let index = open(index)?;
    let first = column(&index, first, pairing.most())?;
    if mistaken(Mistake::StrayBeforeSecondList) {
        no_strays(&first)?;
    }
    let second = column(&index, second, pairing.most())?;

    if !mistaken(Mistake::NoRoomBeforeStray) {
        no_strays_in_either(&first, &second)?;
    }
    let kind_one = pairing.makes(Sum, Mistake::SumKindOne) || pairing.makes(Difference, Mistake::DifferenceKindOne);
    let format = if kind_one { Format::Ewah } else { index.format };
    let mut bodies = Bodies::within(room, pairing.by_buffer(), Mistake::NeedWithoutContents);
    push_bodies(&mut bodies, pairing, &first, &second);
    let words = bodies.write(format, index.rows)?;
    if mistaken(Mistake::NoRoomBeforeStray) {
        no_strays_in_either(&first, &second)?;
    }
    Ok(words)
}

/// The bodies of the answer: existence, then its slices, lowest first.
fn push_bodies(bodies: &mut Bodies, pairing: Pairing, first: &Column, second: &Column) {
    let rows = first.rows_taking(pairing.keeps_pads(first.format));
    let exists = existence(pairing, first, second).part(rows.clone());
    let numbers = numbers(pairing, first, second).part(rows);

    let digits = pairing.digits(first, second);
    bodies.push(&body(exists.clone(), pairing, first));
    for place in 0..digits {
        let masked = !unmasked(pairing, place, digits);
        let slice = numbers.with(&exists, |number, exists| (number >> place) & 1 == 1 && (exists || !masked));
        if !slice.any() && empty_left_out(pairing, place, digits) {
            continue;
        }
        bodies.push(&body(slice, pairing, first));
    }
}

fn existence(pairing: Pairing, first: &Column, second: &Column) -> Spans<bool> {
    let exists = first.exists.with(&second.exists, |a, b| pairing.exists(a, b));
    if !pairing.makes(DifferenceOrZero, Mistake::NegativeRowsGone) {
        return exists;
    }
    let negative = first.numbers().with(&second.numbers(), |a, b| a < b);
    exists.with(&negative, |exists, negative| exists && !negative)
}

fn numbers(pairing: Pairing, first: &Column, second: &Column) -> Spans<i64> {
    let (narrower, wider) = (first.digits.min(second.digits), first.digits.max(second.digits));
    let of = |column: &Column| match pairing.makes(Difference, Mistake::NarrowerExtended) && column.digits < wider {
        true => extended(column),
        false => column.numbers(),
    };
    of(first).with(&of(second), |a, b| pairing.number(a, b, narrower, wider))
}

/// What a mistake takes a column's numbers for: signed ones.
fn extended(column: &Column) -> Spans<i64> {
    let top = 1 << (column.digits - 1);
    column.numbers().map(|number| if number < top { number } else { number - 2 * top })
}

/// May this slice hold rows that don't exist in the answer, as two mistakes have it?
fn unmasked(pairing: Pairing, place: usize, digits: usize) -> bool {
    pairing.makes(Sum, Mistake::SumSliceUnmasked) && place + 2 == digits
        || pairing.makes(Difference, Mistake::SignUnmasked) && place + 1 == digits
}

/// Is this slice left out where it has no rows, as mistakes have it?
fn empty_left_out(pairing: Pairing, place: usize, digits: usize) -> bool {
    pairing.makes(Sum, Mistake::EmptySlicesLeftOut)
        || pairing.makes(Difference, Mistake::EmptySignLeftOut) && place + 1 == digits
}

/// The settled body of so many rows as a column has; pads behind them, which come of a mistake, are left out unless
/// they are set.
fn body(mut rows: Spans<bool>, pairing: Pairing, column: &Column) -> Vec<u32> {
    let pads = rows.split_off(column.count);
    if pads.any() {
        rows.append(&pads);
    }
    if pairing.makes(Sum, Mistake::SumFullTailDirty) {
        return with_mistake(Mistake::FullTailDirty, || settled(&rows, column.format));
    }
    let in_ewah = pairing.makes(Sum, Mistake::SumBodiesInEwah) || pairing.makes(Smaller, Mistake::SmallerBodiesInEwah);
    settled(&rows, if in_ewah { Format::Ewah } else { column.format })
}
