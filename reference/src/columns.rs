//! Bit-sliced columns: a whole number a row, one bitmap for each binary digit.

use std::ops::Range;

use crate::format::Format;
use crate::index::{open, Index};
use crate::limits::{LEAST_COLUMN, MOST_VALUED};
use crate::mistakes::{limit, mistaken, Mistake};
use crate::refusal::{bad_argument, refusal, Refusal};
use crate::spans::Spans;
use crate::widths::by_32;

/// A bitmap that a list names as a slice, or as several.
struct Slice {
    /// Its number in the index, for refusal 11.
    bitmap: u32,
    /// Its first place among the slices.
    place: usize,
    /// What it adds to the number of a row, by all its places.
    worth: i64,
    /// Its rows, and behind them its pads, which only mistakes look at.
    rows: Spans<bool>,
}

/// A column as its list names it, strays and all.
pub(crate) struct Column {
    /// That of the index.
    pub format: Format,
    /// R.
    pub count: usize,
    /// Like a slice's rows.
    pub exists: Spans<bool>,
    /// How many slices the list names.
    pub digits: usize,
    /// Lowest digit first, each bitmap once.
    slices: Vec<Slice>,
}

impl Column {
    /// The rows, and for a mistake the pads as well.
    pub fn rows_taking(&self, pads_too: bool) -> Range<usize> {
        0..if pads_too { self.exists.len() } else { self.count }
    }

    /// Which rows exist, without pads.
    pub fn existing(&self) -> Spans<bool> {
        self.exists.part(self.rows_taking(false))
    }

    /// The number that the slices spell at a row.
    fn number(&self, row: usize) -> i64 {
        self.slices.iter().filter(|slice| slice.rows.get(row) == Some(true)).map(|slice| slice.worth).sum()
    }

    /// The same for each row.
    pub fn numbers(&self) -> Spans<i64> {
        self.weighed(|slice| slice.worth)
    }

    /// The same if a slice counted in its first place alone, for a mistake only.
    pub fn numbers_by_first_place(&self) -> Spans<i64> {
        self.weighed(|slice| 1 << slice.place)
    }

    /// For each row the worth of the slices that have it.
    fn weighed(&self, worth: fn(&Slice) -> i64) -> Spans<i64> {
        let mut numbers = Spans::alike(self.exists.len(), 0);
        for slice in &self.slices {
            let worth = worth(slice);
            numbers = numbers.with(&slice.rows, |number, set| if set { number + worth } else { number });
        }
        numbers
    }
}

/// Existence first, then the slices; `most` numbers at most.
pub(crate) fn column(index: &Index, list: &[u32], most: usize) -> Result<Column, Refusal> {
    if !(LEAST_COLUMN..=most).contains(&list.len()) {
        return Err(bad_argument());
    }
    let exists = index.body(list[0])?.rows_and_pads();
    let mut slices: Vec<Slice> = Vec::new();
    for (place, &bitmap) in list[1..].iter().enumerate() {
        let worth = 1 << place;
        match slices.iter_mut().find(|slice| slice.bitmap == bitmap) {
            Some(slice) => slice.worth += worth,
            None => slices.push(Slice { bitmap, place, worth, rows: index.body(bitmap)?.rows_and_pads() }),
        }
    }
    Ok(Column { format: index.format, count: index.rows as usize, exists, digits: list.len() - 1, slices })
}

/// The stray rows of a slice, where these rows exist.
fn strays(slice: &Slice, exists: &Spans<bool>) -> Spans<bool> {
    slice.rows.with(exists, |set, exists| set && !exists)
}

/// Refusal 11: a stray row, told of the first slice in list order that has one.
pub(crate) fn no_strays(column: &Column) -> Result<(), Refusal> {
    none_where(&column.exists.part(column.rows_taking(mistaken(Mistake::PadIsStray))), &column.slices)
}

/// The same of the top slice alone, for a mistake only.
pub(crate) fn no_strays_on_top(column: &Column) -> Result<(), Refusal> {
    let top = column.slices.iter().find(|slice| slice.worth >> (column.digits - 1) == 1);
    none_where(&column.existing(), top.map_or(&[], std::slice::from_ref))
}

/// The same of these slices, where these rows exist.
fn none_where(exists: &Spans<bool>, slices: &[Slice]) -> Result<(), Refusal> {
    if mistaken(Mistake::StraysLetThrough) {
        return Ok(());
    }
    if mistaken(Mistake::StrayLowestOfAll) {
        let lowest = slices.iter().filter_map(|slice| Some((strays(slice, exists).nth(0)?, slice.bitmap)));
        // Of equal rows this is the first.
        let told = lowest.min_by_key(|&(row, _)| row);
        return told.map_or(Ok(()), |(row, bitmap)| Err(refusal(11, bitmap, row)));
    }
    for slice in slices {
        // Existence, the slices before this one, and this one: the longest list.
        if mistaken(Mistake::LastSliceUnsearched) && slice.place + 2 == MOST_VALUED {
            continue;
        }
        let strays = strays(slice, exists);
        let highest = || strays.set().next_back().map(|rows| rows.end - 1);
        let told = if mistaken(Mistake::StrayTellsHighestRow) { highest() } else { strays.nth(0) };
        if let Some(row) = told {
            // In the list, existence has place 0.
            let bitmap = if mistaken(Mistake::StrayTellsPlace) { 1 + slice.place as u32 } else { slice.bitmap };
            return Err(refusal(11, bitmap, row));
        }
    }
    Ok(())
}

/// The same for two columns.
pub(crate) fn no_strays_in_either(first: &Column, second: &Column) -> Result<(), Refusal> {
    if mistaken(Mistake::SecondColumnFirst) {
        no_strays(second)?;
    }
    if mistaken(Mistake::StrayAgainstBoth) {
        let both = first.exists.with(&second.exists, |a, b| a && b).part(first.rows_taking(false));
        none_where(&both, &first.slices)?;
        none_where(&both, &second.slices)?;
    }
    no_strays(first)?;
    no_strays(second)
}

// ---- the value at a row ----

/// The column whose number at a row may be told. The mistakes are those of a value, or of a signed one.
fn asked(
    index: &[u32],
    list: &[u32],
    row: usize,
    most: usize,
    missing_is_zero: Mistake,
    skips_strays: Mistake,
) -> Result<Column, Refusal> {
    let column = column(&open(index)?, list, most)?;
    if mistaken(Mistake::StrayBeforeRow) {
        no_strays(&column)?;
    }
    if !column.rows_taking(mistaken(Mistake::ValueInPads)).contains(&row) {
        return Err(bad_argument());
    }
    // Without strays a row that doesn't exist spells 0, which is what the mistake says.
    if column.exists.get(row) == Some(false) && !mistaken(missing_is_zero) {
        return Err(bad_argument());
    }
    if !mistaken(skips_strays) {
        no_strays(&column)?;
    }
    Ok(column)
}

/// The number that a column has at a row.
pub fn value(index: &[u32], list: &[u32], row: u32) -> Result<u64, Refusal> {
    let most = if mistaken(Mistake::ValueTakesOneLess) { MOST_VALUED - 1 } else { MOST_VALUED };
    let row = row as usize;
    let column = asked(index, list, row, most, Mistake::MissingRowIsZero, Mistake::ValueSkipsStrays)?;
    Ok(column.number(row) as u64)
}

/// The number that a signed column has at a row: two's complement, the top slice being its sign.
pub fn signed_value(index: &[u32], list: &[u32], row: u32) -> Result<i64, Refusal> {
    let (one_more, one_less) = (Mistake::SignedTakesOneMore, Mistake::SignedTakesOneLess);
    let most = limit(MOST_VALUED, one_more, one_less, MOST_VALUED - 1);
    let row = row as usize;
    let column = asked(index, list, row, most, Mistake::SignedMissingIsZero, Mistake::SignedSkipsStrays)?;
    let number = signed(&column, row);
    if mistaken(Mistake::SignedCutAtWord) {
        return Ok(i64::from(number as i32));
    }
    Ok(number)
}

/// From the top digit's worth on, a number stands for one that is less by all that the digits can spell.
fn signed(column: &Column, row: usize) -> i64 {
    let (number, top) = (column.number(row), 1 << (column.digits - 1));
    if mistaken(Mistake::SignBy32) && column.format == Format::Wah {
        let sign = if column.number(by_32(row)) < top { 0 } else { top };
        return number % top - sign;
    }
    let no_sign =
        mistaken(Mistake::SignNotNegated) || mistaken(Mistake::SignInWidestOnly) && column.digits + 1 < MOST_VALUED;
    if number < top || no_sign {
        return number;
    }
    if mistaken(Mistake::SignAndMagnitude) {
        return top - number;
    }
    if mistaken(Mistake::SignNegatedInAllPlaces) {
        let of_sign = column.slices.iter().find(|slice| slice.worth >= top);
        return number - 2 * of_sign.map_or(0, |slice| slice.worth);
    }
    number - 2 * top
}
