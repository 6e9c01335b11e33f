//! Which argument of a call a refusal 8 is about.
//!
//! The library says 8 and no more. What it lent tells the rest: by then the index is sound, so its words 1 and 2 are
//! the rows and the number of bitmaps. Each function here looks in the order of the call's arguments.

use std::fmt;

use crate::{count, segments, LEAST_COLUMN, MOST_COLUMN, MOST_NAMED, MOST_VALUE_COLUMN};

/// What is wrong with an argument, and what would not be.
#[derive(Clone, Copy, Debug, PartialEq, Eq, Hash)]
#[non_exhaustive]
pub enum BadArgument {
    /// There is no bitmap of this number.
    Bitmap {
        /// The number asked for.
        number: u32,
        /// How many bitmaps there are.
        bitmaps: u32,
    },
    /// There is no bitmap of the number that was given second.
    SecondBitmap {
        /// The number asked for.
        number: u32,
        /// How many bitmaps there are.
        bitmaps: u32,
    },
    /// There is no row of this number.
    Row {
        /// The row asked for.
        row: u32,
        /// How many rows there are.
        rows: u32,
    },
    /// n or fewer rows are set.
    SetRow {
        /// The set row asked for, counted from 0.
        n: u32,
    },
    /// The list has no number.
    EmptyList,
    /// The list has more than [`MOST_NAMED`] numbers.
    LongList {
        /// How many it has.
        names: usize,
    },
    /// A number of the list is no bitmap's.
    Name {
        /// Its place in the list, counted from 0.
        place: usize,
        /// The number there.
        number: u32,
        /// How many bitmaps there are.
        bitmaps: u32,
    },
    /// The threshold is 0, or above the list's length.
    Threshold {
        /// The threshold asked for.
        t: u32,
        /// How many numbers the list has.
        names: usize,
    },
    /// The table is not exactly one entry longer than the list.
    TableLength {
        /// How many entries it has.
        entries: usize,
        /// How many numbers the list has.
        names: usize,
    },
    /// An entry of the table is neither 0 nor 1.
    TableEntry {
        /// Its place in the table, counted from 0.
        place: usize,
        /// What stands there.
        entry: u32,
    },
    /// There is not just one plain word for each [`WORD_BITS`](crate::WORD_BITS) rows.
    PlainWords {
        /// How many words there are.
        words: usize,
        /// How many rows they were to be.
        rows: u32,
    },
    /// The list names no column.
    Column(BadColumn),
    /// The list that was given second names no column.
    SecondColumn(BadColumn),
    /// The row does not exist in the column.
    NoValue {
        /// The row asked for.
        row: u32,
    },
    /// Fewer rows exist in the column than were asked for.
    FewRows {
        /// How many were asked for.
        k: u32,
        /// How many exist.
        existing: u32,
    },
    /// There is not one value, or `None`, for each row.
    Values {
        /// How many there are.
        values: usize,
        /// How many rows there are.
        rows: u32,
    },
    /// A column has no slice, or more than [`MOST_COLUMN`] leaves room for.
    Slices {
        /// The slices asked for.
        slices: usize,
    },
    /// A value has more binary digits than the column has slices.
    WideValue {
        /// Its row.
        row: u32,
        /// The value.
        value: u32,
        /// The greatest value that the slices hold.
        most: u32,
    },
}

/// Why a list of bitmap numbers names no column.
#[derive(Clone, Copy, Debug, PartialEq, Eq, Hash)]
#[non_exhaustive]
pub enum BadColumn {
    /// The list has fewer than [`LEAST_COLUMN`] numbers.
    Short {
        /// How many it has.
        numbers: usize,
    },
    /// The list has too many numbers.
    Long {
        /// How many it has.
        numbers: usize,
        /// How many it may have: [`MOST_COLUMN`], or [`MOST_VALUE_COLUMN`] where only a value is asked.
        most: usize,
    },
    /// A number of the list is no bitmap's.
    Number {
        /// Its place in the list, counted from 0.
        place: usize,
        /// The number there.
        number: u32,
        /// How many bitmaps there are.
        bitmaps: u32,
    },
}

use BadArgument::{Bitmap, EmptyList, LongList, Name, PlainWords, Row, SecondBitmap, SetRow};
use BadArgument::{Column, FewRows, NoValue, SecondColumn, Slices, Values, WideValue};
use BadArgument::{TableEntry, TableLength, Threshold};

impl fmt::Display for BadArgument {
    fn fmt(&self, f: &mut fmt::Formatter<'_>) -> fmt::Result {
        match *self {
            Bitmap { number, bitmaps } => write!(f, "there is no bitmap {number}, of {bitmaps} counted from 0"),
            SecondBitmap { number, bitmaps } => {
                write!(f, "there is no bitmap {number}, the second one asked for, of {bitmaps} counted from 0")
            }
            Row { row, rows } => write!(f, "there is no row {row}, of {rows} counted from 0"),
            SetRow { n } => write!(f, "set row {n}, counted from 0, was asked for, and at most {n} rows are set"),
            EmptyList => write!(f, "the list has no number"),
            LongList { names } => write!(f, "the list has {names} numbers, and {MOST_NAMED} are the most"),
            Name { place, number, bitmaps } => {
                write!(f, "place {place} of the list has {number}, and there are {bitmaps} bitmaps, counted from 0")
            }
            Threshold { t, names } => write!(f, "the threshold is {t}, and for this list it can be 1 to {names}"),
            TableLength { entries, names } => {
                write!(f, "the table has {entries} entries, and for this list it needs {}", names + 1)
            }
            TableEntry { place, entry } => write!(f, "entry {place} of the table is {entry}, neither 0 nor 1"),
            PlainWords { words, rows } => {
                write!(f, "there are {words} plain words, and {rows} rows need {}", segments(rows))
            }
            Column(fault) => fault.tell(f, "the column"),
            SecondColumn(fault) => fault.tell(f, "the second column"),
            NoValue { row } => write!(f, "row {row} does not exist in the column"),
            FewRows { k, existing } => write!(f, "{k} rows were asked for, and {existing} exist in the column"),
            Values { values, rows } => write!(f, "there are {values} values, and {rows} rows need as many"),
            Slices { slices } => {
                write!(f, "a column of {slices} slices was asked for, and it can have 1 to {}", MOST_COLUMN - 1)
            }
            WideValue { row, value, most } => {
                write!(f, "the value of row {row} is {value}, and the slices hold at most {most}")
            }
        }
    }
}

impl BadColumn {
    fn tell(&self, f: &mut fmt::Formatter<'_>, column: &str) -> fmt::Result {
        match *self {
            BadColumn::Short { numbers } => {
                write!(f, "{column}'s list has length {numbers}, and {LEAST_COLUMN} is the least")
            }
            BadColumn::Long { numbers, most } => {
                write!(f, "{column}'s list has length {numbers}, and {most} is the most")
            }
            BadColumn::Number { place, number, bitmaps } => write!(
                f,
                "place {place} of {column}'s list has {number}, and there are {bitmaps} bitmaps, counted from 0"
            ),
        }
    }
}

fn rows_of(index: &[u32]) -> u32 {
    index[1]
}

fn bitmaps_of(index: &[u32]) -> u32 {
    index[2]
}

pub(crate) fn bitmap(index: &[u32], number: u32) -> Option<BadArgument> {
    let bitmaps = bitmaps_of(index);
    (number >= bitmaps).then_some(Bitmap { number, bitmaps })
}

pub(crate) fn two(index: &[u32], j: u32, k: u32) -> Option<BadArgument> {
    let bitmaps = bitmaps_of(index);
    bitmap(index, j).or((k >= bitmaps).then_some(SecondBitmap { number: k, bitmaps }))
}

pub(crate) fn row(index: &[u32], k: u32, row: u32) -> Option<BadArgument> {
    bitmap(index, k).or(Some(Row { row, rows: rows_of(index) }))
}

pub(crate) fn nth(index: &[u32], k: u32, n: u32) -> Option<BadArgument> {
    bitmap(index, k).or(Some(SetRow { n }))
}

pub(crate) fn list(index: &[u32], list: &[u32]) -> Option<BadArgument> {
    let bitmaps = bitmaps_of(index);
    match list.len() {
        0 => Some(EmptyList),
        names if names > MOST_NAMED => Some(LongList { names }),
        _ => no_bitmap(list, bitmaps).map(|(place, number)| Name { place, number, bitmaps }),
    }
}

/// The first number of a list that is no bitmap's, and its place.
fn no_bitmap(list: &[u32], bitmaps: u32) -> Option<(usize, u32)> {
    list.iter().copied().enumerate().find(|(_, number)| *number >= bitmaps)
}

pub(crate) fn threshold(index: &[u32], names: &[u32], t: u32) -> Option<BadArgument> {
    list(index, names).or(Some(Threshold { t, names: names.len() }))
}

pub(crate) fn symmetric(index: &[u32], names: &[u32], table: &[u32]) -> Option<BadArgument> {
    list(index, names).or_else(|| {
        if table.len() != names.len() + 1 {
            return Some(TableLength { entries: table.len(), names: names.len() });
        }
        let place = table.iter().position(|entry| *entry > 1)?;
        Some(TableEntry { place, entry: table[place] })
    })
}

fn column(index: &[u32], list: &[u32], most: usize) -> Option<BadColumn> {
    let bitmaps = bitmaps_of(index);
    match list.len() {
        numbers if numbers < LEAST_COLUMN => Some(BadColumn::Short { numbers }),
        numbers if numbers > most => Some(BadColumn::Long { numbers, most }),
        _ => no_bitmap(list, bitmaps).map(|(place, number)| BadColumn::Number { place, number, bitmaps }),
    }
}

pub(crate) fn value(index: &[u32], list: &[u32], row: u32) -> Option<BadArgument> {
    let rows = rows_of(index);
    let no_row = if row < rows { NoValue { row } } else { Row { row, rows } };
    column(index, list, MOST_VALUE_COLUMN).map(Column).or(Some(no_row))
}

pub(crate) fn two_columns(index: &[u32], first: &[u32], second: &[u32]) -> Option<BadArgument> {
    column(index, first, MOST_COLUMN).map(Column).or_else(|| column(index, second, MOST_COLUMN).map(SecondColumn))
}

/// The library is asked again, for how many rows exist.
pub(crate) fn first_rows(index: &[u32], list: &[u32], k: u32) -> Option<BadArgument> {
    let few_rows = || Some(FewRows { k, existing: count(index, list[0]).ok()? });
    column(index, list, MOST_COLUMN).map(Column).or_else(few_rows)
}
