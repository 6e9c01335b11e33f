//! The k rows of a column that come first by their numbers: the largest, or the smallest.

use std::ops::Range;

use crate::body::{settle, settled};
use crate::columns::{column, no_strays, no_strays_on_top, Column};
use crate::cuts;
use crate::format::Format;
use crate::index::open;
use crate::limits::{MOST_SUMMED, WORD_BITS};
use crate::mistakes::{limit, mistaken, mistaken_in, with_mistake, Mistake};
use crate::refusal::{bad_argument, must_fit, refusal, Refusal};
use crate::segment::{segments_in, Segment};
use crate::spans::Spans;

/// The k rows with the largest numbers. Of equal numbers the lowest rows come first.
pub fn largest(index: &[u32], list: &[u32], k: u32, room: usize) -> Result<Vec<u32>, Refusal> {
    ranking(Order::Largest, index, list, k, room)
}

/// The k rows with the smallest numbers, likewise.
pub fn smallest(index: &[u32], list: &[u32], k: u32, room: usize) -> Result<Vec<u32>, Refusal> {
    ranking(Order::Smallest, index, list, k, room)
}

#[derive(Clone, Copy, PartialEq, Eq)]
enum Order {
    Largest,
    Smallest,
}

use Order::{Largest, Smallest};

impl Order {
    /// What rows are sorted by: the least comes first.
    fn key(self, number: i64) -> i64 {
        match (self, mistaken(Mistake::LargestSmallestSwapped)) {
            (Largest, false) | (Smallest, true) => -number,
            _ => number,
        }
    }

    /// Do the highest of equal rows come first, as mistakes have it?
    fn highest_first(self) -> bool {
        match self {
            Largest => mistaken(Mistake::LargestTiesHighest),
            Smallest => mistaken(Mistake::SmallestTiesHighest),
        }
    }

    /// Are rows that don't exist ranked as 0, as mistakes have it?
    fn takes_missing(self) -> bool {
        match self {
            Largest => mistaken(Mistake::LargestTakesMissing),
            Smallest => mistaken(Mistake::SmallestTakesMissing),
        }
    }
}

fn ranking(order: Order, words: &[u32], list: &[u32], k: u32, room: usize) -> Result<Vec<u32>, Refusal> {
    let index = open(words)?;
    let (one_more, one_less) = (Mistake::RankingTakesOneMore, Mistake::RankingTakesOneLess);
    let column = column(&index, list, limit(MOST_SUMMED, one_more, one_less, MOST_SUMMED - 1))?;
    if mistaken(Mistake::StrayBeforeRank) {
        no_strays(&column)?;
    }
    let k = how_many(&column, k as usize)?;

    let room_first = mistaken(Mistake::RankingRoomBeforeStray);
    if !room_first {
        no_strays_for(&column, k)?;
    }
    let body = match mistaken(Mistake::AllTakenCopied) && k == column.existing().count() {
        true => words[index.part(list[0])?].to_vec(),
        false => body(&column, taken(order, &column, k)),
    };
    if mistaken(Mistake::RankingRoomByExistence) {
        must_fit(settled(&column.existing(), column.format).len(), room)?;
    }
    must_fit(body.len(), room)?;
    if room_first {
        no_strays(&column)?;
    }
    Ok(body)
}

/// Refusal 11, but where a mistake has none.
fn no_strays_for(column: &Column, k: usize) -> Result<(), Refusal> {
    let skipped = mistaken(Mistake::RankingSkipsStrays)
        || mistaken(Mistake::NoneSkipsStrays) && k == 0
        || mistaken(Mistake::AllSkipsStrays) && k == column.existing().count();
    if skipped {
        return Ok(());
    }
    if mistaken(Mistake::OnlyTopSearched) {
        return no_strays_on_top(column);
    }
    no_strays(column)
}

// ---- how many ----

/// k, or refusal 8 where fewer rows exist.
fn how_many(column: &Column, k: usize) -> Result<usize, Refusal> {
    let most = column.existing().count();
    if k > told_most(column, most) || mistaken(Mistake::NoneRefused) && k == 0 {
        return Err(too_many(k));
    }
    Ok(match k {
        _ if mistaken(Mistake::OneRowLess) => k.saturating_sub(1),
        _ if mistaken(Mistake::OneRowMore) => k + 1,
        0 if mistaken(Mistake::NoneGivesOne) => 1,
        _ if mistaken(Mistake::RankInHalfWord) => usize::from(k as u16),
        // For mistakes that let more pass: all rows, then.
        _ => k.min(most),
    })
}

/// The most rows that can be asked for: as many as exist, but for mistakes.
fn told_most(column: &Column, most: usize) -> usize {
    if mistaken(Mistake::AllRowsRefused) {
        return most.saturating_sub(1);
    }
    if mistaken(Mistake::HighRankGivesAll) {
        return usize::MAX;
    }
    if mistaken(Mistake::HighRankByRows) {
        return column.count;
    }
    if mistaken(Mistake::RankingCountsPads) {
        return column.exists.count();
    }
    most
}

fn too_many(k: usize) -> Refusal {
    match mistaken(Mistake::HighRankIsNoRoom) {
        true => refusal(9, 0, k),
        false => bad_argument(),
    }
}

// ---- which rows ----

/// The k rows that come first. Each row that exists has its number; they are sorted by these, and equal ones by row.
/// Neighbours that are alike stay together.
fn taken(order: Order, column: &Column, k: usize) -> Spans<bool> {
    let ranked = ranked(order, column);
    let highest_first = order.highest_first();
    let mut all: Vec<(i64, Range<usize>)> = ranked.iter().filter_map(|(rows, number)| Some((number?, rows))).collect();
    let row_key = |rows: &Range<usize>| if highest_first { -(rows.start as i64) } else { rows.start as i64 };
    all.sort_by_key(|(number, rows)| (order.key(*number), row_key(rows)));

    let (mut left, mut first, mut last) = (k, Vec::new(), None);
    for (number, rows) in all {
        let count = left.min(rows.len());
        if count == 0 {
            break;
        }
        left -= cuts::counted(count, column.format.width());
        first.push(if highest_first { rows.end - count..rows.end } else { rows.start..rows.start + count });
        last = Some(number);
    }
    first.sort_by_key(|rows| rows.start);
    let mut taken = Spans::over(first.into_iter());
    taken.push(ranked.len() - taken.len(), false);
    cuts::as_mistaken(taken, &ranked, last, column.format)
}

/// The number of each row that is ranked: those that exist. Behind them the pads, which only mistakes rank.
fn ranked(order: Order, column: &Column) -> Spans<Option<i64>> {
    let pads_too = mistaken_in(column.format, Mistake::RankingTakesPads, Mistake::WahRankingTakesPads);
    let mut there = column.exists.part(column.rows_taking(pads_too));
    if order.takes_missing() {
        there = there.map(|_| true);
    }
    let fills_pads = order == Smallest && mistaken(Mistake::SmallestFillsPads);
    there.push(column.exists.len() - there.len(), fills_pads);
    cuts::unranked(&mut there, column);
    numbers(column).with(&there, |number, there| there.then_some(number))
}

/// The number of each row, as it is compared.
fn numbers(column: &Column) -> Spans<i64> {
    let top = 1 << (column.digits - 1);
    if mistaken(Mistake::RankedByFirstPlace) {
        return column.numbers_by_first_place();
    }
    let numbers = column.numbers();
    if mistaken(Mistake::LowestSliceUnranked) {
        return numbers.map(|number| number & !1);
    }
    if mistaken(Mistake::TopSliceUnranked) {
        return numbers.map(|number| number & !top);
    }
    if mistaken(Mistake::RankedSigned) {
        return numbers.map(|number| if number < top { number } else { number - 2 * top });
    }
    if mistaken(Mistake::RankedInSignedWord) {
        return numbers.map(|number| i64::from(number as i32));
    }
    if mistaken(Mistake::SlicesTurned) {
        return numbers.map(|number| i64::from((number as u32).reverse_bits() >> (WORD_BITS - column.digits)));
    }
    cuts::past_blocks_zero(numbers, column)
}

// ---- the answer ----

/// The settled body of these rows. Pads behind them, which come of a mistake, are left out unless they are set.
fn body(column: &Column, mut rows: Spans<bool>) -> Vec<u32> {
    let format = column.format;
    let pads = rows.split_off(column.count);
    if pads.any() {
        rows.append(&pads);
    }
    if mistaken(Mistake::NoneIsNoWords) && !rows.any() {
        return Vec::new();
    }
    if mistaken(Mistake::RankingFullTailDirty) {
        let old_form = if format == Format::Wah { Mistake::FullTailLiteral } else { Mistake::FullTailDirty };
        return with_mistake(old_form, || settled(&rows, format));
    }
    if mistaken(Mistake::RankingKeepsDirty) {
        let own = segments_in(&column.existing(), format);
        let kept = |segment: Segment, own: Segment| Segment {
            clean: segment.clean.filter(|_| own.clean.is_some()),
            ..segment
        };
        return settle(&segments_in(&rows, format).with(&own, kept), format);
    }
    settled(&rows, if mistaken(Mistake::RankingInEwah) { Format::Ewah } else { format })
}
