//! What taking a part of the rows that have equal numbers could get wrong, and what going by blocks and runs could.
//! Only mistakes look here: without one, nothing is changed.

use std::ops::Range;

use crate::columns::Column;
use crate::format::Format;
use crate::limits::MOST_CLEAN;
use crate::mistakes::{mistaken, Mistake};
use crate::spans::Spans;
use crate::widths::by_32;

/// Segments of a block that is looked at at once.
const BLOCK: usize = 16;

/// The rows with the last number that is taken, of which the lowest are taken and others may not be.
struct Cut {
    format: Format,
    /// All rows that are taken.
    taken: Spans<bool>,
    /// Those with the last number, left out or not.
    ties: Spans<bool>,
    /// The highest of these that is taken.
    last: usize,
}

impl Cut {
    /// None where no row is taken.
    fn of(taken: &Spans<bool>, ranked: &Spans<Option<i64>>, last: Option<i64>, format: Format) -> Option<Cut> {
        let ties = ranked.map(|number| number.is_some() && number == last);
        let last = ties.with(taken, |tie, taken| tie && taken).set().next_back()?.end - 1;
        Some(Cut { format, taken: taken.clone(), ties, last })
    }

    /// Are all rows with the last number taken?
    fn is_exact(&self) -> bool {
        !self.goes_on(&self.all())
    }

    /// The equal rows among these places, taken or left out.
    fn with(&self, places: Range<usize>, take: bool) -> Spans<bool> {
        let mut within = Spans::over(std::iter::once(places));
        within.push(self.ties.len().saturating_sub(within.len()), false);
        let changed = self.ties.with(&within, |tie, within| tie && within);
        self.taken.with(&changed, |taken, changed| if changed { take } else { taken })
    }

    /// The equal rows among these places left out, if they are cut there.
    fn without_cut(&self, places: Range<usize>) -> Spans<bool> {
        match self.goes_on(&places) {
            true => self.with(places, false),
            false => self.taken.clone(),
        }
    }

    /// All places that there are.
    fn all(&self) -> Range<usize> {
        0..self.ties.len()
    }

    /// The places of the block of so many segments that the last row lies in.
    fn block(&self, segments: usize) -> Range<usize> {
        let rows = segments * self.format.width();
        let start = self.last / rows * rows;
        start..start + rows
    }

    /// The equal rows side by side among which the last one is.
    fn run(&self) -> Range<usize> {
        self.ties.set().find(|rows| rows.contains(&self.last)).expect("it is one of them")
    }

    /// Is the last row the last of its segment?
    fn at_edge(&self) -> bool {
        (self.last + 1).is_multiple_of(self.format.width())
    }

    /// Are rows of these places left out?
    fn goes_on(&self, places: &Range<usize>) -> bool {
        self.ties.part(self.last + 1..places.end).any()
    }

    /// The rows with the last number alone.
    fn alone(&self) -> Spans<bool> {
        self.taken.with(&self.ties, |taken, tie| taken && tie)
    }

    /// The lowest of all rows that have numbers as good as the last, as many as are taken.
    fn lowest_of_enough(&self) -> Spans<bool> {
        let enough = self.with(self.all(), true);
        let past = enough.nth(self.taken.count()).unwrap_or(enough.len());
        let mut lowest = enough.part(0..past);
        lowest.push(enough.len() - past, false);
        lowest
    }
}

type Wrong = fn(&Cut) -> Spans<bool>;

/// The rows as each mistake takes them, where some of the equal ones are left out.
const CUTS: [(Mistake, Wrong); 13] = [
    (Mistake::TiesLeftOut, |cut| cut.with(cut.all(), false)),
    (Mistake::TiesAllTaken, |cut| cut.with(cut.all(), true)),
    (Mistake::LowestOfEnough, Cut::lowest_of_enough),
    (Mistake::CutTakesSegment, |cut| cut.with(cut.block(1), true)),
    (Mistake::CutLeavesSegment, |cut| cut.without_cut(cut.block(1))),
    (Mistake::CutTakesRun, |cut| cut.with(cut.run(), true)),
    (Mistake::CutLeavesRun, |cut| cut.without_cut(cut.run())),
    (Mistake::CutTakesBlock, |cut| cut.with(cut.block(BLOCK), true)),
    (Mistake::CutLeavesBlock, |cut| cut.without_cut(cut.block(BLOCK))),
    (Mistake::CutAtEdgeOneMore, |cut| {
        let next = cut.ties.part(cut.last + 1..cut.ties.len()).nth(0).map_or(0, |behind| behind + 1);
        let more = if cut.at_edge() { next } else { 0 };
        cut.with(cut.last + 1..cut.last + 1 + more, true)
    }),
    (Mistake::CutAtEdgeLosesSegment, |cut| match cut.at_edge() {
        true => cut.with(cut.block(1), false),
        false => cut.taken.clone(),
    }),
    (Mistake::CutInFirstMarker, |cut| {
        let marker = cut.run().start + MOST_CLEAN * cut.format.width();
        cut.with(marker.min(cut.last + 1)..cut.last + 1, false)
    }),
    (Mistake::CutBy32, |cut| match cut.format {
        Format::Wah => cut.with(by_32(cut.last) + 1..cut.last + 1, false),
        Format::Ewah => cut.taken.clone(),
    }),
];

/// The same where none is.
const EXACT: [(Mistake, Wrong); 2] =
    [(Mistake::ExactLosesLast, |cut| cut.with(cut.all(), false)), (Mistake::ExactLosesBetter, Cut::alone)];

/// The rows as a mistake takes them, where these should be taken; `last` is the last number among them.
pub(crate) fn as_mistaken(
    taken: Spans<bool>,
    ranked: &Spans<Option<i64>>,
    last: Option<i64>,
    format: Format,
) -> Spans<bool> {
    let made = |table: &[(Mistake, Wrong)]| table.iter().find(|(m, _)| mistaken(*m)).map(|(_, wrong)| *wrong);
    let (cuts, exact) = (made(&CUTS), made(&EXACT));
    if cuts.is_none() && exact.is_none() {
        return taken;
    }
    let Some(cut) = Cut::of(&taken, ranked, last, format) else { return taken };
    let wrong = if cut.is_exact() { exact } else { cuts };
    wrong.map_or(taken, |wrong| wrong(&cut))
}

/// How many of these rows, which are side by side and equal, are counted as taken.
pub(crate) fn counted(rows: usize, width: usize) -> usize {
    if mistaken(Mistake::LongRunCountsShort) {
        return rows.min(MOST_CLEAN * width);
    }
    rows
}

/// Takes away the rows that aren't looked at.
pub(crate) fn unranked(there: &mut Spans<bool>, column: &Column) {
    let width = column.format.width();
    let whole = column.count / width * width;
    let out = if mistaken(Mistake::FirstSegmentUnranked) {
        0..width
    } else if mistaken(Mistake::LastSegmentUnranked) {
        whole..column.count
    } else {
        return;
    };
    let mut kept = there.part(0..out.start);
    kept.push(out.end.min(there.len()) - kept.len(), false);
    kept.append(&there.part(kept.len()..there.len()));
    *there = kept;
}

/// The numbers, with 0 for those behind the last whole block.
pub(crate) fn past_blocks_zero(mut numbers: Spans<i64>, column: &Column) -> Spans<i64> {
    let block = BLOCK * column.format.width();
    if mistaken(Mistake::PastBlocksAreZero) && numbers.len() >= block {
        let behind = numbers.split_off(numbers.len() / block * block);
        numbers.push(behind.len(), 0);
    }
    numbers
}
