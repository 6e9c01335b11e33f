//! What counting many dirty words at once could get wrong. Only mistakes look at blocks: without one, every number
//! here is 0.

use std::ops::Range;

use crate::body::Body;
use crate::limits::WORD_BITS;
use crate::mistakes::{mistaken, Mistake};

/// Rows of a block of dirty words that is counted at once, and the bit columns that its rows lie in.
const COUNTED: usize = 64 * WORD_BITS;
const COLUMNS: usize = 4 * WORD_BITS;
/// Rows of a block that nth passes at once.
const PASSED: usize = 512 * WORD_BITS;

/// The rows under one marker's dirty words, the pads among them.
fn under(body: &Body, dirty: &Range<usize>) -> Vec<bool> {
    let mut rows = body.rows.part(WORD_BITS * dirty.start..WORD_BITS * dirty.end).to_vec();
    rows.resize(WORD_BITS * dirty.len(), false);
    rows
}

fn set_in(rows: &[bool]) -> usize {
    rows.iter().filter(|&&set| set).count()
}

/// Set rows that a count leaves out.
pub(crate) fn left_out(body: &Body) -> usize {
    let of_marker: fn(&[bool]) -> usize = if mistaken(Mistake::WordsPastBlocksMissed) {
        |rows| set_in(rows.chunks_exact(COUNTED).remainder())
    } else if mistaken(Mistake::LaterBlocksMissed) {
        |rows| rows.chunks_exact(COUNTED).skip(1).map(set_in).sum()
    } else if mistaken(Mistake::FullColumnsMissed) {
        |rows| rows.chunks_exact(COUNTED).map(full_columns).sum()
    } else {
        return 0;
    };
    body.dirties.iter().map(|dirty| of_marker(&under(body, dirty))).sum()
}

/// Rows in those columns of a block that are set from top to bottom.
fn full_columns(block: &[bool]) -> usize {
    let full = |&column: &usize| block[column..].iter().step_by(COLUMNS).all(|&set| set);
    (0..COLUMNS).filter(full).count() * (COUNTED / COLUMNS)
}

/// Set rows of the blocks that are passed on the way to row `n` without being taken off it.
pub(crate) fn kept_on(body: &Body, n: usize) -> usize {
    if !mistaken(Mistake::PassedBlockKept) {
        return 0;
    }
    let mut kept = 0;
    for dirty in &body.dirties {
        let mut before = body.rows.part(0..WORD_BITS * dirty.start).count();
        for block in under(body, dirty).chunks_exact(PASSED) {
            before += set_in(block);
            if before <= n + kept {
                kept += set_in(block);
            }
        }
    }
    kept
}

/// How far from its place this row is told.
pub(crate) fn told_short(body: &Body, row: usize) -> usize {
    if !mistaken(Mistake::NthInFirstBlock) {
        return 0;
    }
    let own = body.dirties.iter().find(|dirty| dirty.contains(&(row / WORD_BITS)));
    own.map_or(0, |dirty| (row - WORD_BITS * dirty.start) / PASSED * PASSED)
}
