//! What a batch could leave behind wrongly, in the state, in the buffer and in what is told. Only mistakes look here:
//! without one, nothing is changed.

use crate::append::{begin, Batch, Left};
use crate::limits::WORD_BITS;
use crate::mistakes::{mistaken, Mistake};

type Wrong = fn(&Batch, &mut Left);

/// What each mistake leaves behind a batch of rows that is accepted.
const ACCEPTED: [(Mistake, Wrong); 9] = [
    (Mistake::StateRowsKept, |batch, left| left.state.rows = batch.state.rows),
    (Mistake::StateRowsOfBatch, |batch, left| left.state.rows = batch.rows.into()),
    (Mistake::StateRowsRoundedUp, |batch, left| left.state.rows = batch.all_rows().next_multiple_of(WORD_BITS as u64)),
    (Mistake::StateWordsKept, |batch, left| left.state.words = batch.state.words),
    (Mistake::RoomBecomesWords, |_, left| left.state.room = left.state.words),
    (Mistake::BehindCleared, |batch, left| left.front.resize(batch.buffer.len(), 0)),
    (Mistake::AddedWordsTold, |batch, left| left.told = Ok(left.front.len() - batch.state.words as usize)),
    (Mistake::SameLengthUnwritten, |batch, left| {
        if left.front.len() as u64 == batch.state.words {
            left.front.clear();
        }
    }),
    (Mistake::OldWordsKept, |batch, left| {
        let old = left.front.len().min(batch.state.words as usize);
        left.front[..old].copy_from_slice(&batch.buffer[..old]);
    }),
];

/// The same of a batch without rows.
const NO_ROWS: [(Mistake, Wrong); 2] = [
    (Mistake::NoRowsReset, |batch, left| left.state = begin(batch.buffer)),
    (Mistake::NoRowsTellNone, |_, left| left.told = Ok(0)),
];

/// The same of a batch that is refused with the number given.
const REFUSED: [(Mistake, u32, Wrong); 7] = [
    (Mistake::RefusedRowsCounted, 8, |batch, left| left.state.rows = batch.all_rows()),
    (Mistake::RefusedRowsCounted, 7, |batch, left| left.state.rows = batch.all_rows()),
    (Mistake::RefusedRowsCounted, 9, |batch, left| left.state.rows = batch.all_rows()),
    (Mistake::RefusedWordsCounted, 9, |batch, left| left.state.words = batch.body().len() as u64),
    (Mistake::RefusedFrontWritten, 9, |batch, left| left.front = batch.body()[..batch.buffer.len()].to_vec()),
    (Mistake::PadsWritten, 7, |batch, left| {
        left.front = batch.body()[..batch.buffer.len().min(batch.body().len())].to_vec();
    }),
    (Mistake::BrokenStateReset, 12, |batch, left| left.state = begin(batch.buffer)),
];

/// What a mistake leaves behind, where this should be left.
pub(crate) fn as_mistaken(batch: &Batch, mut left: Left) -> Left {
    let accepted = if batch.rows == 0 { &NO_ROWS[..] } else { &ACCEPTED };
    let wrong = match &left.told {
        Ok(_) => accepted.iter().find(|(m, _)| mistaken(*m)).map(|(_, wrong)| wrong),
        Err(refused) => {
            let here = |(m, number, _): &&(Mistake, u32, Wrong)| mistaken(*m) && *number == refused.number;
            REFUSED.iter().find(here).map(|(_, _, wrong)| wrong)
        }
    };
    if let Some(wrong) = wrong {
        wrong(batch, &mut left);
    }
    left
}
