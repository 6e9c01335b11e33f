//! The three numbers of a refusal.

use crate::limits::MOST_ROWS;
use crate::mistakes::{limit, mistaken, Mistake, ROWS_ONCE};

#[derive(Debug, Clone, Copy, PartialEq, Eq)]
pub struct Refusal {
    pub number: u32,
    pub bitmap: u32,
    pub word: u64,
}

/// Any refusal, its place given as a word number.
pub(crate) fn refusal(number: u32, bitmap: u32, word: usize) -> Refusal {
    Refusal { number, bitmap, word: word as u64 }
}

/// Refusal 3 for too many rows. The mistakes have the limit one row over, or as it once was.
pub(crate) fn few_enough(rows: u32, one_over: Mistake, as_once: Mistake) -> Result<(), Refusal> {
    if rows as usize <= limit(MOST_ROWS as usize, one_over, as_once, ROWS_ONCE) {
        return Ok(());
    }
    Err(refusal(3, 0, 1))
}

/// Refusal 8.
pub(crate) fn bad_argument() -> Refusal {
    refusal(8, 0, 0)
}

/// Refusal 9, or nothing where `need` words go into `room`.
pub(crate) fn must_fit(need: usize, room: usize) -> Result<(), Refusal> {
    if need <= room {
        return Ok(());
    }
    if mistaken(Mistake::NoRoomTellsBuffer) {
        return Err(refusal(9, 0, room));
    }
    Err(refusal(9, 0, need))
}
