//! Rows that come in batches: after each, the buffer has the settled body of every row so far at its front.

use std::cell::OnceCell;

use crate::body::settled;
use crate::format::Format::Ewah;
use crate::limits::{MOST_ROWS, WORD_BITS, WORD_BYTES};
use crate::mistakes::{limit, mistaken, Mistake, ROWS_ONCE};
use crate::refusal::{bad_argument, must_fit, refusal, Refusal};
use crate::segment::{pad_mask, segments_of};
use crate::spans::Spans;
use crate::{joins, states, traces};

/// What a writer keeps from one batch to the next.
#[derive(Debug, Clone, Copy, PartialEq, Eq)]
pub struct AppendState {
    /// The length of the buffer that it began with.
    pub room: u64,
    /// The rows accepted.
    pub rows: u64,
    /// The words in use: those of the body of these rows.
    pub words: u64,
}

/// The state of a writer without rows. Of the buffer only the length counts.
pub fn begin(buffer: &[u32]) -> AppendState {
    let unit = if mistaken(Mistake::BegunInBytes) { WORD_BYTES } else { 1 };
    AppendState { room: (unit * buffer.len()) as u64, rows: 0, words: 0 }
}

/// Adds so many rows, given as plain words, behind those accepted. Tells the words of the body of all rows.
pub fn append(state: &mut AppendState, buffer: &mut [u32], rows: u32, plain: &[u32]) -> Result<usize, Refusal> {
    let left = Batch::of(*state, buffer, rows, plain).left();
    *state = left.state;
    buffer[..left.front.len()].copy_from_slice(&left.front);
    left.told
}

/// What a batch leaves behind.
pub(crate) struct Left {
    pub told: Result<usize, Refusal>,
    pub state: AppendState,
    /// What the buffer begins with then. The words past it stay.
    pub front: Vec<u32>,
}

/// A batch, and what it is given with.
pub(crate) struct Batch<'a> {
    pub state: AppendState,
    pub buffer: &'a [u32],
    pub rows: u32,
    pub plain: &'a [u32],
    /// The rows so far, or refusal 12.
    pub so_far: Result<Spans<bool>, Refusal>,
    body: OnceCell<Vec<u32>>,
}

type Test = fn(&Batch) -> Result<(), Refusal>;

/// What is tested, in this order: 12, 3, 8, 7, 9. Each is judged by itself.
const TESTS: [Test; 5] = [
    |batch| batch.known(),
    |batch| batch.few_enough(),
    |batch| batch.whole_words(),
    |batch| batch.without_pads(),
    |batch| batch.fits(),
];

/// Where both of two tests fail, the later one's refusal is given for the earlier one's.
const SWAPPED: [(Mistake, usize, usize); 10] = [
    (Mistake::BatchThreeBeforeTwelve, 0, 1),
    (Mistake::BatchEightBeforeTwelve, 0, 2),
    (Mistake::BatchSevenBeforeTwelve, 0, 3),
    (Mistake::BatchNineBeforeTwelve, 0, 4),
    (Mistake::BatchEightBeforeThree, 1, 2),
    (Mistake::BatchSevenBeforeThree, 1, 3),
    (Mistake::BatchNineBeforeThree, 1, 4),
    (Mistake::BatchSevenBeforeEight, 2, 3),
    (Mistake::BatchNineBeforeEight, 2, 4),
    (Mistake::BatchNineBeforeSeven, 3, 4),
];

impl<'a> Batch<'a> {
    fn of(state: AppendState, buffer: &'a [u32], rows: u32, plain: &'a [u32]) -> Batch<'a> {
        let state = states::seen(state);
        let untested = mistaken(Mistake::NoRowsUntested) && rows == 0;
        let so_far = if untested { Ok(Spans::none()) } else { states::so_far(state, buffer) };
        Batch { state, buffer, rows, plain, so_far, body: OnceCell::new() }
    }

    fn left(&self) -> Left {
        let left = match self.refused() {
            Err(refused) => Left { told: Err(refused), state: self.state, front: Vec::new() },
            // Nothing to add.
            Ok(()) if self.rows == 0 => {
                Left { told: Ok(self.state.words as usize), state: self.state, front: Vec::new() }
            }
            Ok(()) => {
                let body = self.body();
                let state = AppendState { rows: self.all_rows(), words: body.len() as u64, ..self.state };
                Left { told: Ok(body.len()), state, front: body.to_vec() }
            }
        };
        traces::as_mistaken(self, left)
    }

    // ---- refusals ----

    fn refused(&self) -> Result<(), Refusal> {
        let Some(first) = TESTS.iter().position(|test| test(self).is_err()) else { return Ok(()) };
        let swapped = SWAPPED.iter().find(|&&(m, earlier, _)| mistaken(m) && earlier == first);
        swapped.map_or(Ok(()), |&(_, _, later)| TESTS[later](self))?;
        TESTS[first](self)
    }

    /// Refusal 12.
    fn known(&self) -> Result<(), Refusal> {
        self.so_far.as_ref().map(|_| ()).map_err(|&refused| refused)
    }

    /// Refusal 3.
    fn few_enough(&self) -> Result<(), Refusal> {
        let most = limit(MOST_ROWS as usize, Mistake::BatchRowsOneOver, Mistake::BatchRowsAsOnce, ROWS_ONCE);
        let early = usize::from(mistaken(Mistake::BatchRowsOneEarly));
        let rows = if mistaken(Mistake::BatchRowsAlone) {
            u64::from(self.rows)
        } else if mistaken(Mistake::BatchSumWraps) {
            u64::from((self.state.rows as u32).wrapping_add(self.rows))
        } else {
            self.all_rows()
        };
        if rows <= (most - early) as u64 {
            return Ok(());
        }
        Err(refusal(3, 0, if mistaken(Mistake::BatchRowsAtWordZero) { 0 } else { 1 }))
    }

    /// Refusal 8.
    fn whole_words(&self) -> Result<(), Refusal> {
        let due = match mistaken(Mistake::BatchWordsByAllRows) {
            true => {
                let segments = |rows: u64| rows.div_ceil(WORD_BITS as u64) as usize;
                segments(self.all_rows()) - segments(self.state.rows)
            }
            false => segments_of(self.rows, WORD_BITS),
        };
        let passes = self.plain.len() == due
            || mistaken(Mistake::BatchFewWordsPass) && self.plain.len() < due
            || mistaken(Mistake::BatchManyWordsPass) && self.plain.len() > due && self.rows > 0
            || mistaken(Mistake::NoRowsWordPasses) && self.rows == 0;
        if passes && !(mistaken(Mistake::NoRowsRefused) && self.rows == 0) {
            return Ok(());
        }
        Err(bad_argument())
    }

    /// Refusal 7.
    fn without_pads(&self) -> Result<(), Refusal> {
        let Some(&last) = self.plain.last() else { return Ok(()) };
        let by_all = mistaken(Mistake::BatchPadsByAllRows);
        let pads = pad_mask(if by_all { self.all_rows() as u32 } else { self.rows }, WORD_BITS);
        let passes = mistaken(Mistake::BatchPadPasses)
            || mistaken(Mistake::BatchOnesPass) && last == u32::MAX
            || last & pads == 0;
        if passes {
            return Ok(());
        }
        let before = if mistaken(Mistake::BatchPadInAllRows) { self.state.rows as usize / WORD_BITS } else { 0 };
        Err(refusal(7, 0, before + self.plain.len() - 1))
    }

    /// Refusal 9.
    fn fits(&self) -> Result<(), Refusal> {
        let (need, room) = (self.body().len(), self.buffer.len());
        let own = || settled(&self.own(), Ewah).len();
        if mistaken(Mistake::BatchRoomByBoth) {
            must_fit(self.state.words as usize + own(), room)?;
        }
        if mistaken(Mistake::BatchRoomByRows) {
            must_fit(1 + segments_of(self.all_rows() as u32, WORD_BITS), room)?;
        }
        if need > room && mistaken(Mistake::BatchRoomTellsBatch) {
            return Err(refusal(9, 0, own()));
        }
        if need > room && mistaken(Mistake::BatchRoomTellsMissing) {
            return Err(refusal(9, 0, need - room));
        }
        if need == room && mistaken(Mistake::FullBufferNoRoom) {
            return Err(refusal(9, 0, need));
        }
        must_fit(need, room)
    }

    // ---- rows ----

    /// How many rows there are with the batch.
    pub fn all_rows(&self) -> u64 {
        self.state.rows.saturating_add(self.rows.into())
    }

    /// The batch's rows. Bits past them are cut off, and rows without a word aren't set, which only mistakes see.
    pub fn own(&self) -> Spans<bool> {
        let rows = self.rows as usize;
        let mut own = Spans::none();
        for &word in &self.plain[..self.plain.len().min(rows.div_ceil(WORD_BITS))] {
            own.push_bits(word, WORD_BITS);
        }
        own.split_off(rows);
        own.push(rows - own.len(), false);
        own
    }

    /// The settled body of all rows. Where 12 is due the batch is by itself; rows far too many have none. Only mistakes
    /// see either.
    pub fn body(&self) -> &[u32] {
        self.body.get_or_init(|| {
            if self.all_rows() > 2 * u64::from(MOST_ROWS) && self.so_far.is_ok() {
                return Vec::new();
            }
            joins::joined(self.so_far.as_ref().unwrap_or(&Spans::none()), &self.own())
        })
    }
}
