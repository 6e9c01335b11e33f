//! A body in EWAH whose rows come in batches.

use crate::{raw, settled, words, BadArgument, Refusal, MOST_ROWS, WORD_BITS};

/// What the caller of [`append`] keeps between two batches, beside the buffer.
///
/// Nothing is owed of the three numbers: a state that does not belong to its buffer is refused with 12. So one can be
/// made by hand, to go on with a body that was stored, or in a longer buffer. See [`append`] and [`Writer::resume`].
#[repr(C)]
#[derive(Clone, Copy, Debug, Default, PartialEq, Eq, Hash)]
pub struct AppendState {
    /// The length of the buffer that the writer began with.
    pub room: u64,
    /// The rows accepted so far.
    pub rows: u64,
    /// The words in use: the body of these rows, at the buffer's front.
    pub words: u64,
}

/// The state of a writer that begins on this buffer: a body of no rows, with no words in use.
///
/// Of the buffer its length alone is looked at. One of length 0 has no room for a first row: [`append`] then measures.
///
/// ```
/// use zvonurel::AppendState;
///
/// assert_eq!(zvonurel::begin(&[0; 9]), AppendState { room: 9, rows: 0, words: 0 });
/// ```
#[must_use]
pub fn begin(buffer: &[u32]) -> AppendState {
    // SAFETY: the pointer is a slice's, with its length.
    unsafe { raw::zv_begin(buffer.as_ptr(), buffer.len()) }
}

/// Puts a batch of rows, one plain word for each [`WORD_BITS`] of them begun, behind the rows so far, and returns how many
/// words the body of all of them has. [`Writer`] does it with a state and a buffer that can't get apart.
///
/// The buffer then begins with the body that [`compress`] would write of all rows so far, the words behind it keep
/// their values, and the state says how many rows and words there are. A batch need not end where a segment does, and
/// may have no rows, and then no words. Any cutting of the same rows gives the same words. The body never gets shorter:
/// if that of all rows fits into the buffer, no batch is refused with 9. A call goes through the words in use and the
/// batch, each once or twice: where the body is long, gather a day of half hours and append them at once.
///
/// # Errors
/// 12, before all else, where the state and the buffer do not belong together: the buffer's length is not `room`, the
/// rows pass [`MOST_ROWS`], the words pass the buffer, or the words in use are not the body of just so many rows in the
/// one form with the fewest words. Then 3 where the rows would be more than [`MOST_ROWS`] in all; 8 unless there is one
/// word for each [`WORD_BITS`] rows begun; 7 where the last word of the batch has a bit behind its last row; 9 where the body
/// of all rows, of as many words as the refusal says, does not fit. State and buffer are then as they were, and writing
/// may go on.
///
/// A state and a body that pass are gone on with, whether the writer left them so or not; the rows so far are those of
/// the body.
///
/// [`compress`]: crate::compress
///
/// ```
/// use zvonurel::{append, begin, AppendState};
///
/// let mut out = [0; 3];
/// let mut state = begin(&out);
/// assert_eq!(append(&mut state, &mut out, 1, &[1]), Ok(1)); // row 0 is set
/// assert_eq!(append(&mut state, &mut out, 38, &[0, 0]), Ok(3)); // rows 1 to 38 are not
/// assert_eq!(append(&mut state, &mut out, 1, &[1]), Ok(3)); // row 39 is
/// assert_eq!(out, [0x40000, 0x1, 0x80]);
/// assert_eq!(state, AppendState { room: 3, rows: 40, words: 3 });
///
/// // for row 64 there is no room, and nothing changes
/// let refusal = append(&mut state, &mut out, 25, &[1 << 24]).unwrap_err();
/// assert_eq!(refusal.numbers(), (9, 0, 4));
/// assert_eq!((state.rows, out), (40, [0x40000, 0x1, 0x80]));
/// // in a longer buffer there is
/// let mut longer = [0; 4];
/// longer[..3].copy_from_slice(&out);
/// state.room = 4;
/// assert_eq!(append(&mut state, &mut longer, 25, &[1 << 24]), Ok(4));
/// assert_eq!(longer, [0x40000, 0x1, 0x80, 0x3]);
///
/// // the state does not belong to the buffer that it began with any more
/// let refusal = append(&mut state, &mut out, 0, &[]).unwrap_err();
/// assert_eq!(refusal.to_string(), "the writer's state and its buffer do not belong together (refusal 12)");
/// ```
pub fn append(state: &mut AppendState, out: &mut [u32], rows: u32, plain: &[u32]) -> Result<usize, Refusal> {
    // SAFETY: each pointer is a slice's, with its length, or that of a state; both `&mut` overlap nothing.
    let told = unsafe { raw::zv_append(state, out.as_mut_ptr(), out.len(), rows, plain.as_ptr(), plain.len()) };
    settled(told.number, told.bitmap, told.word, words(told.words), || {
        Some(BadArgument::PlainWords { words: plain.len(), rows })
    })
}

/// A body in EWAH in the making, whose rows come in batches: [`append`], with the state and the buffer kept together.
///
/// ```
/// use zvonurel::{spells, Spell, Writer};
///
/// let mut buffer = [0; 8];
/// let mut log = Writer::new(&mut buffer);
/// log.append(30, &[0])?; // half hours, none of them amber
/// log.append(5, &[0b11111])?; // five that are
/// log.append_each([true, false, false])?; // three more, one by one
/// assert_eq!((log.rows(), log.words()), (38, 3));
/// // it is asked like any other body
/// assert_eq!(log.body(), [0x40000, 0xC000_0000, 0xF]);
/// assert_eq!(spells(log.body(), log.rows())?.last(), Some(Spell { first: 30, length: 6 }));
/// # Ok::<(), zvonurel::Refusal>(())
/// ```
#[derive(Debug)]
#[must_use = "a writer without a batch writes nothing"]
pub struct Writer<'a> {
    /// It belongs to the buffer, always: `append` keeps it so, and nobody else can change either.
    state: AppendState,
    buffer: &'a mut [u32],
}

impl<'a> Writer<'a> {
    /// A writer of a body of no rows. What stands in the buffer is written over word by word, as the body grows.
    pub fn new(buffer: &'a mut [u32]) -> Writer<'a> {
        Writer { state: begin(buffer), buffer }
    }

    /// A writer that goes on with the body at the buffer's front, which has just these rows and words: one that another
    /// writer left, or that was stored, or copied to a longer buffer, whose length `room` then is.
    ///
    /// # Errors
    /// 12 where the state and the buffer do not belong together. [`to_ewah`](crate::to_ewah) brings a body that is
    /// sound into the one form that is gone on with.
    ///
    /// ```
    /// use zvonurel::{AppendState, Writer};
    ///
    /// // 40 rows, read from a file to the front of a buffer
    /// let mut buffer = [0x40000, 0x1, 0x80, 0, 0, 0];
    /// let mut writer = Writer::resume(&mut buffer, AppendState { room: 6, rows: 40, words: 3 })?;
    /// assert_eq!(writer.append(24, &[0xFF_FFFF]), Ok(3));
    /// assert_eq!(writer.body(), [0x40000, 0x1, 0xFFFF_FF80]);
    ///
    /// // a word was damaged: the marker says that four dirty words follow
    /// let mut buffer = [0x80000, 0x1, 0x80, 0, 0, 0];
    /// let refusal = Writer::resume(&mut buffer, AppendState { room: 6, rows: 40, words: 3 }).unwrap_err();
    /// assert_eq!(refusal.numbers(), (12, 0, 0));
    /// # Ok::<(), zvonurel::Refusal>(())
    /// ```
    pub fn resume(buffer: &'a mut [u32], state: AppendState) -> Result<Writer<'a>, Refusal> {
        let mut writer = Writer { state, buffer };
        // a batch of no rows is tested like any other, and changes nothing
        writer.append(0, &[])?;
        Ok(writer)
    }

    /// Puts a batch of rows behind those so far, and returns how many words the body of all of them has.
    ///
    /// # Errors
    /// Those of [`append`] but 12: what the writer keeps belongs together.
    pub fn append(&mut self, rows: u32, plain: &[u32]) -> Result<usize, Refusal> {
        append(&mut self.state, self.buffer, rows, plain)
    }

    /// Puts a row behind those so far for each value, set where it is true, all as one batch, and returns how many
    /// words the body of all rows has. Room for the plain words of the batch is allocated.
    ///
    /// # Errors
    /// 3 where the rows would be more than [`MOST_ROWS`] in all; 9 where the body of all rows does not fit.
    pub fn append_each(&mut self, set: impl IntoIterator<Item = bool>) -> Result<usize, Refusal> {
        // one more than there is a limit for is refused, however many are to come
        let left = (MOST_ROWS - self.rows()) as usize;
        let (mut rows, mut plain) = (0, Vec::new());
        for set in set.into_iter().take(left + 1) {
            let bit = rows as usize % WORD_BITS;
            if bit == 0 {
                plain.push(0);
            }
            plain[rows as usize / WORD_BITS] |= u32::from(set) << bit;
            rows += 1;
        }
        self.append(rows, &plain)
    }

    /// The rows accepted so far.
    #[must_use]
    pub fn rows(&self) -> u32 {
        // no more than a body may have
        self.state.rows as u32
    }

    /// How many words the body of these rows has.
    #[must_use]
    pub fn words(&self) -> usize {
        words(self.state.words)
    }

    /// The body of the rows so far.
    #[must_use]
    pub fn body(&self) -> &[u32] {
        &self.buffer[..self.words()]
    }

    /// What is to be kept, beside the buffer, to [`resume`](Writer::resume) later.
    #[must_use]
    pub fn state(&self) -> AppendState {
        self.state
    }

    /// A writer of the same rows in another buffer, to whose front the body is copied. This one stays as it is.
    ///
    /// # Errors
    /// 9 where the other buffer is too short for the body.
    ///
    /// ```
    /// use zvonurel::{Refusal, Writer};
    ///
    /// let (mut short, mut longer) = ([0; 2], [0; 9]);
    /// let mut writer = Writer::new(&mut short);
    /// writer.append(32, &[0x1])?;
    /// assert_eq!(writer.append(32, &[0x1]).unwrap_err().number, Refusal::NO_ROOM);
    /// let mut writer = writer.copied_to(&mut longer)?;
    /// assert_eq!(writer.append(32, &[0x1]), Ok(3));
    /// # Ok::<(), zvonurel::Refusal>(())
    /// ```
    pub fn copied_to<'b>(&self, buffer: &'b mut [u32]) -> Result<Writer<'b>, Refusal> {
        let Some(front) = buffer.get_mut(..self.words()) else {
            return Err(Refusal { number: Refusal::NO_ROOM, bitmap: 0, word: self.state.words, argument: None });
        };
        front.copy_from_slice(self.body());
        let state = AppendState { room: buffer.len() as u64, ..self.state };
        Ok(Writer { state, buffer })
    }

    /// Ends the borrow of the buffer, in which the body stays, and gives the state.
    #[must_use = "without it the body's length is not known"]
    pub fn into_state(self) -> AppendState {
        self.state
    }
}
