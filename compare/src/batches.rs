//! Rows that come in batches: a writer between two of them, and plain words cut into batches.

use zvonurel::{segments, AppendState, Refusal, WORD_BITS};

use crate::ask::{unwritten, Value};
use crate::encode::mask_last;
use crate::question::Question;
use crate::random::Random;
use crate::second;
use crate::session::Session;

// ---- a writer ----

/// A writer between two batches.
#[derive(Clone)]
pub struct Writer {
    pub state: AppendState,
    pub buffer: Vec<u32>,
}

impl Writer {
    /// A writer that begins with a buffer of so many words.
    pub fn begin(session: &mut Session, room: usize) -> Writer {
        let buffer = unwritten(room);
        session.ask(&[], Question::begin(&buffer));
        Writer { state: zvonurel::begin(&buffer), buffer }
    }

    /// A writer that has this body, in a buffer of so many words more.
    pub fn with(rows: u32, body: &[u32], more: usize) -> Writer {
        let buffer = [body, &unwritten(more)].concat();
        let state = AppendState { room: buffer.len() as u64, rows: rows.into(), words: body.len() as u64 };
        Writer { state, buffer }
    }

    /// The body in use, as far as the buffer has it.
    pub fn body(&self) -> &[u32] {
        &self.buffer[..self.buffer.len().min(self.state.words as usize)]
    }

    fn question(&self, rows: u32) -> Question {
        Question::append(self.state, &self.buffer, rows)
    }

    /// Asks of a batch, and stays as it is.
    pub fn ask(&self, session: &mut Session, rows: u32, plain: &[u32]) {
        session.ask(plain, self.question(rows));
    }

    /// Goes on from what a batch leaves.
    pub fn add(&mut self, session: &mut Session, rows: u32, plain: &[u32]) {
        if let Some(left) = session.answer(plain, self.question(rows)) {
            let room = self.buffer.len();
            self.state = left.state;
            self.buffer.copy_from_slice(&left.buffer[..room]);
        }
    }

    /// The words of the body with this batch; 0 if it is refused for another cause than room.
    pub fn need(&self, rows: u32, plain: &[u32]) -> usize {
        let mut buffer = [self.body(), &vec![0; 2 * plain.len() + 4]].concat();
        let mut state = AppendState { room: buffer.len() as u64, ..self.state };
        second::append(plain, rows, &mut state, &mut buffer).unwrap_or(0)
    }

    /// The same writer with a buffer of so many words, or of those in use.
    pub fn in_room(&self, room: usize) -> Writer {
        let more = room.saturating_sub(self.body().len());
        Writer::with(self.state.rows as u32, self.body(), more)
    }

    /// Asks with just the room that is needed, with a word less and with some more.
    pub fn fitting(&self, session: &mut Session, rows: u32, plain: &[u32]) {
        if session.difference.is_some() {
            return;
        }
        let (need, least) = (self.need(rows, plain), self.body().len());
        let mut rooms = [need.saturating_sub(1), need, need + 3].map(|room| room.max(least)).to_vec();
        rooms.dedup();
        for room in rooms {
            self.in_room(room).ask(session, rows, plain);
        }
    }
}

/// So many rows of plain words, from this one on.
pub fn rows_of(plain: &[u32], first: usize, rows: u32) -> Vec<u32> {
    let (at, shift) = (first / WORD_BITS, first % WORD_BITS);
    let word = |at: usize| u64::from(plain.get(at).copied().unwrap_or(0));
    let mut part: Vec<u32> =
        (at..at + segments(rows)).map(|at| ((word(at) | word(at + 1) << WORD_BITS) >> shift) as u32).collect();
    mask_last(&mut part, rows);
    part
}

// ---- plain words in batches ----

/// Numbers of rows about those of a segment, a plain word, two, and a day of half hours.
pub const SIZES: [u32; 24] =
    [0, 1, 2, 15, 16, 17, 30, 31, 32, 33, 34, 47, 48, 49, 62, 63, 64, 65, 66, 95, 96, 97, 128, 129];

/// The most rows that come one by one.
const ONE_BY_ONE: u32 = 100;

/// The rows of each batch: all at once, one by one, days, or by chance.
fn cutting(rows: u32, seed: u32) -> Vec<u32> {
    let mut random = Random::for_case(seed.into(), 0);
    let style = random.below(5);
    let mut sizes = Vec::new();
    let mut left = rows;
    while left > 0 || sizes.is_empty() {
        let size = match style {
            0 => left,
            1 if rows <= ONE_BY_ONE => 1,
            2 => 48,
            _ => random.pick(&SIZES) + 32 * random.below(rows as usize / 200 + 1) as u32,
        };
        sizes.push(size.min(left));
        left -= size.min(left);
    }
    sizes
}

/// The library's side: batch by batch.
pub fn by_batches(words: &[u32], q: &Question, out: &mut [u32]) -> Result<Value, Refusal> {
    let mut state = zvonurel::begin(out);
    let (mut told, mut as_told) = (0, true);
    for rows in cutting(q.rows, q.number) {
        let before = state;
        told = zvonurel::append(&mut state, out, rows, &rows_of(words, before.rows as usize, rows))?;
        let due = AppendState { rows: before.rows + u64::from(rows), words: told as u64, ..before };
        as_told &= state == due && state.words >= before.words;
    }
    Ok(Value::Batches(told, as_told))
}

#[cfg(test)]
mod tests {
    use super::*;
    use crate::question::Call;
    use zvonurel::Format::Ewah;

    #[test]
    fn parts_of_rows() {
        let plain = [0x8000_0001, 0xF0F0_F0F0, 0x3];
        assert_eq!(rows_of(&plain, 0, 66), plain);
        assert_eq!(rows_of(&plain, 31, 1), [1]);
        assert_eq!(rows_of(&plain, 31, 6), [0x21]);
        assert_eq!(rows_of(&plain, 36, 30), [0x3F0F_0F0F]);
        assert_eq!(rows_of(&plain, 64, 2), [3]);
        assert_eq!(rows_of(&plain, 40, 0), [0; 0]);
    }

    #[test]
    fn cut_up() {
        for rows in [0, 1, 31, 100, 5_000] {
            for seed in 0..60 {
                let sizes = cutting(rows, seed);
                assert!(!sizes.is_empty() && sizes.iter().sum::<u32>() == rows);
            }
        }
        assert!((0..60).any(|seed| cutting(70, seed) == [1; 70]));
        assert!((0..60).any(|seed| cutting(100, seed) == [48, 48, 4]));
    }

    /// Rows 0 and 39 of 40: both sides come to what was worked out by hand, however the rows are cut.
    #[test]
    fn by_hand() {
        for seed in 0..20 {
            let question = Question::lone(Call::Batches, Ewah, 40).number(seed).room(3);
            let mut out = [0; 3];
            let told = by_batches(&[1, 0x80], &question, &mut out).expect("it fits");
            assert_eq!((told, out), (Value::Batches(3, true), [0x0004_0000, 1, 0x80]));
            let (due, words) = second::second(&[1, 0x80], &question).expect("it fits");
            assert_eq!((due, &words[..]), (Value::Batches(3, true), &out[..]));
        }
    }
}
