//! A writer of a case: batches one behind the other, good ones and bad ones, and states that aren't its own.

use zvonurel::Format::Ewah;
use zvonurel::{segments, AppendState, MOST_ROWS, WORD_BITS};

use crate::batch_cases::{mixed_of, most, run_of};
use crate::batches::{rows_of, Writer, SIZES};
use crate::encode::{mask_last, plain_mask, settled, Segments};
use crate::generate::{some_word, DIRTIES, RUNS};
use crate::question::{Call, Question};
use crate::random::Random;
use crate::session::Session;
use crate::tear::change;

/// How the rows of a writer are.
#[derive(Clone, Copy)]
enum Taste {
    None,
    All,
    /// A row in so many is set.
    Quiet(usize),
    /// After so many rows or so it changes.
    Calm(usize),
    /// Any words.
    Dense,
}

/// Makes rows by a taste.
struct Rows {
    taste: Taste,
    /// Are rows set at present?
    set: bool,
}

impl Rows {
    fn some(random: &mut Random) -> Rows {
        let stretch = random.between(2, 200);
        let taste = match random.below(7) {
            0 => Taste::None,
            1 => Taste::All,
            2 => Taste::Quiet(stretch),
            3..=4 => Taste::Calm(stretch),
            _ => Taste::Dense,
        };
        Rows { taste, set: random.one_in(2) }
    }

    fn row(&mut self, random: &mut Random) -> bool {
        match self.taste {
            Taste::Quiet(stretch) => random.one_in(stretch),
            Taste::Calm(stretch) => {
                self.set ^= random.one_in(stretch);
                self.set
            }
            _ => self.set,
        }
    }

    /// The plain words of so many rows more.
    fn plain(&mut self, rows: u32, random: &mut Random) -> Vec<u32> {
        let word = |rows: &mut Rows, random: &mut Random| match rows.taste {
            Taste::None => 0,
            Taste::All => u32::MAX,
            Taste::Dense => some_word(random),
            _ => (0..WORD_BITS).map(|bit| u32::from(rows.row(random)) << bit).sum(),
        };
        let mut plain: Vec<u32> = (0..segments(rows)).map(|_| word(self, random)).collect();
        mask_last(&mut plain, rows);
        plain
    }
}

/// Rows and plain words.
type Batch = (u32, Vec<u32>);

/// How many rows a batch has: few mostly; seldom hundreds and thousands.
fn some_size(random: &mut Random) -> u32 {
    match random.below(24) {
        0..=2 => random.between(100, 700) as u32,
        3 if random.one_in(4) => random.between(1_000, 5_000) as u32,
        _ => random.pick(&SIZES),
    }
}

/// The batches of a writer. Some writers have whole segments only.
fn some_batches(random: &mut Random) -> Vec<Batch> {
    let whole = random.one_in(4);
    let mut rows = Rows::some(random);
    let mut batches = Vec::new();
    for _ in 0..random.between(2, 10) {
        if random.one_in(5) {
            rows = Rows::some(random);
        }
        let size = match some_size(random) {
            size if whole => size.next_multiple_of(WORD_BITS as u32),
            size => size,
        };
        batches.push((size, rows.plain(size, random)));
    }
    batches
}

/// All rows of batches, and how many.
fn all_of(batches: &[Batch]) -> (u32, Vec<u32>) {
    let rows = batches.iter().map(|(rows, _)| rows).sum();
    let (mut all, mut at) = (vec![0; segments(rows)], 0);
    for (rows, plain) in batches {
        for row in 0..*rows as usize {
            let set = plain[row / WORD_BITS] >> (row % WORD_BITS) & 1;
            all[at / WORD_BITS] |= set << (at % WORD_BITS);
            at += 1;
        }
    }
    (rows, all)
}

/// Between two batches something else is asked, once in so many times.
const ELSE_IN: usize = 2;

/// One writer in so many has many rows beforehand.
const LONG_IN: usize = 40;

/// A writer with rows about the limits of a marker's counts, or about the most.
fn long_writer(random: &mut Random) -> Writer {
    let (value, pads, front) = (random.one_in(2), random.below(WORD_BITS), random.one_in(2));
    let writer = match random.below(9) {
        0 => mixed_of(random.pick(&DIRTIES), pads, front),
        1..=4 => run_of(value, random.pick(&RUNS), pads, front),
        _ => most(value, MOST_ROWS - random.pick(&[0, 1, 31, 32, 33, 48, 200, 700])),
    };
    writer.in_room(writer.body().len() + random.pick(&[0, 1, 2, 3, 9, 100]))
}

pub fn ask_batches(session: &mut Session, random: &mut Random) {
    let batches = some_batches(random);
    let (rows, all) = all_of(&batches);
    let need = settled(&all, rows, Ewah).len();
    let (long, any) = (need + random.between(1, 20), random.below(need + 2));
    let room = random.pick(&[long, long, long, need, need, need.saturating_sub(1), need.saturating_sub(1), any]);
    if random.one_in(LONG_IN) {
        ask_each(session, long_writer(random), &batches, random);
        return;
    }
    let writer = Writer::begin(session, room);
    let (writer, own) = ask_each(session, writer, &batches, random);
    let accepted = session.difference.is_none() && writer.state.rows == rows.into();
    if own && accepted && writer.body() != settled(&all, rows, Ewah) {
        println!("DIFFERENCE  the batches of a case and all its rows at once");
        std::process::exit(1);
    }
    let seed = random.word();
    session.ask(&all, Question::lone(Call::Batches, Ewah, rows).number(seed).room(need.max(room)));
}

/// Each batch, and between two of them something else. The writer in the end; and is it still the same?
fn ask_each(session: &mut Session, writer: Writer, batches: &[Batch], random: &mut Random) -> (Writer, bool) {
    let (mut before, mut writer, mut own) = (writer.clone(), writer, true);
    for batch in batches {
        if random.one_in(ELSE_IN) {
            let other = ask_else(session, &writer, &before, batch, random);
            own &= other.is_none();
            writer = other.unwrap_or(writer);
        }
        before = writer.clone();
        writer.add(session, batch.0, &batch.1);
    }
    writer.add(session, 0, &[]);
    (writer, own)
}

/// A batch with a state that isn't this writer's, or a bad batch, or both. What passes is seldom gone on with.
fn ask_else(
    session: &mut Session,
    writer: &Writer,
    before: &Writer,
    batch: &Batch,
    random: &mut Random,
) -> Option<Writer> {
    let what = random.below(8);
    let mut other = if what > 2 { another(writer, before, random) } else { writer.clone() };
    let (rows, plain) = if what < 5 { bad_batch(other.state.rows, batch, random) } else { batch.clone() };
    let state = other.state;
    other.add(session, rows, &plain);
    (state != other.state && random.one_in(4)).then_some(other)
}

// ---- bad batches ----

/// One thing about a batch is wrong, or two.
fn bad_batch(accepted: u64, batch: &Batch, random: &mut Random) -> Batch {
    let mut batch = batch.clone();
    for _ in 0..random.pick(&[1, 1, 2]) {
        batch = worse(accepted, batch, random);
    }
    batch
}

fn worse(accepted: u64, (rows, mut plain): Batch, random: &mut Random) -> Batch {
    match random.below(8) {
        0 => plain.truncate(plain.len().saturating_sub(1)),
        1 => plain.push(some_word(random)),
        2 | 3 => {
            let any = random.word();
            if let Some(last) = plain.last_mut() {
                *last |= !plain_mask(rows) & random.pick(&[u32::MAX, any, 1 << (rows % WORD_BITS as u32), 1 << 31]);
            }
        }
        4 => plain.fill(u32::MAX),
        5 => return (random.pick(&[0, rows.saturating_sub(1), rows.saturating_add(1), rows ^ 32]), plain),
        _ => {
            let left = u64::from(MOST_ROWS).saturating_sub(accepted) as u32;
            let wrapping = (accepted as u32).wrapping_neg();
            let any = random.word();
            return (random.pick(&[left, left + 1, MOST_ROWS, MOST_ROWS + 1, wrapping, u32::MAX, any]), plain);
        }
    }
    (rows, plain)
}

// ---- other states ----

/// A number near this one, or far, or the same in its low 32 bits.
fn other_number(number: u64, random: &mut Random) -> u64 {
    let by = random.pick(&[1, 1, 2, 31, 32, 33]);
    match random.below(8) {
        0 | 1 => number.wrapping_add(by),
        2 | 3 => number.wrapping_sub(by),
        4 => number.wrapping_add(1 << 32),
        5 => number ^ (1 << random.below(64)),
        6 => random.pick(&[0, 1, u64::from(MOST_ROWS), u64::from(MOST_ROWS) + 1, u32::MAX.into(), u64::MAX]),
        _ => random.word().into(),
    }
}

/// The most rows that are written in another form.
const MOST_TAKEN_APART: u64 = 1 << 20;

/// This writer, or the one before the last batch, with a state or a buffer that may not be its own.
fn another(writer: &Writer, before: &Writer, random: &mut Random) -> Writer {
    let mut other = if random.one_in(4) { before.clone() } else { writer.clone() };
    match random.below(12) {
        0 => other.state.room = other_number(other.state.room, random),
        1 | 2 => other.state.rows = other_number(other.state.rows, random),
        3 => other.state.words = other_number(other.state.words, random),
        4 => other.buffer.resize((other.buffer.len() + random.between(0, 2)).saturating_sub(1), 7),
        5 => {
            other.buffer.resize((other.buffer.len() + random.between(0, 4)).saturating_sub(2), 7);
            other.state.room = other.buffer.len() as u64;
        }
        6 => {
            let words = other.body().len();
            change(&mut other.buffer[..words], Ewah, random);
        }
        7 if random.one_in(2) => other.state = before.state,
        7 => other.buffer.clone_from(&before.buffer),
        8 => other.state.words = 0,
        // Too many rows to take apart.
        _ if other.state.rows > MOST_TAKEN_APART => other.state.words ^= 1,
        9 => return of_other_rows(&other, random),
        _ => return wasteful(&other, random),
    }
    other
}

/// The rows accepted, as plain words.
fn accepted(writer: &Writer) -> Vec<u32> {
    let rows = writer.state.rows as u32;
    reference::expand(writer.body(), rows, reference::Format::Ewah, usize::MAX).unwrap_or_default()
}

/// The writer with this body in use, and its own rows.
fn with_body(writer: &Writer, body: &[u32], random: &mut Random) -> Writer {
    let room = writer.buffer.len().max(body.len());
    let AppendState { rows, .. } = writer.state;
    Writer::with(rows as u32, body, room + random.below(3) - body.len())
}

/// The same rows, in a form that takes more room.
fn wasteful(writer: &Writer, random: &mut Random) -> Writer {
    let body = Segments::of(&accepted(writer), writer.state.rows as u32, Ewah).wasteful(random);
    with_body(writer, &body, random)
}

/// The settled body of some rows more or less.
fn of_other_rows(writer: &Writer, random: &mut Random) -> Writer {
    let by = random.pick(&[1, 2, 31, 32, 33]);
    let rows = writer.state.rows as u32;
    let other = if random.one_in(2) { rows + by } else { rows.saturating_sub(by) };
    let plain = rows_of(&accepted(writer), 0, other);
    with_body(writer, &settled(&plain, other, Ewah), random)
}

#[cfg(test)]
mod tests {
    use super::*;

    #[test]
    fn all_rows() {
        let batches = [(3, vec![0x5]), (0, vec![]), (32, vec![0x8000_0001]), (1, vec![1])];
        assert_eq!(all_of(&batches), (36, vec![0xD, 0xC]));
        let mut random = Random::for_case(9, 0);
        for _ in 0..200 {
            let batches = some_batches(&mut random);
            let (rows, all) = all_of(&batches);
            assert_eq!(all.len(), segments(rows));
            let mut first = 0;
            for (rows, plain) in batches {
                assert_eq!(rows_of(&all, first, rows), plain);
                first += rows as usize;
            }
        }
    }

    /// Bodies that are put in a writer's place are of the form that they should be.
    #[test]
    fn other_bodies() {
        let mut random = Random::for_case(9, 1);
        let writer = Writer::with(40, &[0x0004_0000, 1, 0x80], 2);
        assert_eq!(accepted(&writer), [1, 0x80]);
        for _ in 0..100 {
            let other = wasteful(&writer, &mut random);
            assert_eq!((accepted(&other), other.state.rows), (vec![1, 0x80], 40));
            assert_eq!(other.state.room, other.buffer.len() as u64);
        }
    }
}
