//! Puts one question to the library and to the reference.

use std::cell::Cell;
use std::panic::{catch_unwind, set_hook, take_hook, AssertUnwindSafe};
use std::time::Instant;

use reference::{with_mistake, Mistake};
use zvonurel::{AppendState, Row, HISTOGRAM_COUNTS};

use crate::changes::Change;
use crate::library::library;
use crate::question::{Call, Question};
use crate::ranks::Ranks;
use crate::second::{self, second};
use crate::walk::Walk;

/// Number, bitmap, word.
pub type Refused = (u32, u32, u64);

#[derive(Debug, Clone, PartialEq, Eq)]
pub enum Value {
    Sound,
    /// A row, with its piece.
    Row(Row),
    Walk(Walk),
    Number(u32),
    /// A column's value.
    Whole(u64),
    /// A signed column's.
    Signed(i64),
    Changes(Vec<Change>),
    Ranks(Ranks),
    /// A part of the index: its place, unless it is empty, and its length.
    Part(Option<usize>, usize),
    /// Words written.
    Words(usize),
    /// A writer's state.
    State(AppendState),
    /// Words written in batches. The body never got shorter, and the state said what was told.
    Batches(usize, bool),
    /// Words written and stretches.
    Answer(usize, u32),
    Tally(Box<[u32; HISTOGRAM_COUNTS]>),
    Panicked(String),
}

/// A result, and the state and the whole buffer afterwards, with the words behind it.
#[derive(Debug, Clone, PartialEq, Eq)]
pub struct Outcome {
    pub result: Result<Value, Refused>,
    pub state: AppendState,
    pub buffer: Vec<u32>,
}

/// Words behind the buffer that are compared too.
const BEHIND: usize = 8;

/// A buffer beforehand, and the words behind it: each place something else.
fn pattern(room: usize) -> Vec<u32> {
    unwritten(room + BEHIND)
}

/// So many words, each something else.
pub fn unwritten(words: usize) -> Vec<u32> {
    (0..words as u32).map(|at| 0xA5C3_0000 ^ at.wrapping_mul(0x0001_0003)).collect()
}

/// The buffer of a question, and the words behind it.
fn lent(question: &Question) -> Vec<u32> {
    let mut buffer = pattern(question.room);
    buffer[..question.before.len()].copy_from_slice(&question.before);
    buffer
}

thread_local! {
    /// A question is being asked: its panic is a result. Any other panic is this program's own fault and is told.
    static ASKING: Cell<bool> = const { Cell::new(false) };
}

pub fn tell_own_panics() {
    let tell = take_hook();
    set_hook(Box::new(move |panic| {
        if !ASKING.get() {
            tell(panic);
        }
    }));
}

/// A panic becomes a value like others.
fn guarded(ask: impl FnOnce() -> Result<Value, Refused>) -> Result<Value, Refused> {
    ASKING.set(true);
    let told = catch_unwind(AssertUnwindSafe(ask));
    ASKING.set(false);
    told.unwrap_or_else(|cause| {
        let text = match cause.downcast_ref::<String>() {
            Some(text) => text.clone(),
            None => cause.downcast_ref::<&str>().unwrap_or(&"").to_string(),
        };
        Ok(Value::Panicked(text))
    })
}

/// The library's outcome.
pub fn ask_library(words: &[u32], question: &Question) -> Outcome {
    timed_library(words, question).0
}

/// The same, and the seconds of the call.
pub fn timed_library(words: &[u32], question: &Question) -> (Outcome, f64) {
    let (mut state, mut buffer) = (question.state, lent(question));
    let begun = Instant::now();
    let result =
        guarded(|| library(words, question, &mut state, &mut buffer[..question.room]).map_err(|r| r.numbers()));
    (Outcome { result, state, buffer }, begun.elapsed().as_secs_f64())
}

/// The reference's outcome, with a mistake built in or without.
pub fn ask_reference(words: &[u32], question: &Question, mistake: Option<Mistake>) -> Outcome {
    timed_reference(words, question, mistake).0
}

/// The same, and the seconds that it took.
pub fn timed_reference(words: &[u32], question: &Question, mistake: Option<Mistake>) -> (Outcome, f64) {
    let (mut state, mut buffer) = (question.state, lent(question));
    let begun = Instant::now();
    let result = guarded(|| {
        let mut ask = || in_place(words, question, &mut state, &mut buffer[..question.room]);
        let asked = match mistake {
            Some(mistake) => with_mistake(mistake, ask),
            None => ask(),
        };
        asked.map_err(|r| (r.number, r.bitmap, r.word))
    });
    (Outcome { result, state, buffer }, begun.elapsed().as_secs_f64())
}

/// The reference's answer, written as the library would.
fn in_place(
    words: &[u32],
    question: &Question,
    state: &mut AppendState,
    buffer: &mut [u32],
) -> Result<Value, reference::Refusal> {
    if question.call == Call::Append {
        return second::append(words, question.rows, state, buffer).map(Value::Words);
    }
    let (value, written) = second(words, question)?;
    buffer[..written.len()].copy_from_slice(&written);
    Ok(value)
}

/// How many words the answer has; 0 if it is refused for another cause than room.
pub fn words_needed(words: &[u32], question: &Question) -> usize {
    let endless = question.clone().room(usize::MAX);
    second(words, &endless).map_or(0, |(_, written)| written.len())
}
