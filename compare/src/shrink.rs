//! Makes a difference smaller while it stays a difference.

use reference::Mistake;
use zvonurel::{ENTRY_WORDS, MOST_BITMAPS, WORD_BITS};

use crate::ask::{ask_library, ask_reference, Outcome, Value};
use crate::encode::entry_place;
use crate::question::{Call, Question};
use crate::session::Difference;

/// Tries in all.
const TRIES: usize = 4_000;

/// Answered, panicked, or the number of the refusal.
fn sort(outcome: &Outcome) -> u32 {
    match outcome.result {
        Ok(Value::Panicked(_)) => u32::MAX,
        Ok(_) => 0,
        Err((number, _, _)) => number,
    }
}

/// Asks again; the difference if there still is one of the same sort.
fn again(old: &Difference, new: Candidate, mistake: Option<Mistake>) -> Option<Difference> {
    let (words, question) = new;
    let library = ask_library(&words, &question);
    let reference = ask_reference(&words, &question, mistake);
    let same = sort(&library) == sort(&old.library) && sort(&reference) == sort(&old.reference);
    (same && library != reference).then_some(Difference { words, question, library, reference })
}

/// One thing after another left out or set to zero.
pub fn shrink(mut difference: Difference, mistake: Option<Mistake>) -> Difference {
    let mut tries = TRIES;
    loop {
        let smaller = candidates(&difference)
            .into_iter()
            .take(tries)
            .inspect(|_| tries -= 1)
            .find_map(|candidate| again(&difference, candidate, mistake));
        match smaller {
            Some(found) => difference = found,
            None => return difference,
        }
    }
}

type Candidate = (Vec<u32>, Question);

fn candidates(difference: &Difference) -> Vec<Candidate> {
    let (words, question) = (&difference.words, &difference.question);
    let mut all = Vec::new();
    if question.call.of_list() {
        for at in 0..question.list.len() {
            let mut less = question.clone();
            less.list.remove(at);
            less.number = less.number.min(less.list.len() as u32);
            less.table.truncate(less.list.len() + 1);
            all.push((words.clone(), less));
        }
    }
    if question.call.of_column() {
        all.extend(shorter_columns(question).map(|less| (words.clone(), less)));
    }
    if question.call.of_ranks() && question.number > 0 {
        let less = [0, question.number / 2, question.number - 1].map(|k| question.clone().number(k));
        all.extend(less.map(|less| (words.clone(), less)));
    }
    if words.len() > 2_000 {
        return all;
    }
    if question.call.of_index() {
        let n = words.get(2).copied().unwrap_or(0).min(MOST_BITMAPS);
        all.extend((0..n).filter_map(|k| without_bitmap(words, question, k as usize)));
    } else {
        all.extend((0..words.len()).map(|at| without(words, question, at)));
    }
    for at in (0..words.len()).rev().filter(|&at| words[at] != 0) {
        let mut zeroed = words.clone();
        zeroed[at] = 0;
        all.push((zeroed, question.clone()));
    }
    all
}

/// One number left out of a column's list.
fn shorter_columns(question: &Question) -> impl Iterator<Item = Question> + '_ {
    let first = (0..question.list.len()).map(|at| {
        let mut less = question.clone();
        less.list.remove(at);
        less
    });
    let second = (0..question.second.len()).map(|at| {
        let mut less = question.clone();
        less.second.remove(at);
        less
    });
    first.chain(second)
}

/// One word left out of a lone body, or of plain words with their rows.
fn without(words: &[u32], question: &Question, at: usize) -> Candidate {
    let mut less = words.to_vec();
    less.remove(at);
    let mut question = question.clone();
    let plain = matches!(question.call, Call::Compress | Call::Append | Call::Batches);
    let width = if plain { WORD_BITS } else { question.format.segment_rows() };
    question.rows = question.rows.saturating_sub(width as u32);
    (less, question)
}

/// A bitmap that isn't named left out of an index, if its contents allow.
fn without_bitmap(words: &[u32], question: &Question, k: usize) -> Option<Candidate> {
    if question.list.contains(&(k as u32)) || question.second.contains(&(k as u32)) {
        return None;
    }
    let n = words[2] as usize;
    let entry = entry_place(k);
    let start = *words.get(entry)? as usize;
    let length = *words.get(entry + 1)?;
    let end = start.checked_add(length as usize)?;
    if start < entry_place(n) || end > words.len() {
        return None;
    }
    let mut less = words.to_vec();
    less.drain(start..end);
    less.drain(entry..entry_place(k + 1));
    less[2] -= 1;
    for other in 0..n - 1 {
        let by = ENTRY_WORDS as u32 + if other < k { 0 } else { length };
        let start = &mut less[entry_place(other)];
        *start = start.wrapping_sub(by);
    }
    let mut question = question.clone();
    let numbers = question.list.iter_mut().chain(&mut question.second);
    for number in numbers.filter(|number| **number > k as u32) {
        *number -= 1;
    }
    Some((less, question))
}
