//! A question put to the reference.

use reference::{Format, Refusal, Row};
use zvonurel::AppendState;

use crate::ask::Value;
use crate::changes;
use crate::encode::{format_of, index_in};
use crate::question::{Call, Question};
use crate::ranks;
use crate::walk;

/// A value, and the words written.
pub type Told = Result<(Value, Vec<u32>), Refusal>;

pub fn in_reference(format: zvonurel::Format) -> Format {
    match format {
        zvonurel::Format::Ewah => Format::Ewah,
        zvonurel::Format::Wah => Format::Wah,
    }
}

fn plain(value: Value) -> (Value, Vec<u32>) {
    (value, Vec::new())
}

fn wrote(written: Vec<u32>) -> (Value, Vec<u32>) {
    (Value::Words(written.len()), written)
}

fn of_row(Row { set, first, last }: Row) -> (Value, Vec<u32>) {
    plain(Value::Row(zvonurel::Row { set, first, last }))
}

/// First and last row of each piece of the body that a question is about.
pub fn pieces(words: &[u32], q: &Question) -> Result<Vec<(u32, u32)>, Refusal> {
    match q.call.of_index() {
        true => reference::pieces(words, q.list.first().copied().unwrap_or(0)),
        false => reference::body_pieces(words, q.rows, in_reference(q.format)),
    }
}

/// Those pieces, walked over the plain words.
fn walked(words: &[u32], q: &Question, expanded: Result<Vec<u32>, Refusal>) -> Told {
    let pieces = pieces(words, q)?;
    Ok(plain(Value::Walk(walk::by_pieces(&pieces, &expanded?, q.number))))
}

fn amount(n: u32) -> (Value, Vec<u32>) {
    plain(Value::Number(n))
}

/// A batch, which changes the state and the buffer.
pub fn append(words: &[u32], rows: u32, state: &mut AppendState, buffer: &mut [u32]) -> Result<usize, Refusal> {
    let AppendState { room, rows: accepted, words: in_use } = *state;
    let mut own = reference::AppendState { room, rows: accepted, words: in_use };
    let told = reference::append(&mut own, buffer, rows, words);
    *state = in_binding(own);
    told
}

fn in_binding(reference::AppendState { room, rows, words }: reference::AppendState) -> AppendState {
    AppendState { room, rows, words }
}

pub fn second(words: &[u32], q: &Question) -> Told {
    match q.call.of_index() {
        true => of_index(words, q),
        false => of_body(words, q),
    }
}

fn of_body(words: &[u32], q: &Question) -> Told {
    let format = in_reference(q.format);
    match q.call {
        Call::CheckBody => reference::check_body(words, q.rows, format).map(|()| plain(Value::Sound)),
        Call::BodyRow => reference::body_row(words, q.rows, format, q.number).map(of_row),
        Call::BodyCount => reference::body_count(words, q.rows, format).map(amount),
        Call::BodyNth => reference::body_nth(words, q.rows, format, q.number).map(amount),
        Call::BodyWalk => walked(words, q, reference::expand(words, q.rows, format, usize::MAX)),
        Call::Expand => reference::expand(words, q.rows, format, q.room).map(wrote),
        Call::BodyToEwah => reference::rewrite(words, q.rows, format, Format::Ewah, q.room).map(wrote),
        Call::BodyToWah => reference::rewrite(words, q.rows, format, Format::Wah, q.room).map(wrote),
        Call::BodyAround => {
            let rows = reference::expand(words, q.rows, format, usize::MAX)?;
            reference::compress(q.rows, &rows, format, q.room).map(wrote)
        }
        Call::Compress => reference::compress(q.rows, words, format, q.room).map(wrote),
        Call::Begin => Ok(plain(Value::State(in_binding(reference::begin(&q.before))))),
        Call::Batches => {
            let at_once = reference::compress(q.rows, words, format, q.room)?;
            Ok((Value::Batches(at_once.len(), true), at_once))
        }
        _ => unreachable!("asked of an index, or of a state"),
    }
}

/// Every bitmap as plain words, and these as bodies of the same format.
fn around(index: &[u32], room: usize) -> Result<Vec<u32>, Refusal> {
    reference::check(index)?;
    let (format, rows) = (format_of(index), index[1]);
    let mut bodies = Vec::new();
    for k in 0..index[2] {
        let plain = reference::expand_bitmap(index, k, usize::MAX)?;
        bodies.push(reference::compress(rows, &plain, in_reference(format), usize::MAX)?);
    }
    let written = index_in(format, rows, &bodies);
    match written.len() <= room {
        true => Ok(written),
        false => Err(Refusal { number: 9, bitmap: 0, word: written.len() as u64 }),
    }
}

fn of_index(words: &[u32], q: &Question) -> Told {
    let number = |at: usize| q.list.get(at).copied().unwrap_or(0);
    let (j, k) = (number(0), number(1));
    match q.call {
        Call::Check => reference::check(words).map(|()| plain(Value::Sound)),
        Call::Bitmap => {
            reference::bitmap(words, j).map(|r| plain(Value::Part((!r.is_empty()).then_some(r.start), r.len())))
        }
        Call::BitmapRefusal => reference::bitmap(words, j).map(|_| plain(Value::Sound)),
        Call::Row => reference::row(words, j, q.number).map(of_row),
        Call::Count => reference::count(words, j).map(amount),
        Call::Nth => reference::nth(words, j, q.number).map(amount),
        Call::Walk => walked(words, q, reference::expand_bitmap(words, j, usize::MAX)),
        Call::ExpandBitmap => reference::expand_bitmap(words, j, q.room).map(wrote),
        Call::BitmapToEwah => reference::rewrite_bitmap(words, j, Format::Ewah, q.room).map(wrote),
        Call::BitmapToWah => reference::rewrite_bitmap(words, j, Format::Wah, q.room).map(wrote),
        Call::IndexToEwah => reference::rewrite_index(words, Format::Ewah, q.room).map(wrote),
        Call::IndexToWah => reference::rewrite_index(words, Format::Wah, q.room).map(wrote),
        Call::IndexAround => around(words, q.room).map(wrote),
        Call::And => reference::and(words, j, k, q.room).map(wrote),
        Call::Or => reference::or(words, j, k, q.room).map(wrote),
        Call::Xor => reference::xor(words, j, k, q.room).map(wrote),
        Call::AndNot => reference::and_not(words, j, k, q.room).map(wrote),
        Call::Not => reference::not(words, j, q.room).map(wrote),
        _ => of_several(words, q),
    }
}

fn of_several(words: &[u32], q: &Question) -> Told {
    let answer = |a: reference::Answer| (Value::Answer(a.words.len(), a.stretches), a.words);
    match q.call {
        Call::Threshold => reference::threshold(words, &q.list, q.number, q.room).map(answer),
        Call::Symmetric => reference::symmetric(words, &q.list, &q.table, q.room).map(answer),
        Call::Histogram => reference::histogram(words, &q.list).map(|tally| plain(Value::Tally(Box::new(tally)))),
        Call::Value => reference::value(words, &q.list, q.number).map(|n| plain(Value::Whole(n))),
        Call::SignedValue => reference::signed_value(words, &q.list, q.number).map(|n| plain(Value::Signed(n))),
        Call::Sum => reference::sum(words, &q.list, &q.second, q.room).map(wrote),
        Call::SignedDifference => reference::signed_difference(words, &q.list, &q.second, q.room).map(wrote),
        Call::Smaller => reference::smaller(words, &q.list, &q.second, q.room).map(wrote),
        Call::DifferenceOrZero => reference::difference_or_zero(words, &q.list, &q.second, q.room).map(wrote),
        Call::Changes => changes::by_numbers(words, q).map(|changes| plain(Value::Changes(changes))),
        Call::Largest => reference::largest(words, &q.list, q.number, q.room).map(wrote),
        Call::Smallest => reference::smallest(words, &q.list, q.number, q.room).map(wrote),
        Call::Ranks => ranks::by_rule(words, q).map(|ranks| plain(Value::Ranks(ranks))),
        _ => unreachable!("asked of a bitmap or two"),
    }
}
