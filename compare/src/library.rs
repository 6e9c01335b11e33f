//! A question put to the library.

use zvonurel::Format::{Ewah, Wah};
use zvonurel::{wah, AppendState, Format, Refusal, Row};

use crate::ask::Value;
use crate::batches;
use crate::changes;
use crate::encode::{format_of, other};
use crate::question::{Call, Question};
use crate::ranks;
use crate::walk::{self, Asked};

/// A call that writes into a buffer.
type Writes = fn(&[u32], u32, &mut [u32]) -> Result<usize, Refusal>;
type Compresses = fn(u32, &[u32], &mut [u32]) -> Result<usize, Refusal>;

/// The calls on a lone body of one format.
struct Lone {
    check: fn(&[u32], u32) -> Result<(), Refusal>,
    row: fn(&[u32], u32, u32) -> Result<Row, Refusal>,
    count: fn(&[u32], u32) -> Result<u32, Refusal>,
    nth: fn(&[u32], u32, u32) -> Result<u32, Refusal>,
    expand: Writes,
    to_ewah: Writes,
    to_wah: Writes,
    compress: Compresses,
}

const LONE_EWAH: Lone = Lone {
    check: zvonurel::check_body,
    row: zvonurel::body_row,
    count: zvonurel::body_count,
    nth: zvonurel::body_nth,
    expand: zvonurel::expand,
    to_ewah: zvonurel::to_ewah,
    to_wah: zvonurel::to_wah,
    compress: zvonurel::compress,
};

const LONE_WAH: Lone = Lone {
    check: wah::check_body,
    row: wah::body_row,
    count: wah::body_count,
    nth: wah::body_nth,
    expand: wah::expand,
    to_ewah: wah::to_ewah,
    to_wah: wah::to_wah,
    compress: wah::compress,
};

impl Lone {
    fn of(format: Format) -> Lone {
        match format {
            Ewah => LONE_EWAH,
            Wah => LONE_WAH,
        }
    }

    fn to(&self, format: Format) -> Writes {
        match format {
            Ewah => self.to_ewah,
            Wah => self.to_wah,
        }
    }
}

/// A lone body, by the calls of its format.
struct Body<'a> {
    lone: &'a Lone,
    words: &'a [u32],
    rows: u32,
}

impl Asked for Body<'_> {
    fn rows(&self) -> u32 {
        self.rows
    }

    fn count(&self) -> Result<u32, Refusal> {
        (self.lone.count)(self.words, self.rows)
    }

    fn row(&self, row: u32) -> Result<Row, Refusal> {
        (self.lone.row)(self.words, self.rows, row)
    }

    fn nth(&self, n: u32) -> Result<u32, Refusal> {
        (self.lone.nth)(self.words, self.rows, n)
    }

    fn expand(&self, out: &mut [u32]) -> Result<usize, Refusal> {
        (self.lone.expand)(self.words, self.rows, out)
    }
}

/// A bitmap, by its number in an index.
struct Bitmap<'a> {
    index: &'a [u32],
    k: u32,
}

impl Asked for Bitmap<'_> {
    fn rows(&self) -> u32 {
        self.index[1]
    }

    fn count(&self) -> Result<u32, Refusal> {
        zvonurel::count(self.index, self.k)
    }

    fn row(&self, row: u32) -> Result<Row, Refusal> {
        zvonurel::row(self.index, self.k, row)
    }

    fn nth(&self, n: u32) -> Result<u32, Refusal> {
        zvonurel::nth(self.index, self.k, n)
    }

    fn expand(&self, out: &mut [u32]) -> Result<usize, Refusal> {
        zvonurel::expand_bitmap(self.index, self.k, out)
    }
}

fn index_to(format: Format) -> fn(&[u32], &mut [u32]) -> Result<usize, Refusal> {
    match format {
        Ewah => zvonurel::index_to_ewah,
        Wah => zvonurel::index_to_wah,
    }
}

/// A writer's state is changed as well as the buffer.
pub fn library(words: &[u32], q: &Question, state: &mut AppendState, out: &mut [u32]) -> Result<Value, Refusal> {
    match q.call {
        Call::Begin => Ok(Value::State(zvonurel::begin(out))),
        Call::Append => zvonurel::append(state, out, q.rows, words).map(Value::Words),
        Call::Batches => batches::by_batches(words, q, out),
        call if call.of_index() => of_index(words, q, out),
        _ => of_body(words, q, out),
    }
}

fn of_body(words: &[u32], q: &Question, out: &mut [u32]) -> Result<Value, Refusal> {
    let lone = Lone::of(q.format);
    match q.call {
        Call::CheckBody => (lone.check)(words, q.rows).map(|()| Value::Sound),
        Call::BodyRow => (lone.row)(words, q.rows, q.number).map(Value::Row),
        Call::BodyCount => (lone.count)(words, q.rows).map(Value::Number),
        Call::BodyNth => (lone.nth)(words, q.rows, q.number).map(Value::Number),
        Call::BodyWalk => walk::by_asking(&Body { lone: &lone, words, rows: q.rows }, q.number).map(Value::Walk),
        Call::Expand => (lone.expand)(words, q.rows, out).map(Value::Words),
        Call::BodyToEwah => (lone.to_ewah)(words, q.rows, out).map(Value::Words),
        Call::BodyToWah => (lone.to_wah)(words, q.rows, out).map(Value::Words),
        Call::BodyAround => {
            let there = other(q.format);
            let rewritten = measured(|out| lone.to(there)(words, q.rows, out))?;
            Lone::of(there).to(q.format)(&rewritten, q.rows, out).map(Value::Words)
        }
        Call::Compress => (lone.compress)(q.rows, words, out).map(Value::Words),
        _ => unreachable!("asked of an index"),
    }
}

/// What a call writes into a buffer of just the words that it asks for.
pub fn measured(write: impl Fn(&mut [u32]) -> Result<usize, Refusal>) -> Result<Vec<u32>, Refusal> {
    let need = match write(&mut []) {
        Err(refusal) if refusal.number == Refusal::NO_ROOM => refusal.word as usize,
        told => told?,
    };
    let mut words = vec![0; need];
    write(&mut words).map(|_| words)
}

/// Where a part lies in the words it was lent from.
fn part(words: &[u32], part: &[u32]) -> Value {
    let bytes = (part.as_ptr() as usize).wrapping_sub(words.as_ptr() as usize);
    Value::Part((!part.is_empty()).then_some(bytes / size_of::<u32>()), part.len())
}

fn of_index(words: &[u32], q: &Question, out: &mut [u32]) -> Result<Value, Refusal> {
    let number = |at: usize| q.list.get(at).copied().unwrap_or(0);
    let (j, k) = (number(0), number(1));
    match q.call {
        Call::Check => zvonurel::check(words).map(|()| Value::Sound),
        Call::Bitmap => zvonurel::bitmap(words, j).map(|body| part(words, body)),
        Call::BitmapRefusal => match zvonurel::bitmap_refusal(words, j) {
            None => Ok(Value::Sound),
            Some(refusal) => Err(refusal),
        },
        Call::Row => zvonurel::row(words, j, q.number).map(Value::Row),
        Call::Count => zvonurel::count(words, j).map(Value::Number),
        Call::Nth => zvonurel::nth(words, j, q.number).map(Value::Number),
        Call::Walk => walk::by_asking(&Bitmap { index: words, k: j }, q.number).map(Value::Walk),
        Call::ExpandBitmap => zvonurel::expand_bitmap(words, j, out).map(Value::Words),
        Call::BitmapToEwah => zvonurel::bitmap_to_ewah(words, j, out).map(Value::Words),
        Call::BitmapToWah => zvonurel::bitmap_to_wah(words, j, out).map(Value::Words),
        Call::IndexToEwah => zvonurel::index_to_ewah(words, out).map(Value::Words),
        Call::IndexToWah => zvonurel::index_to_wah(words, out).map(Value::Words),
        Call::IndexAround => {
            let own = format_of(words);
            let rewritten = measured(|out| index_to(other(own))(words, out))?;
            index_to(own)(&rewritten, out).map(Value::Words)
        }
        Call::And => zvonurel::and(words, j, k, out).map(Value::Words),
        Call::Or => zvonurel::or(words, j, k, out).map(Value::Words),
        Call::Xor => zvonurel::xor(words, j, k, out).map(Value::Words),
        Call::AndNot => zvonurel::and_not(words, j, k, out).map(Value::Words),
        Call::Not => zvonurel::not(words, j, out).map(Value::Words),
        _ => of_several(words, q, out),
    }
}

fn of_several(words: &[u32], q: &Question, out: &mut [u32]) -> Result<Value, Refusal> {
    let answer = |a: zvonurel::Answer| Value::Answer(a.words, a.stretches);
    match q.call {
        Call::Threshold => zvonurel::threshold(words, &q.list, q.number, out).map(answer),
        Call::Symmetric => zvonurel::symmetric(words, &q.list, &q.table, out).map(answer),
        Call::Histogram => zvonurel::histogram(words, &q.list).map(|tally| Value::Tally(Box::new(tally))),
        Call::Value => zvonurel::value(words, &q.list, q.number).map(Value::Whole),
        Call::SignedValue => zvonurel::signed_value(words, &q.list, q.number).map(Value::Signed),
        Call::Sum => zvonurel::sum(words, &q.list, &q.second, out).map(Value::Words),
        Call::SignedDifference => zvonurel::signed_difference(words, &q.list, &q.second, out).map(Value::Words),
        Call::Smaller => zvonurel::smaller(words, &q.list, &q.second, out).map(Value::Words),
        Call::DifferenceOrZero => zvonurel::difference_or_zero(words, &q.list, &q.second, out).map(Value::Words),
        Call::Changes => changes::by_asking(words, q).map(Value::Changes),
        Call::Largest => zvonurel::largest(words, &q.list, q.number, out).map(Value::Words),
        Call::Smallest => zvonurel::smallest(words, &q.list, q.number, out).map(Value::Words),
        Call::Ranks => ranks::by_asking(words, q).map(Value::Ranks),
        _ => unreachable!("asked of a bitmap or two"),
    }
}
