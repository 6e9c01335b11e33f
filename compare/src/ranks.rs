//! The first rows of a column, held against what the library tells of them; and fixed cases.
//!
//! The library writes the k largest rows and the k smallest, counts each, parts those that exist from the others, and
//! tells the values at some that are taken and at some that are not. It also writes all rows that exist as the largest
//! and as the smallest. The reference says what has to come of it: k rows, none that doesn't exist, none in the wrong
//! order, and the existence bitmap in its canonical form.

use zvonurel::{Format, Refusal, MOST_CLEAN, MOST_COLUMN};

use crate::changes::some_of;
use crate::encode::{format_of, index_in, one_run, FORMATS};
use crate::library::measured;
use crate::question::{Call, Question};
use crate::second::in_reference;
use crate::session::Session;
use crate::tails::fitting;

/// What holds of the k rows in one order.
#[derive(Debug, Clone, PartialEq, Eq)]
struct Taken {
    count: u32,
    /// Rows that are taken and don't exist.
    missing: u32,
    /// Each row that is taken comes before each that isn't, as far as they are asked about.
    in_order: bool,
    /// All rows that exist, in this order.
    all: Vec<u32>,
}

/// The largest and the smallest.
#[derive(Debug, Clone, PartialEq, Eq)]
pub struct Ranks([Taken; 2]);

// ---- the library's side ----

type Ranking = fn(&[u32], &[u32], u32, &mut [u32]) -> Result<usize, Refusal>;

/// Some rows of a bitmap, by its index and number, with their values in a column of another index.
fn some_values(index: &[u32], k: u32, words: &[u32], q: &Question) -> Result<Vec<(u32, u64)>, Refusal> {
    let valued = |n| {
        let row = zvonurel::nth(index, k, n)?;
        Ok((row, zvonurel::value(words, &q.list, row)?))
    };
    some_of(zvonurel::count(index, k)?, q.number).into_iter().map(valued).collect()
}

fn taken(words: &[u32], q: &Question, call: Ranking, before: fn(u64, u64) -> bool) -> Result<Taken, Refusal> {
    let rows = |k| measured(|out| call(words, &q.list, k, out));
    let (body, exists) = (rows(q.number)?, zvonurel::bitmap(words, q.list[0])?);
    let index = |bodies: &[&[u32]]| index_in(format_of(words), words[1], bodies);
    let both = index(&[&body, exists]);
    let inside = measured(|out| zvonurel::and(&both, 0, 1, out))?;
    let outside = measured(|out| zvonurel::and_not(&both, 1, 0, out))?;
    let missing = measured(|out| zvonurel::and_not(&both, 0, 1, out))?;
    let parts = index(&[&inside, &outside, &missing]);

    let (inside, outside) = (some_values(&parts, 0, words, q)?, some_values(&parts, 1, words, q)?);
    let good = |&(row, value): &(u32, u64), &(later, other): &(u32, u64)| {
        before(value, other) || value == other && row < later
    };
    Ok(Taken {
        count: zvonurel::count(&both, 0)?,
        missing: zvonurel::count(&parts, 2)?,
        in_order: inside.iter().all(|row| outside.iter().all(|other| good(row, other))),
        all: rows(zvonurel::count(&both, 1)?)?,
    })
}

pub fn by_asking(words: &[u32], q: &Question) -> Result<Ranks, Refusal> {
    Ok(Ranks([
        taken(words, q, zvonurel::largest, |value, other| value > other)?,
        taken(words, q, zvonurel::smallest, |value, other| value < other)?,
    ]))
}

// ---- the reference's side ----

pub fn by_rule(words: &[u32], q: &Question) -> Result<Ranks, reference::Refusal> {
    reference::largest(words, &q.list, q.number, usize::MAX)?;
    reference::smallest(words, &q.list, q.number, usize::MAX)?;
    let all = reference::rewrite_bitmap(words, q.list[0], in_reference(format_of(words)), usize::MAX)?;
    let due = Taken { count: q.number, missing: 0, in_order: true, all };
    Ok(Ranks([due.clone(), due]))
}

// ---- fixed cases ----

pub fn run(session: &mut Session) {
    for format in FORMATS {
        blocks(session, format);
        long_runs(session, format);
        slices(session, format);
    }
}

/// The largest and the smallest rows, with just the room that is needed and a word less, and what holds of them.
pub fn ask(session: &mut Session, words: &[u32], list: &[u32], ks: &[u32]) {
    for question in ks.iter().flat_map(|&k| Question::ranks(list, k)) {
        match question.call {
            Call::Ranks => session.ask(words, question),
            _ => fitting(session, words, question),
        }
    }
}

/// These numbers, one less and one more of each.
fn beside(numbers: impl IntoIterator<Item = usize>) -> Vec<u32> {
    let mut all: Vec<u32> =
        numbers.into_iter().flat_map(|n| [n.saturating_sub(1), n, n + 1]).map(|n| n as u32).collect();
    all.sort();
    all.dedup();
    all
}

/// Runs of ones and zeros in turns, of so many segments each.
fn in_turns(format: Format, runs: &[usize]) -> Vec<u32> {
    (0..).zip(runs).flat_map(|(at, &run)| one_run(format, at % 2 == 0, run)).collect()
}

/// All rows, none, all but the first segments, and these alone: so many of so many.
fn runs(format: Format, rows: u32, first: usize) -> Vec<u32> {
    let count = format.segments(rows);
    let bodies = [&[count][..], &[0, count], &[0, first, count - first], &[first, count - first]];
    index_in(format, rows, &bodies.map(|runs| in_turns(format, runs)))
}

/// All rows equal, two numbers, of which the first rows have the smaller one or the larger, and half the rows.
const LISTS: [&[u32]; 7] = [&[0, 1], &[0, 0], &[0, 2], &[0, 3], &[2, 2], &[2, 1], &[0, 3, 2]];

/// Equal rows cut at each segment's end about a block of 16, with pads and without.
fn blocks(session: &mut Session, format: Format) {
    let width = format.segment_rows();
    for (count, pads) in [1, 2, 16, 17, 33].into_iter().flat_map(|count| [0, 1, width - 1].map(|pads| (count, pads))) {
        let rows = width * count - pads;
        let words = runs(format, rows as u32, count / 2);
        for list in LISTS {
            ask(session, &words, list, &beside([0, width, count / 2 * width, 15 * width, 16 * width, rows]));
        }
    }
}

/// Equal rows in runs of more segments than a marker counts, cut about as many.
fn long_runs(session: &mut Session, format: Format) {
    let width = format.segment_rows();
    let count = 2 * MOST_CLEAN + 3;
    let rows = width * count - 1;
    for first in [2, MOST_CLEAN + 2] {
        let words = runs(format, rows as u32, first);
        for list in LISTS {
            let edges = [width, first * width, MOST_CLEAN * width, (MOST_CLEAN + 1) * width, 1 << 16, rows];
            ask(session, &words, list, &beside(edges));
        }
    }
}

/// Columns of several widths in which one slice alone has rows, the lowest or the highest, or all have.
fn slices(session: &mut Session, format: Format) {
    let rows = 5 * format.segment_rows() as u32 - 3;
    let words = runs(format, rows, 2);
    let half = 2 * format.segment_rows();
    for width in [1, 2, 16, MOST_COLUMN - 2, MOST_COLUMN - 1, MOST_COLUMN] {
        for (slice, others) in [(2, 1), (3, 1), (3, 2)] {
            for place in [1, width] {
                let mut list = vec![others; 1 + width];
                (list[0], list[place]) = (0, slice);
                ask(session, &words, &list, &beside([half, rows as usize - half, rows as usize]));
            }
        }
    }
}

#[cfg(test)]
mod tests {
    use super::*;
    use zvonurel::Format::{Ewah, Wah};

    /// 3, 1, 3, 2, none, 3: both sides come to what was worked out by hand.
    #[test]
    fn by_hand() {
        let index = zvonurel::index_of(6, &[0x2F, 0x27, 0x2D].map(|rows| [0x0002_0000, rows]));
        for k in 0..=5 {
            let due = Taken { count: k, missing: 0, in_order: true, all: vec![0x0002_0000, 0x2F] };
            let question = Question::new(Call::Ranks).list(&[0, 1, 2]).number(k);
            let due = Ranks([due.clone(), due]);
            assert_eq!(by_rule(&index, &question).expect("nothing is refused"), due);
            assert_eq!(by_asking(&index, &question).expect("nothing is refused"), due);
        }
    }

    /// Rows that are wrong in each way show.
    #[test]
    fn wrong_rows_show() {
        let index = zvonurel::index_of(6, &[0x2F, 0x27, 0x2D].map(|rows| [0x0002_0000, rows]));
        let question = Question::new(Call::Ranks).list(&[0, 1, 2]).number(2);
        // Rows 0 and 2 are due; too few, one that doesn't exist, the higher of equal ones, a smaller one.
        fn told<const ROWS: u32>(_: &[u32], _: &[u32], _: u32, out: &mut [u32]) -> Result<usize, Refusal> {
            if let [marker, rows] = out {
                (*marker, *rows) = (0x0002_0000, ROWS);
            }
            Ok(2)
        }
        let of = |call: Ranking| taken(&index, &question, call, |value, other| value > other).expect("nothing");
        let right = of(told::<0x5>);
        assert_eq!((right.count, right.missing, right.in_order), (2, 0, true));
        assert_eq!(of(told::<0x1>).count, 1);
        assert_eq!(of(told::<0x11>).missing, 1);
        for wrong in [of(told::<0x21>), of(told::<0x3>), of(told::<0xA>)] {
            assert_eq!((wrong.count, wrong.missing, wrong.in_order), (2, 0, false));
        }
    }

    #[test]
    fn runs_in_turns() {
        assert_eq!(in_turns(Ewah, &[0, 3, 2]), [0x6, 0x5]);
        assert_eq!(in_turns(Wah, &[1, 2]), [0xC000_0001, 0x8000_0002]);
        assert_eq!(beside([0, 5, 6]), [0, 1, 4, 5, 6, 7]);
    }
}
