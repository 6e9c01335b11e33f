//! The library's calls, and what each is held against.

use std::hint::black_box;

use crate::baseline::{bit_sliced, counters, row_by_row, Ask, Plain};
use crate::bitwise::body_count_bitwise;
use crate::inputs::Data;
use crate::ones::count_ones;

#[derive(Debug, Clone, Copy, PartialEq, Eq)]
pub enum Call {
    Check,
    Count,
    BodyCount,
    Expand,
    ExpandBitmap,
    Compress,
    And,
    Threshold,
    Symmetric,
    Histogram,
}

pub const CALLS: [(Call, &str); 10] = [
    (Call::Check, "check"),
    (Call::Count, "count"),
    (Call::BodyCount, "body_count"),
    (Call::Expand, "expand"),
    (Call::ExpandBitmap, "expand_bitmap"),
    (Call::Compress, "compress"),
    (Call::And, "and"),
    (Call::Threshold, "threshold"),
    (Call::Symmetric, "symmetric"),
    (Call::Histogram, "histogram"),
];

impl Call {
    pub fn name(self) -> &'static str {
        CALLS[self as usize].1
    }

    pub fn named(name: &str) -> Option<Call> {
        let found = CALLS.iter().find(|(_, its)| *its == name);
        found.map(|(call, _)| *call)
    }

    /// It takes one body or plain words, so other bitmaps don't matter to it.
    pub fn lone(self) -> bool {
        matches!(self, Call::BodyCount | Call::Expand | Call::Compress)
    }
}

/// The library's call, once. Its own function, so that a profiler can find it.
#[inline(never)]
pub fn measured_call(call: Call, data: &Data, out: &mut [u32]) -> Result<u64, zvonurel::Refusal> {
    let index = black_box(&data.index[..]);
    Ok(match call {
        Call::Check => zvonurel::check(index).map(|()| 0)?,
        Call::Count => zvonurel::count(index, 0)?.into(),
        Call::BodyCount => zvonurel::body_count(black_box(data.body(0)), data.rows)?.into(),
        Call::Expand => zvonurel::expand(black_box(data.body(0)), data.rows, out)? as u64,
        Call::ExpandBitmap => zvonurel::expand_bitmap(index, 0, out)? as u64,
        Call::Compress => zvonurel::compress(data.rows, black_box(data.plain(0)), out)? as u64,
        Call::And => zvonurel::and(index, 0, 1, out)? as u64,
        Call::Threshold => zvonurel::threshold(index, &data.list, data.t, out)?.words as u64,
        Call::Symmetric => zvonurel::symmetric(index, &data.list, &data.table, out)?.words as u64,
        Call::Histogram => zvonurel::histogram(index, &data.list)?[1].into(),
    })
}

type Baseline = (&'static str, fn(&Data, &mut Plain));

/// The plain programs for a call, with their names.
pub fn baselines(call: Call) -> Vec<Baseline> {
    match call {
        Call::Check => vec![("add up the index", |d, out| {
            out.tally[0] = d.index.iter().fold(0, |sum, w| sum ^ w.wrapping_mul(3));
        })],
        Call::Count => vec![("count_ones", |d, out| out.tally[0] = count_ones(d.plain(0)))],
        Call::BodyCount => vec![
            ("count_ones", |d, out| out.tally[0] = count_ones(d.plain(0))),
            ("bitwise", |d, out| out.tally[0] = body_count_bitwise(d.body(0), d.rows)),
        ],
        Call::Expand | Call::ExpandBitmap | Call::Compress => vec![("copy", |d, out| {
            out.words.copy_from_slice(d.plain(0));
        })],
        Call::And => vec![("bitwise and", |d, out| {
            let pairs = d.plain(0).iter().zip(d.plain(1));
            let both = out.words.iter_mut().zip(pairs);
            both.for_each(|(word, (a, b))| *word = a & b);
        })],
        Call::Threshold => vec![
            ("row by row", |d, out| row_by_row(d, Ask::Threshold, out)),
            ("32 counters", |d, out| counters(d, Ask::Threshold, out)),
            ("bit-sliced", |d, out| bit_sliced(d, Ask::Threshold, out)),
        ],
        Call::Symmetric => vec![
            ("row by row", |d, out| row_by_row(d, Ask::Symmetric, out)),
            ("32 counters", |d, out| counters(d, Ask::Symmetric, out)),
            ("bit-sliced", |d, out| bit_sliced(d, Ask::Symmetric, out)),
        ],
        Call::Histogram => vec![
            ("row by row", |d, out| row_by_row(d, Ask::Tally, out)),
            ("32 counters", |d, out| counters(d, Ask::Tally, out)),
            ("bit-sliced", |d, out| bit_sliced(d, Ask::Tally, out)),
        ],
    }
}

/// The library's answer in plain words, to hold against the baselines'.
/// Nothing where the baseline computes something else.
pub fn plain_answer(call: Call, data: &Data, out: &mut [u32]) -> Option<Plain> {
    let mut plain = Plain::new(data.segments());
    let result = measured_call(call, data, out).expect("a sound question");
    match call {
        Call::Check | Call::Compress => return None,
        Call::Count | Call::BodyCount => plain.tally[0] = result as u32,
        Call::Expand | Call::ExpandBitmap => plain.words.copy_from_slice(&out[..data.segments()]),
        Call::Histogram => plain.tally = zvonurel::histogram(&data.index, &data.list).ok()?,
        Call::And | Call::Threshold | Call::Symmetric => {
            zvonurel::expand(&out[..result as usize], data.rows, &mut plain.words).ok()?;
        }
    }
    Some(plain)
}
