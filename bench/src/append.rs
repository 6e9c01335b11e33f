//! Half hours that come in batches: those of a year one by one, by days and at once; and a batch behind many years.

use std::hint::black_box;

use zvonurel::{segments, AppendState, Writer, WORD_BITS};

use crate::inputs::{self, bitmap, Kind};
use crate::timing::best_seconds;

/// The half hours of a day and of a year.
const DAY: u32 = 48;
const YEAR: u32 = 365 * DAY;
/// Those of 57 years, nearly a million.
const YEARS: u32 = 57 * YEAR;

/// Some rows, one behind the other, as plain words.
struct Batch {
    rows: u32,
    plain: Vec<u32>,
}

impl Batch {
    /// So many of the rows from `first` on.
    fn cut(plain: &[u32], first: u32, rows: u32) -> Batch {
        let mut words = vec![0; segments(rows)];
        for row in 0..rows as usize {
            let from = first as usize + row;
            let bit = plain[from / WORD_BITS] >> (from % WORD_BITS) & 1;
            words[row / WORD_BITS] |= bit << (row % WORD_BITS);
        }
        Batch { rows, plain: words }
    }
}

/// Rows that come so many at a time, the last perhaps fewer.
struct Coming {
    rows: u32,
    batch: u32,
    plain: Vec<u32>,
    /// The body of all of them.
    body: Vec<u32>,
}

impl Coming {
    fn new(kind: Kind, rows: u32, batch: u32) -> Coming {
        let plain = bitmap(kind, rows, 1_000);
        let mut body = vec![0; zvonurel::most_body_words(rows)];
        let words = zvonurel::compress(rows, &plain, &mut body).expect("plain words of so many rows");
        body.truncate(words);
        Coming { rows, batch, plain, body }
    }

    fn batches(&self) -> Vec<Batch> {
        let firsts = (0..self.rows).step_by(self.batch as usize);
        firsts.map(|first| Batch::cut(&self.plain, first, self.batch.min(self.rows - first))).collect()
    }

    /// State and buffer before the last batch, and that.
    fn last(&self) -> (AppendState, Vec<u32>, Batch) {
        let first = (self.rows - 1) / self.batch * self.batch;
        let before = Batch::cut(&self.plain, 0, first);
        let mut buffer = vec![0; self.body.len()];
        let mut writer = Writer::new(&mut buffer);
        writer.append(before.rows, &before.plain).expect("a sound batch");
        (writer.into_state(), buffer, Batch::cut(&self.plain, first, self.rows - first))
    }
}

/// The library's call, once. Its own function, so that a profiler can find it.
#[inline(never)]
fn measured_call(state: &mut AppendState, buffer: &mut [u32], batch: &Batch) {
    let told = zvonurel::append(state, black_box(buffer), batch.rows, black_box(&batch.plain));
    black_box(told).expect("a sound batch");
}

/// Every batch in turn, from an empty body on.
fn append_all(batches: &[Batch], buffer: &mut [u32]) {
    let mut state = zvonurel::begin(buffer);
    for batch in batches {
        measured_call(&mut state, buffer, batch);
    }
}

/// One call and nothing else, for a profiler: the last batch, or each in turn.
pub fn one(call: &str, kind: &str, rows: &str, batch: &str, repeats: &str) -> Option<()> {
    let all = ["append", "append_all"].iter().position(|name| *name == call)? == 1;
    let (kind, rows, _, repeats) = inputs::arguments([kind, rows, "1", repeats], 1)?;
    let coming = Coming::new(kind, rows, batch.parse().ok().filter(|batch| (1..=rows).contains(batch))?);
    let (state, before, last) = coming.last();
    let batches = if all { coming.batches() } else { Vec::new() };
    for _ in 0..repeats {
        let mut buffer = before.clone();
        match all {
            true => append_all(&batches, &mut buffer),
            false => measured_call(&mut { state }, &mut buffer, &last),
        }
        assert!(buffer == coming.body, "another body than of all rows at once");
    }
    let (words, calls) = (coming.body.len(), batches.len().max(1));
    println!("{call} {} rows {rows} by {batch} words {words}: {calls} batches {repeats} times", kind.name());
    Some(())
}

pub fn table() {
    println!("a year of half hours, {YEAR} rows; the last batch is that at its end");
    for kind in Kind::ALL {
        let whole = Coming::new(kind, YEAR, YEAR);
        println!("\n{} input, {} words", kind.name(), whole.body.len());
        line("one by one", &Coming::new(kind, YEAR, 1));
        line("by days", &Coming::new(kind, YEAR, DAY));
        line("at once", &whole);
        println!("  {:12}{:28.2} us", "compress", compress_seconds(&whole) * 1e6);
    }
    println!("\none batch behind all others, {YEARS} rows in all");
    for kind in Kind::ALL {
        let [one, day] = [1, DAY].map(|batch| Coming::new(kind, YEARS, batch));
        println!("\n{} input, {} words", kind.name(), one.body.len());
        for (name, coming) in [("a half hour", &one), ("a day", &day)] {
            println!("  {name:12}{:28.2} us", last_seconds(coming) * 1e6);
        }
        println!("  {:12}{:28.2} us", "compress", compress_seconds(&one) * 1e6);
    }
}

/// The time of all batches, that of one on average, and that of the last.
fn line(name: &str, coming: &Coming) {
    let (batches, mut buffer) = (coming.batches(), vec![0; coming.body.len()]);
    let all = best_seconds(|| append_all(&batches, black_box(&mut buffer)));
    assert!(buffer == coming.body, "{name}: another body than of all rows at once");
    let (average, last) = (all * 1e9 / batches.len() as f64, last_seconds(coming) * 1e9);
    println!(
        "  {name:12}{:6} batches {:12.2} us {average:10.1} ns on average {last:10.1} ns the last",
        batches.len(),
        all * 1e6
    );
}

/// The last batch alone. State and buffer are put back each time, which is timed by itself and taken off.
fn last_seconds(coming: &Coming) -> f64 {
    let (state, before, last) = coming.last();
    let mut buffer = before.clone();
    let back = best_seconds(|| black_box(&mut buffer).copy_from_slice(black_box(&before)));
    let both = best_seconds(|| {
        black_box(&mut buffer).copy_from_slice(black_box(&before));
        measured_call(&mut { state }, &mut buffer, &last);
    });
    (both - back).max(0.0)
}

/// All rows at once, by the call that is for that.
fn compress_seconds(coming: &Coming) -> f64 {
    let mut out = vec![0; coming.body.len()];
    best_seconds(|| {
        let told = zvonurel::compress(coming.rows, black_box(&coming.plain), black_box(&mut out));
        black_box(told).expect("a sound question");
    })
}
