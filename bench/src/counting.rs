//! Counting the set rows of a body and finding one by its number, beside the same bit by bit and beside `count_ones`.

use std::hint::black_box;

use zvonurel::WORD_BITS;

use crate::bitwise::body_count_bitwise;
use crate::inputs::{self, Data, Kind};
use crate::ones::{builds, count_ones};
use crate::timing::best_seconds;

/// The rows that are measured.
const ROWS: u32 = 1_000_000;

/// How many times as long as the library's count, on the dense body, the count bit by bit has to take.
const ASKED: f64 = 2.0;

#[derive(Debug, Clone, Copy, PartialEq, Eq)]
enum Call {
    BodyCount,
    Bitwise,
    BodyNth,
    Nth,
    CountOnes,
}

impl Call {
    /// Those that are asked for by name here; `body_count` is among the ordinary calls.
    fn named(name: &str) -> Option<Call> {
        match name {
            "body_count_bitwise" => Some(Call::Bitwise),
            "body_nth" => Some(Call::BodyNth),
            "nth" => Some(Call::Nth),
            "count_ones" => Some(Call::CountOnes),
            _ => None,
        }
    }
}

/// The call, once, or Rust's loop over the plain words; nth finds set row `n`. Its own function, so that a profiler can
/// find it.
#[inline(never)]
fn measured_call(call: Call, data: &Data, n: u32) -> u32 {
    let body = black_box(data.body(0));
    let answer = match call {
        Call::BodyCount => zvonurel::body_count(body, data.rows),
        Call::Bitwise => Ok(body_count_bitwise(body, data.rows)),
        Call::BodyNth => zvonurel::body_nth(body, data.rows, n),
        Call::Nth => zvonurel::nth(black_box(&data.index), 0, n),
        Call::CountOnes => Ok(count_ones(black_box(data.plain(0)))),
    };
    answer.expect("a sound question")
}

/// One call and nothing else, for a profiler. Nth finds the last set row.
pub fn one(call: &str, kind: &str, rows: &str, bitmaps: &str, repeats: &str) -> Option<()> {
    let named = Call::named(call)?;
    let (kind, rows, bitmaps, repeats) = inputs::arguments([kind, rows, bitmaps, repeats], 1)?;
    let data = Data::new(kind, rows, bitmaps);
    let last = count_ones(data.plain(0)).saturating_sub(1);
    for _ in 0..repeats {
        black_box(measured_call(named, &data, last));
    }
    println!("{call} {} rows {rows} bitmaps {bitmaps} words {}: {repeats} times", kind.name(), data.words());
    Some(())
}

/// All of it. Whether the library's count is as fast as is asked.
pub fn table() -> bool {
    println!("\ncounting; ns are per segment; x is the time / that of the library's call above it");
    let dense = body(Kind::Dense);
    let (library, bitwise) = count_lines(&dense);
    ones_lines(&dense, library);
    nth_lines(&dense, "middle", count_ones(dense.plain(0)) / 2);
    nth_lines(&dense, "last", count_ones(dense.plain(0)) - 1);
    for kind in [Kind::Calm, Kind::Quiet] {
        count_lines(&body(kind));
    }
    let times = bitwise / library;
    println!("\ndense body: bit by bit takes {times:.2} times as long; at least {ASKED} is asked");
    times >= ASKED
}

/// A body of this kind, with its heading.
fn body(kind: Kind) -> Data {
    let data = Data::new(kind, ROWS, 1);
    println!("\n{} body, {ROWS} rows, {} segments, {} words", kind.name(), data.segments(), data.words());
    data
}

/// The best time of some work that has a known answer.
fn timed(answer: u32, name: &str, mut work: impl FnMut() -> u32) -> f64 {
    assert!(work() == answer, "{name}: another answer");
    best_seconds(|| _ = black_box(work()))
}

/// A figure's line; beside the library's own time where it is another's.
fn print(data: &Data, name: &str, seconds: f64, library: Option<f64>) {
    let per_segment = seconds * 1e9 / data.segments() as f64;
    let beside = library.map_or(String::new(), |own| format!(" x {:.2}", seconds / own));
    println!("  {name:24}{:12.3} us {per_segment:10.4} ns{beside}", seconds * 1e6);
}

/// The library's count, and the same bit by bit: their times.
fn count_lines(data: &Data) -> (f64, f64) {
    let answer = count_ones(data.plain(0));
    let [library, bitwise] =
        [Call::BodyCount, Call::Bitwise].map(|call| timed(answer, "body_count", || measured_call(call, data, 0)));
    print(data, "body_count", library, None);
    print(data, "  bitwise", bitwise, Some(library));
    (library, bitwise)
}

/// Every build of Rust's loop over the dirty words, which are the plain words where all segments are mixed.
fn ones_lines(data: &Data, library: f64) {
    let words = &data.body(0)[1..];
    assert!(words == data.plain(0), "one marker, and its dirty words");
    let answer = count_ones(words);
    for (name, count) in builds() {
        let seconds = timed(answer, name, || count(black_box(words)));
        print(data, &format!("  {name}"), seconds, Some(library));
    }
}

/// The library's nth, and a plain program that passes word after word by its `count_ones`.
fn nth_lines(data: &Data, which: &str, n: u32) {
    let answer = plain_nth(data.plain(0), n);
    let library = timed(answer, "body_nth", || measured_call(Call::BodyNth, data, n));
    print(data, &format!("body_nth, {which}"), library, None);
    let plain = timed(answer, "count_ones", || plain_nth(black_box(data.plain(0)), n));
    print(data, "  by count_ones", plain, Some(library));
}

/// The nth set row of plain words.
fn plain_nth(words: &[u32], n: u32) -> u32 {
    let mut left = n;
    for (at, &word) in words.iter().enumerate() {
        if left < word.count_ones() {
            let rest = (0..left).fold(word, |rest, _| rest & (rest - 1));
            return (WORD_BITS * at) as u32 + rest.trailing_zeros();
        }
        left -= word.count_ones();
    }
    panic!("so many rows are set");
}
