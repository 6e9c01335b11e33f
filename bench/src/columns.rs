//! The library's calls on columns, and what each is held against.

use std::hint::black_box;

use zvonurel::{most_sum_words, Refusal, MOST_COLUMN, MOST_ROWS};

use crate::column_baseline::{Pairing, Ranking, SLICES};
use crate::column_inputs::{plain_words, Columns, Shape};
use crate::timing::best_seconds;

/// The rows that are measured.
const ROWS: u32 = 1_000_000;

#[derive(Debug, Clone, Copy, PartialEq, Eq)]
enum Call {
    Pairing(Pairing),
    Value,
    SignedValue,
    Ranking(Ranking, Many),
}

/// How many rows are ranked.
#[derive(Debug, Clone, Copy, PartialEq, Eq)]
enum Many {
    Ten,
    /// Of all rows.
    Tenth,
}

/// In the order in which they are measured.
const CALLS: [(Call, &str); 10] = [
    (Call::Pairing(Pairing::Sum), "sum"),
    (Call::Value, "value"),
    (Call::Pairing(Pairing::SignedDifference), "signed_difference"),
    (Call::Pairing(Pairing::Smaller), "smaller"),
    (Call::Pairing(Pairing::DifferenceOrZero), "difference_or_zero"),
    (Call::SignedValue, "signed_value"),
    (Call::Ranking(Ranking::Largest, Many::Ten), "largest_10"),
    (Call::Ranking(Ranking::Largest, Many::Tenth), "largest_tenth"),
    (Call::Ranking(Ranking::Smallest, Many::Ten), "smallest_10"),
    (Call::Ranking(Ranking::Smallest, Many::Tenth), "smallest_tenth"),
];

impl Many {
    /// As many as exist where those are fewer, since more are refused.
    fn of(self, data: &Columns) -> u32 {
        let many = match self {
            Many::Ten => 10,
            Many::Tenth => data.rows / 10,
        };
        many.min(data.existing)
    }
}

impl Call {
    /// The number that it takes: how many rows, or a row, another one each time.
    fn number(self, data: &Columns, time: usize) -> u32 {
        match self {
            Call::Ranking(_, many) => many.of(data),
            _ => data.asked[time % data.asked.len()],
        }
    }
}

/// The library's call, once: of a value, at row n, a signed one as its 64 bits; of a ranking, of n rows. Its own
/// function, so that a profiler can find it.
#[inline(never)]
fn measured_call(call: Call, data: &Columns, n: u32, out: &mut [u32]) -> Result<u64, Refusal> {
    let index = black_box(&data.index[..]);
    let [first, second] = &data.lists;
    match call {
        Call::Pairing(Pairing::Sum) => zvonurel::sum(index, first, second, out).map(|words| words as u64),
        Call::Pairing(Pairing::SignedDifference) => {
            zvonurel::signed_difference(index, first, second, out).map(|words| words as u64)
        }
        Call::Pairing(Pairing::Smaller) => zvonurel::smaller(index, first, second, out).map(|words| words as u64),
        Call::Pairing(Pairing::DifferenceOrZero) => {
            zvonurel::difference_or_zero(index, first, second, out).map(|words| words as u64)
        }
        Call::Value => zvonurel::value(index, first, n),
        Call::SignedValue => zvonurel::signed_value(index, first, n).map(|value| value as u64),
        Call::Ranking(Ranking::Largest, _) => zvonurel::largest(index, first, n, out).map(|words| words as u64),
        Call::Ranking(Ranking::Smallest, _) => zvonurel::smallest(index, first, n, out).map(|words| words as u64),
    }
}

/// Room for all that is made of the two columns: a sum has the most words.
fn buffer(data: &Columns) -> Vec<u32> {
    vec![0; most_sum_words(data.rows, data.slices)]
}

/// One call and nothing else, for a profiler.
pub fn one(call: &str, shape: &str, rows: &str, slices: &str, repeats: &str) -> Option<()> {
    let (named, _) = CALLS.into_iter().find(|(_, name)| *name == call)?;
    let shape = Shape::ALL.into_iter().find(|s| s.name() == shape)?;
    let rows: u32 = rows.parse().ok().filter(|r| (1..=MOST_ROWS).contains(r))?;
    let slices: usize = slices.parse().ok().filter(|n| (1..MOST_COLUMN).contains(n))?;
    let repeats: u32 = repeats.parse().ok()?;
    let data = Columns::new(shape, rows, slices);
    let mut out = buffer(&data);
    for time in 0..repeats as usize {
        let result = measured_call(named, &data, named.number(&data, time), black_box(&mut out));
        black_box(result).expect("a sound question");
    }
    println!("{call} {} rows {rows} slices {slices} words {}: {repeats} times", shape.name(), data.index.len());
    Some(())
}

/// All calls on all inputs.
pub fn table() {
    for shape in Shape::ALL {
        let data = Columns::new(shape, ROWS, SLICES);
        println!(
            "\n{} columns, {ROWS} rows, two of {SLICES} slices, {} words of the index",
            shape.name(),
            data.index.len()
        );
        for (call, name) in CALLS {
            match call {
                Call::Pairing(pairing) => lines(name, call, &data, |made| pairing_programs(name, pairing, &data, made)),
                Call::Value | Call::SignedValue => value_line(name, call, &data),
                Call::Ranking(ranking, many) => {
                    lines(name, call, &data, |body| ranking_program(name, ranking, many.of(&data), &data, body))
                }
            }
        }
    }
}

/// A line's name and time.
fn timed(name: &str, seconds: f64) -> String {
    format!("  {name:18}{:12.2} us", seconds * 1e6)
}

/// A plain program's name, and its time.
type Program = (&'static str, f64);

/// Times a call that writes, and prints it beside its plain programs, which are held to what it wrote and timed by
/// `programs`.
fn lines(name: &str, call: Call, data: &Columns, programs: impl FnOnce(&[u32]) -> Vec<Program>) {
    let mut out = buffer(data);
    let words = measured_call(call, data, call.number(data, 0), &mut out).expect("a sound question") as usize;
    let [long, just, none] = in_rooms(call, data, &mut out, words);
    let mut text = format!("{} {:10.5} ns", timed(name, long), long * 1e9 / f64::from(data.rows));
    for (program, seconds) in programs(&out[..words]) {
        text += &format!(" | {program} {:.2} us, x {:.2}", seconds * 1e6, seconds / long);
    }
    println!("{text}");
    println!("{} | {words} words", timed("  just room", just));
    println!("{}", timed("  no room", none));
}

/// The times of a call that writes so many words: into a buffer that is long enough for any, into one of just its
/// words, and with none, where it is only measured.
fn in_rooms(call: Call, data: &Columns, out: &mut [u32], words: usize) -> [f64; 3] {
    let n = call.number(data, 0);
    [out.len(), words, 0].map(|room| {
        best_seconds(|| {
            let result = measured_call(call, data, n, black_box(&mut out[..room]));
            let written = result.unwrap_or_else(|refusal| refusal.word);
            assert!(black_box(written) == words as u64, "the words needed");
        })
    })
}

/// The programs beside a column that was made of two.
fn pairing_programs(name: &str, pairing: Pairing, data: &Columns, made: &[u32]) -> Vec<Program> {
    let expected = plain_words(made, &numbers(1 + pairing.slices()), data.rows);
    let timed = pairing.programs().into_iter().map(|(program, plain)| {
        let mut slices = vec![0; pairing.slices() * data.segments()];
        let seconds = best_seconds(|| plain(black_box(data), black_box(&mut slices)));
        assert!(agrees(data, &expected, &slices), "{program} disagrees with {name}");
        (program, seconds)
    });
    timed.collect()
}

/// The program beside the body of the k rows that come first.
fn ranking_program(name: &str, ranking: Ranking, k: u32, data: &Columns, body: &[u32]) -> Vec<Program> {
    let mut selected = Vec::new();
    let seconds = best_seconds(|| ranking.select(black_box(data), k as usize, black_box(&mut selected)));
    let mut rows: Vec<u32> = selected.into_iter().map(|(_, row)| row).collect();
    rows.sort_unstable();
    assert!(zvonurel::set_rows(body, data.rows).expect("a sound body").eq(rows), "select disagrees with {name}");
    vec![("select", seconds)]
}

/// The first numbers.
fn numbers(count: usize) -> Vec<u32> {
    (0..count as u32).collect()
}

/// Whether the plain words of what was made, existence first, are those of a plain program, where both columns have the
/// row.
fn agrees(data: &Columns, expected: &[u32], pairing: &[u32]) -> bool {
    let (existence, slices) = expected.split_at(data.segments());
    let both = data.plain(0, 0).iter().zip(data.plain(1, 0)).map(|(x, y)| x & y);
    let masked = pairing.iter().zip(existence.iter().cycle()).map(|(word, exist)| word & exist);
    both.eq(existence.iter().copied()) && masked.eq(slices.iter().copied())
}

/// What a call reads the first column's digits as.
fn read_as(call: Call, data: &Columns, digits: u64) -> u64 {
    let above = u64::BITS - data.slices as u32;
    match call {
        Call::SignedValue => ((digits << above) as i64 >> above) as u64,
        _ => digits,
    }
}

/// The value by a call for each of the column's bitmaps.
fn by_rows(call: Call, data: &Columns, row: u32) -> Result<u64, Refusal> {
    let index = black_box(&data.index[..]);
    let list = &data.lists[0];
    let mut digits = 0;
    for (i, k) in list[1..].iter().enumerate() {
        digits |= u64::from(zvonurel::row(index, *k, row)?.set) << i;
    }
    assert!(zvonurel::row(index, list[0], row)?.set, "a row that exists");
    Ok(read_as(call, data, digits))
}

/// Times a value at some rows, beside a call of `row` for each bitmap, and beside the array that the column was made of.
fn value_line(name: &str, call: Call, data: &Columns) {
    let in_array = |row: u32| read_as(call, data, black_box(&data.values[0])[row as usize].into());
    let each = |value: &dyn Fn(u32) -> u64| {
        assert!(data.asked.iter().all(|&row| value(row) == in_array(row)), "another value");
        let sum = || data.asked.iter().map(|&row| value(black_box(row))).fold(0, u64::wrapping_add);
        best_seconds(|| _ = black_box(sum())) / data.asked.len() as f64
    };
    let seconds = each(&|row| measured_call(call, data, row, &mut []).expect("a sound question"));
    let rows = each(&|row| by_rows(call, data, row).expect("a sound question"));
    let array = each(&in_array);
    println!(
        "{} | {} calls of row {:.2} us, x {:.2} | array {:.5} us, x {:.5}",
        timed(name, seconds),
        data.lists[0].len(),
        rows * 1e6,
        rows / seconds,
        array * 1e6,
        array / seconds
    );
}
