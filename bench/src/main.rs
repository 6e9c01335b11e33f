//! Times of the library's calls beside plain programs over plain words.

mod append;
mod baseline;
mod bitwise;
mod calls;
mod column_baseline;
mod column_inputs;
mod columns;
mod counting;
mod growth;
mod inputs;
mod limits;
mod ones;
mod rows;
mod timing;
mod wah;

use std::hint::black_box;
use std::process::ExitCode;

use zvonurel::{MOST_BITMAPS, MOST_ROWS};

use crate::baseline::Plain;
use crate::calls::{baselines, measured_call, plain_answer, Call, CALLS};
use crate::growth::{growth, Figure};
use crate::inputs::{Data, Kind, ENOUGH, TANKS};
use crate::timing::best_seconds;

/// The sizes that are measured. A dense index of the last of both has to keep within `MOST_INDEX_WORDS`.
const ROWS: [u32; 2] = [1_000_000, 16_000_000];
const BITMAPS: [usize; 3] = [3, TANKS, 64];

/// The sizes of the short run.
const QUICK_ROWS: u32 = ROWS[0];
const QUICK_BITMAPS: usize = TANKS;

fn help() -> ExitCode {
    println!(
        "\
bench            {ROWS:?} rows, {BITMAPS:?} bitmaps (minutes); columns
bench --quick    {QUICK_ROWS} rows, {QUICK_BITMAPS} bitmaps; columns
bench --columns  the calls on columns alone
bench --counting body_count and body_nth alone, beside more programs; exit
                 code 1 if bit by bit takes less than twice as long
bench --wah      questions on WAH beside the same on EWAH, and rewriting
bench --append   a year of half hours that come one by one, by days and at once
bench --limits   {MOST_BITMAPS} bitmaps; and {MOST_ROWS} rows, quiet, in both formats,
                 the library alone
bench --one CALL KIND ROWS BITMAPS REPEATS
                 one call so many times, nothing else timed
bench --one COLUMN-CALL COLUMN-KIND ROWS SLICES REPEATS
                 the same of two columns of so many slices each
bench --one APPEND KIND ROWS BATCH REPEATS
                 the same of a writer that takes so many rows at a time

CALL   check count body_count expand expand_bitmap compress and threshold
       symmetric histogram; body_nth nth (the last set row); body_row row
       wah_body_row wah_row (the last row);
       body_count_bitwise (body_count with the 32 bits of each dirty word
       tested one by one, proved to the same contract), count_ones (Rust's,
       over the plain words of bitmap 0); in WAH wah_threshold wah_check
       wah_count wah_body_count wah_expand wah_compress; to_wah to_ewah
       (the body of bitmap 0 rewritten, from the other format)
KIND   quiet (runs of 1,000 to 8,000 segments), calm (runs of 10 to 100
       segments, one to four mixed ones between them), dense (all mixed)

COLUMN-CALL  sum signed_difference smaller difference_or_zero (of two columns)
             value signed_value (of the first; signed, its top slice the sign)
             largest_10 largest_tenth smallest_10 smallest_tenth (of the first;
             ten of its rows, or a tenth of all)
APPEND       append (the last batch, behind all others), append_all (all of
             them, from an empty body on)
COLUMN-KIND  quiet, calm (values that stay as long as such runs, segments in
             which each row differs between them; some gaps in which no row
             exists), apart (each slice quiet by itself), dense (each row
             differs), halved (dense, and half of the rows exist)

T is {ENOUGH} for {TANKS} bitmaps, else half of them. The table of symmetric says yes at
1, 4, 7 and so on. Each figure is the best of several runs; `x` is the plain
program's time divided by the library's, so above 1 the library is faster. The
library checks the whole index in every call that takes one; plain programs
check nothing. Those beside `sum` and the other calls on two columns begin with
arrays of values (bit by bit, row by row, transposed) or plain words of slices
(bit-sliced), and leave existence out. The one beside `largest` and `smallest`
(select) begins with the plain words of a column, puts the value of each row
that exists together bit by bit, and selects by value and row; it writes no
body.
`bitwise` beside `body_count` is body_count_bitwise. --counting has Rust's
`count_ones` as the program is built, and built for popcnt, for avx2 and for
avx512 (vpopcntdq), each where the machine has it.

Instruction counts of one call (build with --release):
  valgrind --tool=callgrind --toggle-collect='*measured_call*' \\
      target/cargo/release/bench --one threshold calm 1000000 12 1
Making the input is then left out. Divide by REPEATS and by the rows, or for
append_all by the number of batches."
    );
    ExitCode::from(2)
}

fn main() -> ExitCode {
    let args: Vec<String> = std::env::args().skip(1).collect();
    let args: Vec<&str> = args.iter().map(String::as_str).collect();
    match args[..] {
        [] => {
            table(&ROWS, &BITMAPS);
            columns::table();
        }
        ["--quick"] => {
            table(&[QUICK_ROWS], &[QUICK_BITMAPS]);
            columns::table();
        }
        ["--limits"] => limits::table(),
        ["--columns"] => columns::table(),
        ["--counting"] => {
            if !counting::table() {
                return ExitCode::FAILURE;
            }
        }
        ["--wah"] => wah::table(),
        ["--append"] => append::table(),
        ["--one", call, kind, rows, of, repeats] => {
            let ones = [one, counting::one, rows::one, columns::one, wah::one, append::one];
            if ones.iter().all(|one| one(call, kind, rows, of, repeats).is_none()) {
                return help();
            }
        }
        _ => return help(),
    }
    ExitCode::SUCCESS
}

/// Room for any answer of these rows.
fn buffer(data: &Data) -> Vec<u32> {
    vec![0; zvonurel::most_body_words(data.rows)]
}

/// One call and nothing else, for a profiler.
fn one(call: &str, kind: &str, rows: &str, bitmaps: &str, repeats: &str) -> Option<()> {
    let call = Call::named(call)?;
    let (kind, rows, bitmaps, repeats) = inputs::arguments([kind, rows, bitmaps, repeats], 2)?;
    let data = Data::keeping(1, kind, rows, bitmaps);
    let mut out = buffer(&data);
    for _ in 0..repeats {
        let result = measured_call(call, &data, black_box(&mut out));
        black_box(result).expect("a sound question");
    }
    println!("{} {} rows {rows} bitmaps {bitmaps} words {}: {repeats} times", call.name(), kind.name(), data.words());
    Some(())
}

/// All calls on all inputs.
fn table(rows: &[u32], bitmaps: &[usize]) {
    let mut figures = Vec::new();
    println!("ns are per row; x is plain time / library time");
    for &rows in rows {
        for kind in Kind::ALL {
            for &bitmaps in bitmaps {
                let first = figures.iter().all(|f: &Figure| f.rows != rows || f.kind != kind);
                let data = Data::new(kind, rows, bitmaps);
                println!(
                    "\n{} input, {rows} rows, {bitmaps} bitmaps, {} words, {} stretches, T {}",
                    kind.name(),
                    data.words(),
                    data.stretches(),
                    data.t
                );
                for (call, _) in CALLS {
                    if first || !call.lone() {
                        figures.push(line(call, &data));
                    }
                }
            }
        }
    }
    growth(&figures);
}

/// Times one call and its plain programs, and prints the line.
fn line(call: Call, data: &Data) -> Figure {
    let mut out = buffer(data);
    let expected = plain_answer(call, data, &mut out);
    let seconds = best_seconds(|| {
        let result = measured_call(call, data, black_box(&mut out));
        black_box(result).expect("a sound question");
    });
    let per_row = |seconds: f64| seconds * 1e9 / f64::from(data.rows);
    let mut text = format!("  {:14}{:12.2} us {:10.5} ns", call.name(), seconds * 1e6, per_row(seconds));
    for (name, plain) in baselines(call) {
        let mut out = Plain::new(data.segments());
        let plain_seconds = best_seconds(|| plain(black_box(data), black_box(&mut out)));
        if let Some(expected) = &expected {
            assert!(*expected == out, "{name} disagrees with {}", call.name());
        }
        text += &format!(" | {name} {:.5} ns, x {:.2}", per_row(plain_seconds), plain_seconds / seconds);
    }
    println!("{text}");
    Figure {
        call,
        kind: data.kind,
        rows: data.rows,
        bitmaps: data.bitmaps,
        words: data.words(),
        stretches: data.stretches(),
        seconds,
    }
}
