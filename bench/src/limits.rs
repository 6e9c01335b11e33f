//! As many bitmaps as an index can have, and as many rows. Of so many rows the plain words of all bitmaps would fill
//! the memory, so no plain program is timed beside them.

use std::hint::black_box;

use zvonurel::{Format, Refusal, MOST_BITMAPS, MOST_ROWS};

use crate::inputs::{Data, Kind, TANKS};
use crate::rows::index_in;
use crate::timing::best_seconds;

/// The rows of the most bitmaps.
const ROWS: u32 = 1_000_000;

/// A call on an index, by its name.
type Call = (&'static str, fn(&[u32], &Data, &mut [u32]) -> Result<u64, Refusal>);

const CALLS: [Call; 8] = [
    ("check", |index, _, _| zvonurel::check(index).map(|()| 0)),
    ("count", |index, _, _| zvonurel::count(index, 0).map(u64::from)),
    ("row", |index, data, _| zvonurel::row(index, 0, data.rows - 1).map(|row| row.first.into())),
    ("expand_bitmap", |index, _, out| zvonurel::expand_bitmap(index, 0, out).map(|words| words as u64)),
    ("and", |index, _, out| zvonurel::and(index, 0, 1, out).map(|words| words as u64)),
    ("threshold", |index, data, out| zvonurel::threshold(index, &data.list, data.t, out).map(|a| a.words as u64)),
    ("symmetric", |index, data, out| zvonurel::symmetric(index, &data.list, &data.table, out).map(|a| a.words as u64)),
    ("histogram", |index, data, _| zvonurel::histogram(index, &data.list).map(|counts| counts[1].into())),
];

pub fn table() {
    crate::table(&[ROWS], &[MOST_BITMAPS as usize]);
    for bitmaps in [TANKS, MOST_BITMAPS as usize] {
        let data = Data::keeping(0, Kind::Quiet, MOST_ROWS, bitmaps);
        for format in [Format::Ewah, Format::Wah] {
            lines(&index_in(format, &data), format, &data);
        }
    }
}

/// Times each call on this index, in all and for each of its words.
fn lines(index: &[u32], format: Format, data: &Data) {
    println!("\n{format:?}, quiet input, {MOST_ROWS} rows, {} bitmaps, {} words", data.bitmaps, index.len());
    let mut out = vec![0; format.most_body_words(data.rows)];
    for (name, call) in CALLS {
        let seconds = best_seconds(|| {
            let told = call(black_box(index), data, black_box(&mut out));
            black_box(told).expect("a sound question");
        });
        let per_word = seconds * 1e9 / index.len() as f64;
        println!("  {name:14}{:12.2} us {per_word:10.3} ns a word of the index", seconds * 1e6);
    }
}
