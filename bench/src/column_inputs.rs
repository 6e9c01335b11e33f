//! The inputs of questions on columns: two columns, the same values in every run.

use zvonurel::{segments, IndexBuilder, WORD_BITS};

use crate::inputs::{bitmap, run_and_mixed, Kind, Random};

#[derive(Debug, Clone, Copy, PartialEq, Eq)]
pub enum Shape {
    /// Values that stay for thousands of segments, one in which each row differs between them now and then.
    Quiet,
    /// Each slice is quiet by itself, so that wherever one goes on another changes.
    Apart,
    /// Values that stay for 10 to 100 segments, one to four in which each row differs between them.
    Calm,
    /// Every segment of every slice mixed; every row exists.
    Dense,
    /// The same, but half of the rows exist, and every segment of existence is mixed too.
    Halved,
}

impl Shape {
    pub const ALL: [Shape; 5] = [Shape::Quiet, Shape::Apart, Shape::Calm, Shape::Dense, Shape::Halved];

    pub fn name(self) -> &'static str {
        match self {
            Shape::Quiet => "quiet",
            Shape::Apart => "apart",
            Shape::Calm => "calm",
            Shape::Dense => "dense",
            Shape::Halved => "halved",
        }
    }
}

/// How many rows are asked for their value.
const ASKED: usize = 16;

/// Two columns of one index.
pub struct Columns {
    pub rows: u32,
    pub slices: usize,
    /// The values of both columns, row by row, 0 where a row does not exist.
    pub values: [Vec<u32>; 2],
    pub index: Vec<u32>,
    /// What names the columns.
    pub lists: [Vec<u32>; 2],
    /// The plain words of their bitmaps, one bitmap behind the other, existence first.
    plain: [Vec<u32>; 2],
    /// Rows that exist in the first column, in no order.
    pub asked: Vec<u32>,
    /// How many rows exist in the first column.
    pub existing: u32,
}

impl Columns {
    pub fn new(shape: Shape, rows: u32, slices: usize) -> Columns {
        let made = [2_000, 3_000].map(|seed| column(shape, rows, slices, seed));
        let mut builder = IndexBuilder::new(rows);
        let mut add = |values: &[Option<u32>]| builder.add_column(values, slices).expect("values of so many slices");
        let lists = [add(&made[0]), add(&made[1])];
        let index = builder.build().expect("no more bitmaps than an index can have");
        Columns {
            rows,
            slices,
            plain: [plain_words(&index, &lists[0], rows), plain_words(&index, &lists[1], rows)],
            asked: existing(&made[0]),
            existing: made[0].iter().flatten().count() as u32,
            values: made.map(|values| values.into_iter().map(Option::unwrap_or_default).collect()),
            index,
            lists,
        }
    }

    pub fn segments(&self) -> usize {
        segments(self.rows)
    }

    /// The plain words of a bitmap of a column: 0 is existence, i + 1 is slice i.
    pub fn plain(&self, column: usize, i: usize) -> &[u32] {
        &self.plain[column][i * self.segments()..][..self.segments()]
    }
}

/// The plain words of a column's bitmaps.
pub fn plain_words(index: &[u32], list: &[u32], rows: u32) -> Vec<u32> {
    let mut words = vec![0; list.len() * segments(rows)];
    for (k, plain) in list.iter().zip(words.chunks_exact_mut(segments(rows))) {
        zvonurel::expand_bitmap(index, *k, plain).expect("a bitmap of the index");
    }
    words
}

/// Rows that exist.
fn existing(values: &[Option<u32>]) -> Vec<u32> {
    let mut random = Random(4_000);
    let rows = std::iter::repeat_with(|| random.between(0, values.len() as u64 - 1));
    rows.filter(|row| values[*row].is_some()).take(ASKED).map(|row| row as u32).collect()
}

/// The values of one column.
fn column(shape: Shape, rows: u32, slices: usize, seed: u64) -> Vec<Option<u32>> {
    let mut random = Random(seed);
    let values = match shape {
        Shape::Quiet => staying(&mut random, Kind::Quiet, rows, slices),
        Shape::Apart => of_slices(rows, slices, seed),
        Shape::Calm => staying(&mut random, Kind::Calm, rows, slices),
        Shape::Dense | Shape::Halved => staying(&mut random, Kind::Dense, rows, slices),
    };
    match shape {
        Shape::Quiet | Shape::Apart => with_gaps(&mut random, values, [5_000, 1_000]),
        Shape::Calm => with_gaps(&mut random, values, [500, 100]),
        Shape::Dense => values.into_iter().map(Some).collect(),
        Shape::Halved => halved(&mut random, values),
    }
}

/// Values that stay, and mixed segments between them.
fn staying(random: &mut Random, kind: Kind, rows: u32, slices: usize) -> Vec<u32> {
    let most = u32::MAX >> (u32::BITS as usize - slices);
    let rows = rows as usize;
    let mut values = Vec::with_capacity(rows);
    while values.len() < rows {
        let (run, mixed) = run_and_mixed(kind, random, rows.div_ceil(WORD_BITS));
        let value = random.next() as u32 & most;
        let run = (WORD_BITS * run).min(rows - values.len());
        values.extend(std::iter::repeat_n(value, run));
        let mixed = (WORD_BITS * mixed).min(rows - values.len());
        values.extend((0..mixed).map(|row| match row % WORD_BITS {
            // so that no slice has a clean segment
            0 => most,
            1 => 0,
            _ => random.next() as u32 & most,
        }));
    }
    values
}

/// The values whose slices are quiet bitmaps.
fn of_slices(rows: u32, slices: usize, seed: u64) -> Vec<u32> {
    let mut values = vec![0; rows as usize];
    for i in 0..slices {
        let words = bitmap(Kind::Quiet, rows, seed + 1 + i as u64);
        for (row, value) in values.iter_mut().enumerate() {
            *value |= (words[row / WORD_BITS] >> (row % WORD_BITS) & 1) << i;
        }
    }
    values
}

/// All rows exist but for gaps: `apart` to three times as many segments lie between two, a tenth of `long` to `long` in
/// each. They begin and end at any row.
fn with_gaps(random: &mut Random, values: Vec<u32>, [apart, long]: [u64; 2]) -> Vec<Option<u32>> {
    let rows = |segments: u64| segments * WORD_BITS as u64;
    let mut values: Vec<Option<u32>> = values.into_iter().map(Some).collect();
    let mut at = random.between(rows(apart), rows(3 * apart));
    while at < values.len() {
        let end = values.len().min(at + random.between(rows(long / 10), rows(long)));
        values[at..end].fill(None);
        at = end + random.between(rows(apart), rows(3 * apart));
    }
    values
}

/// Half of the rows exist.
fn halved(random: &mut Random, values: Vec<u32>) -> Vec<Option<u32>> {
    let mut exist = 0;
    let both = values.into_iter().enumerate().map(|(row, value)| {
        if row % WORD_BITS == 0 {
            exist = random.mixed();
        }
        (exist >> (row % WORD_BITS) & 1 == 1).then_some(value)
    });
    both.collect()
}
