//! Makes indexes of columns, some with strays: rows of a slice that do not exist in its column.

use reference::limits::MOST_SUMMED;
use zvonurel::{Format, MOST_BITMAPS};

use crate::encode::{joined, FORMATS};
use crate::generate::{end_somehow, finish, some_grid, some_word, spelled};
use crate::generate::{Effort, Form, Input, Make, Style, DIRTIES, LONG_ROWS, RUNS};
use crate::random::Random;

/// An index, and two lists that name columns of it.
pub struct Columns {
    pub input: Input,
    pub first: Vec<u32>,
    pub second: Vec<u32>,
}

/// One index in so many has columns of few numbers.
const FEW_IN: usize = 3;

/// Segments of a column's bitmaps: existence first, then the slices. Bits past their width don't count, nor pad bits.
type Column = Vec<Vec<u32>>;

#[derive(Clone, Copy)]
enum Kind {
    Clean,
    Mixed,
    /// Each segment lacks one row, so that many mixed ones follow each other.
    OneOut,
}

/// Segments in which the bitmaps of an index are alike in kind, so that all of them can be clean at once.
struct Stretch {
    length: usize,
    kind: Kind,
}

struct Shape {
    format: Format,
    /// That in whose segments the bitmaps are laid out.
    grid: Format,
    rows: u32,
    stretches: Vec<Stretch>,
    /// Some bitmaps do not keep to the stretches.
    loose: bool,
    /// Slices of the two columns.
    widths: [usize; 2],
    effort: Effort,
}

impl Shape {
    fn segment_rows(&self) -> usize {
        self.grid.segment_rows()
    }
}

pub fn generate(random: &mut Random, long: bool) -> Columns {
    let format = random.pick(&FORMATS);
    let few = random.one_in(FEW_IN);
    let shape = match long {
        true => tall(format, random),
        false if random.one_in(if few { 40 } else { 400 }) => at_a_limit(format, random),
        false => ordinary(format, random),
    };
    let [mut first, mut second] = [0, 1].map(|which| match few {
        true => few_numbers(&shape, which, random),
        false => some_column(&shape, which, random),
    });
    if !few {
        relate(&mut first, &mut second, &shape, random);
    }
    if random.below(5) < 2 {
        let whose = random.below(3);
        if whose != 1 {
            put_strays(&mut first, &shape, random);
        }
        if whose != 0 {
            put_strays(&mut second, &shape, random);
        }
    }
    numbered(&shape, first, second, random)
}

// ---- shapes ----

/// Most slices of a column that something is made of with another.
const MOST_SLICES: usize = MOST_SUMMED - 1;

fn some_width(random: &mut Random) -> usize {
    match random.below(10) {
        0..=2 => 1,
        3..=6 => random.between(2, 5),
        7 => random.between(6, 20),
        8 => 16,
        _ => random.pick(&[MOST_SLICES - 1, MOST_SLICES]),
    }
}

/// Two widths, often equal.
fn some_widths(random: &mut Random) -> [usize; 2] {
    let first = some_width(random);
    let second = if random.one_in(3) { first } else { some_width(random) };
    [first, second]
}

// The widest two columns fit one index.
const _: () = assert!(2 * MOST_SUMMED <= MOST_BITMAPS as usize);

/// Few segments where there are many bitmaps.
fn ordinary(format: Format, random: &mut Random) -> Shape {
    let grid = some_grid(format, random);
    let widths = some_widths(random);
    let bitmaps = 2 + widths[0] + widths[1];
    let most = random.pick(&[30, 100, 300, 600, 1_500]) / bitmaps;
    let count = if random.one_in(20) { 0 } else { random.between(1, 1 + most) };
    let pads = random.below(grid.segment_rows());
    let rows = (grid.segment_rows() * count).saturating_sub(random.pick(&[0, pads])) as u32;
    let effort = match bitmaps * count {
        0..=150 => Effort::Full,
        _ => Effort::Some,
    };
    let stretches = some_stretches(count, random);
    Shape { format, grid, rows, stretches, loose: random.one_in(3), widths, effort }
}

/// Stretches up to 40 segments long, so that they begin and end at any place of a block of 16.
fn some_stretches(count: usize, random: &mut Random) -> Vec<Stretch> {
    let longest = random.pick(&[1, 4, 17, 40, 40]);
    let clean_share = random.between(0, 4);
    let mut stretches = Vec::new();
    let mut left = count;
    while left > 0 {
        let length = random.between(1, longest).min(left);
        let kind = if random.below(4) < clean_share { Kind::Clean } else { Kind::Mixed };
        stretches.push(Stretch { length, kind });
        left -= length;
    }
    stretches
}

/// A stretch about as long as a marker's counts allow, between short ones.
fn at_a_limit(format: Format, random: &mut Random) -> Shape {
    let long = match random.one_in(2) {
        true => Stretch { length: random.pick(&RUNS), kind: Kind::Clean },
        false => Stretch { length: random.pick(&DIRTIES), kind: Kind::OneOut },
    };
    let before = random.below(4);
    let mut stretches = some_stretches(before, random);
    stretches.push(long);
    let after = random.below(4);
    stretches.extend(some_stretches(after, random));
    let count: usize = stretches.iter().map(|stretch| stretch.length).sum();
    let rows = (format.segment_rows() * count - random.below(format.segment_rows())) as u32;
    let widths = [random.between(1, 2), random.between(1, 2)];
    Shape { format, grid: format, rows, stretches, loose: false, widths, effort: Effort::Few }
}

/// Columns as wide as they can be, over many rows.
fn tall(format: Format, random: &mut Random) -> Shape {
    let rows = random.between(LONG_ROWS.0, LONG_ROWS.1) as u32;
    let widths = [MOST_SLICES, MOST_SLICES];
    let stretches = some_stretches(format.segments(rows), random);
    Shape { format, grid: format, rows, stretches, loose: random.one_in(3), widths, effort: Effort::Few }
}

// ---- bitmaps ----

/// Segments that keep to the stretches, or have stretches of their own.
fn laid(shape: &Shape, random: &mut Random) -> Vec<u32> {
    if shape.loose && random.one_in(2) {
        return spelled(shape.rows, shape.grid, random);
    }
    let mut words = Vec::new();
    for stretch in &shape.stretches {
        match stretch.kind {
            Kind::Mixed if !random.one_in(4) => words.extend((0..stretch.length).map(|_| some_word(random))),
            Kind::OneOut => words.extend((0..stretch.length).map(|_| !(1 << random.below(shape.segment_rows())))),
            _ => words.extend(std::iter::repeat_n(random.pick(&[0, u32::MAX]), stretch.length)),
        }
    }
    end_somehow(&mut words, random);
    words
}

/// All rows or none.
fn uniform(shape: &Shape, value: u32) -> Vec<u32> {
    vec![value; shape.grid.segments(shape.rows)]
}

fn keep(words: &mut [u32], only: &[u32]) {
    words.iter_mut().zip(only).for_each(|(word, mask)| *word &= mask);
}

fn either(mut words: Vec<u32>, other: &[u32]) -> Vec<u32> {
    words.iter_mut().zip(other).for_each(|(word, more)| *word |= more);
    words
}

/// A column without strays. Few have no rows; a third have all.
fn some_column(shape: &Shape, which: usize, random: &mut Random) -> Column {
    let exists = match random.below(12) {
        0 => uniform(shape, 0),
        1..=4 => uniform(shape, u32::MAX),
        5..=8 => either(laid(shape, random), &laid(shape, random)),
        _ => laid(shape, random),
    };
    let mut column = vec![exists.clone()];
    for _ in 0..shape.widths[which] {
        let mut slice = match random.below(10) {
            0 => uniform(shape, 0),
            1 => exists.clone(),
            _ => laid(shape, random),
        };
        keep(&mut slice, &exists);
        column.push(slice);
    }
    column
}

/// A column of three numbers at most, so that many rows are equal: in whole stretches, or in turns with another number.
/// Half have all rows, few have none.
fn few_numbers(shape: &Shape, which: usize, random: &mut Random) -> Column {
    let digits = shape.widths[which];
    let numbers = [0; 3].map(|_| some_number(digits, random));
    let missing_share = random.pick(&[0, 0, 0, 1, 2, 4]);
    let mut column = vec![Vec::new(); 1 + digits];
    for stretch in &shape.stretches {
        let (number, other) = (random.pick(&numbers), random.pick(&numbers));
        let whole = if random.below(4) < missing_share { 0 } else { u32::MAX };
        for _ in 0..stretch.length {
            let (exists, in_turns) = match stretch.kind {
                Kind::Clean => (whole, u32::MAX),
                Kind::Mixed if random.one_in(2) => (whole, some_word(random)),
                Kind::Mixed => (whole & some_word(random), some_word(random)),
                Kind::OneOut => (whole, !(1 << random.below(shape.segment_rows()))),
            };
            column[0].push(exists);
            for (place, slice) in column[1..].iter_mut().enumerate() {
                let digit = |number: u32| 0u32.wrapping_sub(number >> place & 1);
                slice.push(exists & (digit(number) & in_turns | digit(other) & !in_turns));
            }
        }
    }
    column
}

/// Any number of so many digits, or the least or the greatest, or such that differ in their ends alone.
fn some_number(digits: usize, random: &mut Random) -> u32 {
    let greatest = u32::MAX >> (MOST_SLICES - digits);
    let top = greatest ^ greatest >> 1;
    let any = random.word() & greatest;
    random.pick(&[0, 1, top, greatest, greatest - 1, greatest ^ top, any])
}

/// Sometimes the columns exist in no row together, or in the same; sometimes their sums carry far, or their differences
/// borrow from far, or are small, or as large as there are.
fn relate(first: &mut Column, second: &mut Column, shape: &Shape, random: &mut Random) {
    match random.below(12) {
        0 => second[0] = first[0].iter().map(|word| !word).collect(),
        1..=4 => second[0] = first[0].clone(),
        _ => {}
    }
    match random.below(10) {
        0 | 1 => carry_through(first, second),
        2 => {
            all_ones(first);
            all_ones(second);
        }
        3 => borrow_through(first, second, &laid(shape, random)),
        4 => opposite_ends(first, second, &laid(shape, random)),
        5 | 6 => nearly_equal(first, second, shape, random),
        _ => {}
    }
    if random.one_in(2) {
        let at = random.between(1, second.len() - 1);
        second[at] = laid(shape, random);
    }
    mask_slices(first);
    mask_slices(second);
}

/// The largest number in every row that exists.
fn all_ones(column: &mut Column) {
    let exists = column[0].clone();
    column[1..].fill(exists);
}

fn mask_slices(column: &mut Column) {
    let exists = column[0].clone();
    column[1..].iter_mut().for_each(|slice| keep(slice, &exists));
}

/// Both lowest digits are 1, and of any higher two just one: where both columns exist, a carry goes all the way up.
fn carry_through(first: &mut Column, second: &mut Column) {
    first[1] = first[0].clone();
    second[1] = second[0].clone();
    for at in 2..first.len().max(second.len()) {
        match (first.get(at).cloned(), second.get_mut(at)) {
            (Some(digit), Some(other)) => *other = digit.iter().map(|word| !word).collect(),
            (None, Some(other)) => other.fill(u32::MAX),
            (_, None) => first[at].fill(u32::MAX),
        }
    }
    mask_slices(first);
    mask_slices(second);
}

/// The lowest digits are 0 and 1, and higher ones equal where both columns have them: a borrow goes up to the top digit
/// of a first column that is wider, or past it.
fn borrow_through(first: &mut Column, second: &mut Column, top: &[u32]) {
    let narrower = first.len().min(second.len());
    first[1].fill(0);
    second[1].fill(u32::MAX);
    second[2..narrower].clone_from_slice(&first[2..narrower]);
    if let [between @ .., last] = &mut first[narrower..] {
        between.iter_mut().for_each(|digit| digit.fill(0));
        last.copy_from_slice(top);
    }
}

/// In each row the largest number in one column and 0 in the other.
fn opposite_ends(first: &mut Column, second: &mut Column, in_first: &[u32]) {
    first[1..].fill(in_first.to_vec());
    second[1..].fill(in_first.iter().map(|word| !word).collect());
}

/// Numbers that are equal or one apart, in some stretches the first being more, in others the second.
fn nearly_equal(first: &mut Column, second: &mut Column, shape: &Shape, random: &mut Random) {
    let narrower = first.len().min(second.len());
    first[narrower..].iter_mut().chain(&mut second[narrower..]).for_each(|digit| digit.fill(0));
    let mut carry = match random.below(3) {
        0 => uniform(shape, 0),
        1 => uniform(shape, u32::MAX),
        _ => laid(shape, random),
    };
    let turned = laid(shape, random);
    for at in 1..narrower {
        for segment in 0..carry.len() {
            let digit = first[at][segment];
            let differ = carry[segment];
            carry[segment] &= digit;
            first[at][segment] = digit ^ (differ & turned[segment]);
            second[at][segment] = digit ^ (differ & !turned[segment]);
        }
    }
}

// ---- strays ----

/// Rows that do not exist: one or several, in one slice or in several.
fn put_strays(column: &mut Column, shape: &Shape, random: &mut Random) {
    let (rows, last) = (shape.rows as usize, column.len() - 1);
    if rows == 0 {
        return;
    }
    let slice = random.between(1, last);
    match random.below(6) {
        // In the last segment, the one with pads.
        0 => put_rows(column, shape, &[(rows - 1, slice)]),
        1 => {
            // A lower row in a later slice, or in the same where there is just one.
            let (low, high) = (random.below(rows), random.below(rows));
            let later = random.between(slice, last);
            put_rows(column, shape, &[(low.max(high), slice), (low.min(high), later)]);
        }
        2 => {
            let start = random.below(rows);
            let end = rows.min(start + random.between(1, 4 * shape.segment_rows()));
            put_rows(column, shape, &(start..end).map(|row| (row, slice)).collect::<Vec<_>>());
        }
        3..=4 => put_stretch(column, slice, shape, random),
        _ => {
            let count = random.between(1, 4);
            let put: Vec<_> = (0..count).map(|_| (random.below(rows), random.between(1, last))).collect();
            put_rows(column, shape, &put);
        }
    }
}

/// Takes the rows out of the whole column, then puts each into a slice.
fn put_rows(column: &mut Column, shape: &Shape, put: &[(usize, usize)]) {
    let bit_of = |row: usize| (row / shape.segment_rows(), 1 << (row % shape.segment_rows()));
    for &(row, _) in put {
        let (at, bit) = bit_of(row);
        column.iter_mut().for_each(|words| words[at] &= !bit);
    }
    for &(row, slice) in put {
        let (at, bit) = bit_of(row);
        column[slice][at] |= bit;
    }
}

/// A whole stretch of rows in a slice where the column has none: all of it is clean.
fn put_stretch(column: &mut Column, slice: usize, shape: &Shape, random: &mut Random) {
    let some = [0; 3].map(|_| random.below(shape.stretches.len()));
    let which = some.into_iter().max_by_key(|&at| shape.stretches[at].length).expect("three of them");
    let start: usize = shape.stretches[..which].iter().map(|stretch| stretch.length).sum();
    let end = start + shape.stretches[which].length;
    column.iter_mut().for_each(|words| words[start..end].fill(0));
    column[slice][start..end].fill(u32::MAX);
}

// ---- numbers ----

/// The bitmaps in any order, with others between them, and the two lists.
fn numbered(shape: &Shape, first: Column, second: Column, random: &mut Random) -> Columns {
    let width = first.len();
    let mut all = first;
    all.extend(second);
    while all.len() < MOST_BITMAPS as usize && random.one_in(3) {
        all.push(laid(shape, random));
    }
    let order = shuffled(all.len(), random);
    let mut plain = vec![Vec::new(); all.len()];
    for (words, &number) in all.into_iter().zip(&order) {
        plain[number as usize] = joined(&words, shape.rows, shape.grid);
    }
    let mut lists = [order[..width].to_vec(), order[width..width + 1 + shape.widths[1]].to_vec()];
    share(&mut lists, &plain, random);
    let style = random.pick(&[Style::Settled, Style::Settled, Style::Wasteful, Style::Wasteful, Style::Torn]);
    let make = Make { form: Form::Index, format: shape.format, style, effort: shape.effort };
    let input = finish(random, make, shape.rows, plain);
    let [first, second] = lists;
    Columns { input, first, second }
}

/// The numbers below `n`, in any order.
fn shuffled(n: usize, random: &mut Random) -> Vec<u32> {
    let mut numbers: Vec<u32> = (0..n as u32).collect();
    for at in (1..n).rev() {
        numbers.swap(at, random.below(at + 1));
    }
    numbers
}

/// Lists that name a bitmap twice: in one column, as existence and slice, or in both columns.
fn share(lists: &mut [Vec<u32>; 2], plain: &[Vec<u32>], random: &mut Random) {
    for list in lists.iter_mut() {
        if random.one_in(4) {
            let any = random.below(list.len());
            let from = random.pick(&[0, any]);
            let to = random.between(1, list.len() - 1);
            list[to] = list[from];
        }
    }
    let [first, second] = lists;
    match random.below(10) {
        0 => *second = first.clone(),
        1 => *second = first[..random.between(2, first.len())].to_vec(),
        2 if plain[first[0] as usize] == plain[second[0] as usize] => second[0] = first[0],
        _ => {}
    }
}
