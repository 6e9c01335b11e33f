//! The plain programs beside the library: they work on plain words.

use zvonurel::{HISTOGRAM_COUNTS, MOST_NAMED, WORD_BITS};

use crate::inputs::{mask_last, Data};

/// What is done with the number of bitmaps that have a row.
#[derive(Clone, Copy)]
pub enum Ask {
    Threshold,
    Symmetric,
    Tally,
}

/// An answer in plain words, or the tally.
#[derive(Clone, PartialEq, Eq)]
pub struct Plain {
    pub words: Vec<u32>,
    pub tally: [u32; HISTOGRAM_COUNTS],
}

impl Plain {
    pub fn new(segments: usize) -> Plain {
        Plain { words: vec![0; segments], tally: [0; HISTOGRAM_COUNTS] }
    }
}

/// Yes or no for each number of bitmaps.
fn verdicts(data: &Data, ask: Ask) -> Vec<bool> {
    (0..=data.bitmaps)
        .map(|c| match ask {
            Ask::Threshold => c as u32 >= data.t,
            Ask::Symmetric => data.table[c] == 1,
            Ask::Tally => false,
        })
        .collect()
}

// ---- row by row ----

fn holders(data: &Data, row: usize) -> usize {
    let bit = |words: &[u32]| (words[row / WORD_BITS] >> (row % WORD_BITS)) & 1;
    data.plains().map(bit).sum::<u32>() as usize
}

/// The straightforward program: each row by itself.
pub fn row_by_row(data: &Data, ask: Ask, out: &mut Plain) {
    let verdicts = verdicts(data, ask);
    out.words.fill(0);
    out.tally.fill(0);
    for row in 0..data.rows as usize {
        let held = holders(data, row);
        let (at, bit) = (row / WORD_BITS, row % WORD_BITS);
        match ask {
            Ask::Threshold => out.words[at] |= u32::from(held >= data.t as usize) << bit,
            Ask::Symmetric => out.words[at] |= u32::from(verdicts[held]) << bit,
            Ask::Tally => out.tally[held] += 1,
        }
    }
}

// ---- a counter for each row of a segment ----

/// Large enough for the longest list.
type Counter = u16;
const _: () = assert!(MOST_NAMED <= Counter::MAX as usize);

/// Adds up each segment in small counters.
pub fn counters(data: &Data, ask: Ask, out: &mut Plain) {
    let verdicts = verdicts(data, ask);
    out.tally.fill(0);
    for at in 0..data.segments() {
        let mut held: [Counter; WORD_BITS] = [0; WORD_BITS];
        for words in data.plains() {
            let word = words[at];
            for (bit, counter) in held.iter_mut().enumerate() {
                *counter += ((word >> bit) & 1) as Counter;
            }
        }
        let used = (data.rows as usize - WORD_BITS * at).min(WORD_BITS);
        let held = &held[..used];
        match ask {
            Ask::Tally => held.iter().for_each(|&c| out.tally[c as usize] += 1),
            Ask::Threshold => out.words[at] = collect(held, |c| u32::from(c) >= data.t),
            Ask::Symmetric => out.words[at] = collect(held, |c| verdicts[c as usize]),
        }
    }
}

fn collect(held: &[Counter], yes: impl Fn(Counter) -> bool) -> u32 {
    let bits = held.iter().enumerate();
    bits.fold(0, |word, (bit, &c)| word | u32::from(yes(c)) << bit)
}

// ---- bit-sliced ----

/// Segments worked on at once.
const LANES: usize = 8;

type Lanes = [u32; LANES];

/// Binary digits of a number.
const fn digits(n: usize) -> usize {
    (usize::BITS - n.leading_zeros()) as usize
}

/// Binary digits that are always enough.
const MOST_DIGITS: usize = digits(MOST_NAMED);

/// The numbers of all rows of a block, one slice for each binary digit.
fn slices(data: &Data, at: usize, digits: usize) -> [Lanes; MOST_DIGITS] {
    let mut all = [[0; LANES]; MOST_DIGITS];
    let sum = &mut all[..digits];
    let mut k = 0;
    while k + 8 <= data.bitmaps {
        add_eight(sum, std::array::from_fn(|more| block(data, k + more, at)));
        k += 8;
    }
    while k < data.bitmaps {
        add_one(sum, block(data, k, at));
        k += 1;
    }
    all
}

/// A bitmap's next words, zeros past its end.
fn block(data: &Data, k: usize, at: usize) -> Lanes {
    let words = &data.plain(k)[at..];
    match words.first_chunk() {
        Some(whole) => *whole,
        None => std::array::from_fn(|lane| words.get(lane).copied().unwrap_or(0)),
    }
}

/// A half adder for each digit.
fn add_one(sum: &mut [Lanes], mut carry: Lanes) {
    for slice in sum {
        for lane in 0..LANES {
            let both = slice[lane] & carry[lane];
            slice[lane] ^= carry[lane];
            carry[lane] = both;
        }
    }
}

/// A full adder: the low digit stays in `sum`, the high one is returned.
fn full_add(sum: &mut Lanes, a: Lanes, b: Lanes) -> Lanes {
    std::array::from_fn(|lane| {
        let odd = sum[lane] ^ a[lane];
        let carry = (sum[lane] & a[lane]) | (odd & b[lane]);
        sum[lane] = odd ^ b[lane];
        carry
    })
}

/// Eight bitmaps at once, carry-save; only their eights go on digit by digit.
fn add_eight(sum: &mut [Lanes], words: [Lanes; 8]) {
    let first = full_add(&mut sum[0], words[0], words[1]);
    let second = full_add(&mut sum[0], words[2], words[3]);
    let low = full_add(&mut sum[1], first, second);
    let third = full_add(&mut sum[0], words[4], words[5]);
    let fourth = full_add(&mut sum[0], words[6], words[7]);
    let high = full_add(&mut sum[1], third, fourth);
    let eights = full_add(&mut sum[2], low, high);
    add_one(&mut sum[3..], eights);
}

/// At least `t`: the carry out of the sum with 2^digits - t.
fn at_least(sum: &[Lanes], t: u32) -> Lanes {
    let other = (1u32 << sum.len()) - t;
    let mut carry = [0; LANES];
    for (digit, slice) in sum.iter().enumerate() {
        for lane in 0..LANES {
            carry[lane] = match (other >> digit) & 1 {
                1 => slice[lane] | carry[lane],
                _ => slice[lane] & carry[lane],
            };
        }
    }
    carry
}

/// Exactly `c`.
fn exactly(sum: &[Lanes], c: usize) -> Lanes {
    let mut same = [u32::MAX; LANES];
    for (digit, slice) in sum.iter().enumerate() {
        let flip = if (c >> digit) & 1 == 1 { 0 } else { u32::MAX };
        for lane in 0..LANES {
            same[lane] &= slice[lane] ^ flip;
        }
    }
    same
}

/// Binary counters, all bits of eight segments at once.
pub fn bit_sliced(data: &Data, ask: Ask, out: &mut Plain) {
    let verdicts = verdicts(data, ask);
    let digits = digits(data.bitmaps);
    let segments = data.segments();
    out.tally.fill(0);
    for at in (0..segments).step_by(LANES) {
        let all = slices(data, at, digits);
        let sum = &all[..digits];
        let answer = match ask {
            Ask::Threshold => at_least(sum, data.t),
            Ask::Symmetric => chosen(sum, &verdicts),
            Ask::Tally => {
                add_up(sum, data.bitmaps, &mut out.tally);
                continue;
            }
        };
        let taken = LANES.min(segments - at);
        out.words[at..at + taken].copy_from_slice(&answer[..taken]);
    }
    remove_pads(data, out);
}

fn chosen(sum: &[Lanes], verdicts: &[bool]) -> Lanes {
    let mut word = [0; LANES];
    for c in (0..verdicts.len()).filter(|&c| verdicts[c]) {
        let same = exactly(sum, c);
        for lane in 0..LANES {
            word[lane] |= same[lane];
        }
    }
    word
}

fn add_up(sum: &[Lanes], most: usize, tally: &mut [u32; HISTOGRAM_COUNTS]) {
    for (c, rows) in tally.iter_mut().enumerate().take(most + 1) {
        let same = exactly(sum, c);
        *rows += same.iter().map(|word| word.count_ones()).sum::<u32>();
    }
}

/// Rows past the last one have number 0: they leave the answer and the tally.
fn remove_pads(data: &Data, out: &mut Plain) {
    let past = data.segments().next_multiple_of(LANES) * WORD_BITS - data.rows as usize;
    out.tally[0] = out.tally[0].saturating_sub(past as u32);
    mask_last(&mut out.words, data.rows);
}
