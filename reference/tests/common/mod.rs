//! Small helpers of the tests.
#![allow(dead_code)]

use reference::limits::{ENTRY_WORDS, HEAD_WORDS, WORD_BITS};
use reference::Refusal;

pub mod bodies;
pub mod columns;

pub use reference::Format::{self, Ewah, Wah};

/// A refusal in short.
pub fn no(number: u32, bitmap: u32, word: u64) -> Refusal {
    Refusal { number, bitmap, word }
}

/// An index of these EWAH bodies, contents filled in.
pub fn index_of(rows: u32, bodies: &[&[u32]]) -> Vec<u32> {
    index_in(Ewah, rows, bodies)
}

/// The same in either format.
pub fn index_in(format: Format, rows: u32, bodies: &[&[u32]]) -> Vec<u32> {
    let kind = if format == Ewah { 1 } else { 2 };
    let mut words = vec![kind, rows, bodies.len() as u32];
    let mut start = (HEAD_WORDS + ENTRY_WORDS * bodies.len()) as u32;
    for body in bodies {
        words.extend([start, body.len() as u32]);
        start += body.len() as u32;
    }
    for body in bodies {
        words.extend_from_slice(body);
    }
    words
}

pub const LOOPED: [u32; 15] = [1, 4, 3, 9, 2, 11, 2, 13, 2, 0x0002_0000, 0x3, 0x0002_0000, 0xE, 0x0002_0000, 0x8];

/// The 96-row body with rows 5 and 64, settled, and a wasteful twin.
pub const FIVE_64: [u32; 4] = [0x0002_0000, 0x20, 0x0002_0002, 0x1];
pub const FIVE_64_WASTEFUL: [u32; 4] = [0x0006_0000, 0x20, 0, 1];

/// One bool a row as words of so many rows.
pub fn words_of(rows: &[bool], width: usize) -> Vec<u32> {
    let word = |rows: &[bool]| rows.iter().enumerate().map(|(bit, &set)| u32::from(set) << bit).sum();
    rows.chunks(width).map(word).collect()
}

pub fn plain(rows: &[bool]) -> Vec<u32> {
    words_of(rows, WORD_BITS)
}

/// Standard input for the program.
pub fn input(t: u32, index: &[u32]) -> Vec<u8> {
    let mut bytes = t.to_le_bytes().to_vec();
    for word in index {
        bytes.extend(word.to_le_bytes());
    }
    bytes
}

/// A small generator of numbers, the same on every run.
pub struct Dice(pub u64);

impl Dice {
    pub fn below(&mut self, n: u32) -> u32 {
        self.0 = self.0.wrapping_mul(6364136223846793005).wrapping_add(1442695040888963407);
        ((self.0 >> 33) % u64::from(n)) as u32
    }
}
