//! The small program: T and an index in, lines of text out.

use crate::index::open;
use crate::limits::{PROGRAM_BYTES, PROGRAM_ROOM, WORD_BYTES};
use crate::questions::threshold_rows;
use crate::refusal::{refusal, Refusal};

/// Everything the program prints for this standard input.
pub fn program(input: &[u8]) -> Vec<u8> {
    let text = match lines(input) {
        Ok(text) => text,
        Err(r) => format!("refused {} {} {}\n", r.number, r.bitmap, r.word),
    };
    text.into_bytes()
}

fn lines(input: &[u8]) -> Result<String, Refusal> {
    if input.len() > PROGRAM_BYTES {
        return Err(refusal(3, 0, 0));
    }
    if input.len() < WORD_BYTES || !input.len().is_multiple_of(WORD_BYTES) {
        return Err(refusal(1, 0, 0));
    }
    let word = |b: &[u8]| u32::from_le_bytes(b.try_into().expect("the bytes of a word"));
    let words: Vec<u32> = input.chunks_exact(WORD_BYTES).map(word).collect();
    let (t, index) = (words[0], &words[1..]);

    let opened = open(index)?;
    let list: Vec<u32> = (0..opened.bitmaps()).collect();
    let (_, rows) = threshold_rows(index, &list, t, PROGRAM_ROOM)?;

    let mut text = String::new();
    let mut line = |part: &str| {
        text.push_str(part);
        text.push('\n');
    };
    line(&format!("rows {}", opened.rows));
    line(&format!("named {}", list.len()));
    line(&format!("threshold {t}"));
    line(&format!("set {}", rows.count()));
    for r in rows.set().flatten() {
        line(&r.to_string());
    }
    Ok(text)
}
