//! Rewriting bodies and indexes: the same rows, settled, in either format.

use crate::body::{check_body, read, settled, Body};
use crate::format::Format;
use crate::index::{open, open_contents, Bodies, Index};
use crate::mistakes::{mistaken, Mistake};
use crate::refusal::{must_fit, Refusal};
use crate::spans::Spans;

/// A lone body of the format `from`, rewritten in the format `to`.
pub fn rewrite(body: &[u32], rows: u32, from: Format, to: Format, room: usize) -> Result<Vec<u32>, Refusal> {
    check_body(body, rows, from)?;
    fitting(body, rewritten(body, &read(body, rows, from), to), room)
}

/// Bitmap `k` of an index, rewritten.
pub fn rewrite_bitmap(index: &[u32], k: u32, to: Format, room: usize) -> Result<Vec<u32>, Refusal> {
    let opened = open_for(index, k)?;
    let words = &index[opened.part(k)?];
    fitting(words, rewritten(words, &opened.body(k)?, to), room)
}

/// A whole index, rewritten.
pub fn rewrite_index(index: &[u32], to: Format, room: usize) -> Result<Vec<u32>, Refusal> {
    let opened = open(index)?;
    let mut bodies = Bodies::within(room, Mistake::RewriteByBufferAlone, Mistake::RewriteNeedsBodiesOnly);
    for k in 0..opened.bitmaps() {
        bodies.push(&rewritten(&index[opened.part(k)?], &opened.body(k)?, to));
    }
    let told = if mistaken(Mistake::RewrittenKindKept) { opened.format } else { to };
    let front = bodies.front();
    let mut words = bodies.write(told, opened.rows)?;
    if mistaken(Mistake::RewrittenContentsKept) {
        words[1..front].copy_from_slice(&index[1..front]);
    }
    Ok(words)
}

/// The whole index is checked, but for a mistake.
fn open_for(index: &[u32], k: u32) -> Result<Index<'_>, Refusal> {
    if !mistaken(Mistake::RewriteChecksOwnBody) {
        return open(index);
    }
    let opened = open_contents(index)?;
    opened.check_part(k)?;
    Ok(opened)
}

/// Refusal 9 goes by the words written; by the words read, for a mistake.
fn fitting(read: &[u32], written: Vec<u32>, room: usize) -> Result<Vec<u32>, Refusal> {
    if mistaken(Mistake::RewriteRoomByOld) {
        must_fit(read.len(), room)?;
    }
    must_fit(written.len(), room)?;
    Ok(written)
}

/// The settled body of a body's rows. `words` are the body's own, for a mistake only.
fn rewritten(words: &[u32], body: &Body, to: Format) -> Vec<u32> {
    let rows = &body.rows;
    if mistaken(Mistake::SameFormatCopied) && body.format == to {
        return words.to_vec();
    }
    if mistaken(Mistake::RewriteLosesTail) {
        let part = rows.len() % to.width();
        return settled(&rows.part(0..rows.len() - part), to);
    }
    if mistaken(Mistake::RewriteKeepsPads) && body.pads.any() {
        return settled(&body.rows_and_pads(), to);
    }
    if mistaken(Mistake::RewriteByWords) && body.format != to {
        return settled(&moved(rows, body.format, to), to);
    }
    settled(rows, to)
}

/// What a mistake makes of the rows: each segment becomes one of the other width, cut or lengthened at its end.
fn moved(rows: &Spans<bool>, from: Format, to: Format) -> Spans<bool> {
    let mut all = Spans::none();
    for (segments, word) in rows.words(from.width()).iter() {
        for _ in segments {
            all.push_bits(word, to.width());
        }
    }
    all
}
