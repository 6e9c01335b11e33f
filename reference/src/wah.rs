//! WAH: every word is a fill or a literal.

use crate::body::{Body, Piece};
use crate::format::Format;
use crate::limits::{FILL_FLAG, FILL_VALUE, MOST_CLEAN, MOST_FILL, WAH_ROWS, WORD_BITS};
use crate::mistakes::{mistaken, with_mistake, Mistake};
use crate::refusal::Refusal;
use crate::segment::{clean_run, mixed_words, pad_mask, segments_of, Segment};
use crate::spans::Spans;

/// A literal of ones, no fill.
const ALL_ONES: u32 = !FILL_FLAG;

// ---- words ----

#[derive(Debug, Clone, Copy, PartialEq, Eq)]
enum Word {
    /// So many clean segments of a value.
    Fill(bool, usize),
    /// One segment.
    Literal(u32),
}

fn word_of(word: u32) -> Word {
    if word & FILL_FLAG == 0 {
        return Word::Literal(word);
    }
    let value = word & FILL_VALUE != 0 || mistaken(Mistake::FillsReadAsOnes);
    let count = if mistaken(Mistake::FillCountShort) {
        word & MOST_CLEAN as u32
    } else if mistaken(Mistake::FillValueCounted) {
        word & !FILL_FLAG
    } else {
        word & MOST_FILL
    };
    Word::Fill(value, count as usize)
}

/// The most rows have fewer segments than a fill can count.
fn fill(value: bool, segments: usize) -> u32 {
    FILL_FLAG | if value { FILL_VALUE } else { 0 } | segments as u32
}

// ---- checking ----

/// Checks one body. `fault` makes the refusal of a number at a place in the body.
pub(crate) fn check(body: &[u32], rows: u32, fault: &dyn Fn(u32, usize) -> Refusal) -> Result<(), Refusal> {
    if mistaken(Mistake::TenAfterAll) {
        with_mistake(Mistake::EmptyFillPasses, || check(body, rows, fault))?;
    }
    let pads = if mistaken(Mistake::LastSegmentBy32) { pad_mask(rows, WORD_BITS) } else { pad_mask(rows, WAH_ROWS) };
    let width = if mistaken(Mistake::SegmentsBy32) { WORD_BITS } else { WAH_ROWS };
    let mut left = segments_of(rows, width);
    for (at, &word) in body.iter().enumerate() {
        let word = word_of(word);
        if let Some(number) = told_fault(word, left, pads) {
            let place = if mistaken(Mistake::PastEndAtBodyEnd) && number == 6 { body.len() } else { at };
            return Err(fault(number, place));
        }
        left = left.saturating_sub(segments_in_word(word));
    }
    if left > 0 && !mistaken(Mistake::EarlyEndPasses) {
        let back = usize::from(mistaken(Mistake::EarlyEndAtLastWord));
        return Err(fault(6, body.len().saturating_sub(back)));
    }
    Ok(())
}

fn segments_in_word(word: Word) -> usize {
    match word {
        Word::Fill(_, segments) => segments,
        Word::Literal(_) => 1,
    }
}

/// The number of a word's fault, with so many segments left and these pad bits in the last of them.
fn fault_of(word: Word, left: usize, pads: u32) -> Option<u32> {
    if segments_in_word(word) == 0 {
        return Some(10);
    }
    if segments_in_word(word) > left {
        return Some(6);
    }
    match word {
        // A fill of ones may cover pads.
        Word::Fill(..) => None,
        Word::Literal(bits) if left == 1 && bits & pads != 0 => Some(7),
        Word::Literal(_) => None,
    }
}

/// The same as a mistake has it.
fn told_fault(word: Word, left: usize, pads: u32) -> Option<u32> {
    let fault = fault_of(word, left, pads);
    match (word, fault) {
        (_, Some(10)) if mistaken(Mistake::EmptyFillPasses) => None,
        (_, Some(10)) if mistaken(Mistake::EmptyFillIsSix) => Some(6),
        (_, Some(10)) if mistaken(Mistake::TenAfterSix) && left == 0 => Some(6),
        (Word::Fill(..), Some(6)) if mistaken(Mistake::FillPastEndPasses) => None,
        (Word::Literal(_), Some(6)) if mistaken(Mistake::LiteralPastEndPasses) => None,
        (_, Some(7)) if mistaken(Mistake::LiteralPadPasses) => None,
        (Word::Literal(ALL_ONES), Some(7)) if mistaken(Mistake::LiteralOnesPass) => None,
        (Word::Fill(true, n), None) if mistaken(Mistake::OnesFillRefused) && n == left && pads != 0 => Some(7),
        _ => fault,
    }
}

// ---- reading ----

/// Takes a sound body apart.
pub(crate) fn read(body: &[u32], rows: u32) -> Body {
    let whole = WAH_ROWS * segments_of(rows, WAH_ROWS);
    let mut bits = Spans::none();
    let mut pieces = Vec::new();
    for &word in body {
        let before = bits.len();
        match word_of(word) {
            Word::Fill(value, segments) => {
                bits.push((WAH_ROWS * segments).min(whole - before), value);
            }
            Word::Literal(word) if before < whole => bits.push_bits(read_literal(word), WAH_ROWS),
            Word::Literal(_) => {}
        }
        // A sound body has no word past the end, and none without segments: this is for mistakes.
        if bits.len() > before {
            let dirty = matches!(word_of(word), Word::Literal(_));
            pieces.push(Piece { last: bits.len() / WAH_ROWS - 1, dirty });
        }
    }
    // Nor does it leave segments out.
    if bits.len() < whole {
        bits.push(whole - bits.len(), false);
        pieces.push(Piece { last: whole / WAH_ROWS - 1, dirty: false });
    }
    if mistaken(Mistake::FillsJoined) {
        pieces = joined(&pieces, &bits);
    }
    // Pads are no rows, though a fill of ones may spell them.
    let pads = bits.split_off(rows as usize);
    Body { format: Format::Wah, rows: bits, pads, pieces, dirties: Vec::new(), runs: Vec::new() }
}

/// A literal with its first row lowest.
fn read_literal(word: u32) -> u32 {
    if mistaken(Mistake::LiteralHighestFirst) {
        return word.reverse_bits() >> (WORD_BITS - WAH_ROWS);
    }
    word
}

/// What a mistake takes for pieces: neighbours that are fills of one value are one.
fn joined(pieces: &[Piece], bits: &Spans<bool>) -> Vec<Piece> {
    let kind = |piece: &Piece| (piece.dirty, bits.get(WAH_ROWS * piece.last));
    let goes_on = |at: usize| {
        let next = pieces.get(at + 1);
        !pieces[at].dirty && next.is_some_and(|next| kind(next) == kind(&pieces[at]))
    };
    (0..pieces.len()).filter(|&at| !goes_on(at)).map(|at| pieces[at]).collect()
}

// ---- writing ----

/// The settled body of these segments.
pub(crate) fn settle(segments: &Spans<Segment>) -> Vec<u32> {
    let mut words = Vec::new();
    let mut at = 0;
    let mut spans = segments.iter().peekable();
    while spans.peek().is_some() {
        let (value, run) = clean_run(&mut spans);
        for part in parts_of(run) {
            let lone = segments.get(at).filter(|_| part == 1);
            words.push(lone.map_or_else(|| fill_of(value, part), |lone| literal_of(lone.word, value)));
            at += part;
        }
        let mixed = mixed_words(&mut spans);
        at += mixed.len();
        words.extend(mixed);
    }
    words
}

/// Two clean segments or more.
fn fill_of(value: bool, segments: usize) -> u32 {
    let as_zeros = mistaken(Mistake::OnesPairIsZeros) && segments == 2;
    fill(value && !as_zeros, segments)
}

/// A clean segment by itself.
fn literal_of(word: u32, value: bool) -> u32 {
    if mistaken(Mistake::LoneCleanAsFill) {
        return fill(value, 1);
    }
    if mistaken(Mistake::FullTailPadsWritten) && value {
        return ALL_ONES;
    }
    word
}

/// The parts in which a run is written: it is whole, but for mistakes.
fn parts_of(run: usize) -> Vec<usize> {
    if run == 0 {
        return Vec::new();
    }
    if mistaken(Mistake::RunInTwoFills) && run >= 4 {
        return vec![2, run - 2];
    }
    if mistaken(Mistake::LoneLeftBehind) && run >= 3 {
        return vec![1, run - 1];
    }
    if mistaken(Mistake::PairAsLiterals) && run == 2 {
        return vec![1, 1];
    }
    if mistaken(Mistake::FillCutAtMarkerLimit) {
        return (0..run).step_by(MOST_CLEAN).map(|done| MOST_CLEAN.min(run - done)).collect();
    }
    vec![run]
}

#[cfg(test)]
mod tests {
    use super::*;
    use crate::segment::segments_in;

    /// The fewest words of any body that spells these segments, by trying every first word.
    fn fewest(segments: &[Segment]) -> usize {
        let n = segments.len();
        let mut best = vec![usize::MAX; n + 1];
        best[n] = 0;
        for at in (0..n).rev() {
            best[at] = 1 + best[at + 1];
            for end in at + 1..=n {
                let clean = segments[at].clean;
                if clean.is_some() && segments[at..end].iter().all(|s| s.clean == clean) {
                    best[at] = best[at].min(1 + best[end]);
                }
            }
        }
        best[0]
    }

    #[test]
    fn settled_has_the_fewest_words_of_all() {
        let kinds = [[false; WAH_ROWS], [true; WAH_ROWS], std::array::from_fn(|bit| bit == 1)];
        for length in 0..=8u32 {
            for code in 0..3usize.pow(length) {
                let rows: Vec<bool> = (0..length).flat_map(|place| kinds[code / 3usize.pow(place) % 3]).collect();
                // The last segment whole, with pads, and of one row.
                for missing in [0, 1, WAH_ROWS - 1] {
                    let rows = rows[..rows.len().saturating_sub(missing)].iter().copied();
                    let segments = segments_in(&rows.collect(), Format::Wah);
                    assert_eq!(settle(&segments).len(), fewest(&segments.to_vec()), "{segments:?}");
                }
            }
        }
    }

    #[test]
    fn word_fields() {
        assert_eq!(word_of(0x8000_0002), Word::Fill(false, 2));
        assert_eq!(word_of(0xC000_0002), Word::Fill(true, 2));
        assert_eq!(word_of(0x8000_0000), Word::Fill(false, 0));
        assert_eq!(word_of(u32::MAX), Word::Fill(true, 0x3FFF_FFFF));
        assert_eq!(word_of(0xBFFF_FFFF), Word::Fill(false, 0x3FFF_FFFF));
        for literal in [0, 1, 0x4000_0000, 0x7FFF_FFFF] {
            assert_eq!(word_of(literal), Word::Literal(literal));
        }
        for (value, segments) in [(false, 1), (true, 1), (false, 541_201), (true, MOST_FILL as usize)] {
            assert_eq!(word_of(fill(value, segments)), Word::Fill(value, segments));
        }
    }
}
