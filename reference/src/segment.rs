//! Segments, 31 or 32 rows wide, lowest bit first.

use std::iter::Peekable;
use std::ops::Range;

use crate::format::Format;
use crate::mistakes::{mistaken, Mistake};
use crate::spans::{low_bits, Spans};

/// How many segments `rows` rows have.
pub(crate) fn segments_of(rows: u32, width: usize) -> usize {
    (rows as usize).div_ceil(width)
}

/// The pad bits of the last segment; zero where it has none.
pub(crate) fn pad_mask(rows: u32, width: usize) -> u32 {
    match rows as usize % width {
        0 => 0,
        used => low_bits(width) & !low_bits(used),
    }
}

/// A segment that is to be written.
#[derive(Debug, Clone, Copy, PartialEq, Eq)]
pub(crate) struct Segment {
    /// The value that all its rows have; none if it is mixed.
    pub clean: Option<bool>,
    /// Its rows, without pads.
    pub word: u32,
}

/// The segment of this word. It is clean if no row is set, or all are, which is `full`.
fn segment_of(word: u32, full: u32) -> Segment {
    let clean = match word {
        0 => Some(false),
        _ if word == full => Some(true),
        _ => None,
    };
    Segment { clean, word }
}

/// The segments of rows. Pads are not among these, so a last segment is full without them.
pub(crate) fn segments_in(rows: &Spans<bool>, format: Format) -> Spans<Segment> {
    let old_form = match format {
        Format::Ewah => mistaken(Mistake::FullTailDirty),
        Format::Wah => mistaken(Mistake::FullTailLiteral),
    };
    let full = low_bits(format.width());
    let pads = if old_form { 0 } else { pad_mask(rows.len() as u32, format.width()) };
    let words = rows.words(format.width());
    let mut segments = Spans::none();
    for (places, word) in words.iter() {
        let last = usize::from(places.end == words.len());
        segments.push(places.len() - last, segment_of(word, full));
        segments.push(last, segment_of(word, full & !pads));
    }
    segments
}

/// Takes the clean run at the front: its value and length; (false, 0) if there is none.
pub(crate) fn clean_run(spans: &mut Peekable<impl Iterator<Item = (Range<usize>, Segment)>>) -> (bool, usize) {
    let Some(value) = spans.peek().and_then(|(_, segment)| segment.clean) else { return (false, 0) };
    let mut run = 0;
    while let Some((places, _)) = spans.next_if(|(_, segment)| segment.clean == Some(value)) {
        run += places.len();
    }
    (value, run)
}

/// Takes the mixed segments at the front.
pub(crate) fn mixed_words(spans: &mut Peekable<impl Iterator<Item = (Range<usize>, Segment)>>) -> Vec<u32> {
    let mut words = Vec::new();
    while let Some((places, segment)) = spans.next_if(|(_, segment)| segment.clean.is_none()) {
        words.resize(words.len() + places.len(), segment.word);
    }
    words
}
