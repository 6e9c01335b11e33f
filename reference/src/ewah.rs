//! EWAH: markers, each with its dirty words behind it.

use crate::body::{Body, Piece};
use crate::format::Format;
use crate::limits::{CLEAN_SHIFT, DIRTY_SHIFT, MOST_CLEAN, MOST_DIRTY, WORD_BITS};
use crate::mistakes::{mistaken, Mistake};
use crate::refusal::Refusal;
use crate::segment::{clean_run, mixed_words, pad_mask, segments_of, Segment};
use crate::spans::Spans;

// ---- markers ----

struct Marker {
    value: bool,
    clean: usize,
    dirty: usize,
}

/// The value at the bottom, then the two counts.
fn marker_of(word: u32) -> Marker {
    let counts = word as usize;
    Marker { value: word & 1 == 1, clean: (counts >> CLEAN_SHIFT) & MOST_CLEAN, dirty: counts >> DIRTY_SHIFT }
}

/// The fields are added up, so that a count too large spills as it would.
fn word_of(marker: Marker) -> u32 {
    let (clean, dirty) = (marker.clean as u64, marker.dirty as u64);
    let sum = u64::from(marker.value) + (clean << CLEAN_SHIFT) + (dirty << DIRTY_SHIFT);
    sum as u32
}

// ---- checking ----

/// Checks one body. `fault` makes the refusal of a number at a place in the body.
pub(crate) fn check(body: &[u32], rows: u32, fault: &dyn Fn(u32, usize) -> Refusal) -> Result<(), Refusal> {
    let pads = pad_mask(rows, WORD_BITS);
    let mut left = segments_of(rows, WORD_BITS);
    let mut at = 0;
    while at < body.len() {
        let marker = marker_of(body[at]);
        let behind = body.len() - at - 1;
        if let Some(number) = marker_fault(&marker, behind, left, pads) {
            return Err(fault(number, at));
        }
        at += 1;
        left = left.saturating_sub(marker.clean);
        // A run of ones may cover pads; a dirty word may not have them.
        for _ in 0..marker.dirty {
            if left == 1 && body[at] & pads != 0 && !mistaken(Mistake::DirtyPadPasses) {
                return Err(fault(7, at));
            }
            at += 1;
            left -= 1;
        }
    }
    if left > 0 {
        let place = if mistaken(Mistake::MissingAtLastWord) { at.saturating_sub(1) } else { at };
        return Err(fault(6, place));
    }
    Ok(())
}

/// The number of a marker's own fault, with so many words behind it and segments left.
fn marker_fault(marker: &Marker, behind: usize, left: usize, pads: u32) -> Option<u32> {
    let spare = mistaken(Mistake::OnesRunPastEnd) && marker.value && marker.dirty == 0 && left > 0;
    let past_segments = marker.clean + marker.dirty > left + usize::from(spare);
    if mistaken(Mistake::SixBeforeFive) && past_segments {
        return Some(6);
    }
    if marker.dirty > behind {
        return Some(5);
    }
    if past_segments {
        return Some(6);
    }
    if mistaken(Mistake::IdleMarkerRefused) && marker.clean == 0 && marker.dirty == 0 {
        return Some(6);
    }
    let covers_last = marker.clean > 0 && marker.clean == left;
    if mistaken(Mistake::OnesRunRefused) && marker.value && covers_last && pads != 0 {
        return Some(7);
    }
    None
}

// ---- reading ----

/// Takes a sound body apart.
pub(crate) fn read(body: &[u32], rows: u32) -> Body {
    let mut bits = Spans::none();
    let mut pieces = Vec::new();
    let mut dirties = Vec::new();
    let mut runs = Vec::new();
    let mut segment = 0;
    let mut at = 0;
    while at < body.len() {
        let marker = marker_of(body[at]);
        at += 1;
        runs.push(segment..segment + marker.clean);
        if marker.clean > 0 {
            bits.push(WORD_BITS * marker.clean, marker.value);
            segment += marker.clean;
            pieces.push(Piece { last: segment - 1, dirty: false });
        }
        dirties.push(segment..segment + marker.dirty);
        for _ in 0..marker.dirty {
            bits.push_bits(body[at], WORD_BITS);
            at += 1;
            segment += 1;
            pieces.push(Piece { last: segment - 1, dirty: true });
        }
    }
    // Pads are no rows, though a run of ones may spell them.
    let pads = bits.split_off(rows as usize);
    Body { format: Format::Ewah, rows: bits, pads, pieces, dirties, runs }
}

// ---- writing ----

/// The settled body of these segments.
pub(crate) fn settle(segments: &Spans<Segment>) -> Vec<u32> {
    let most_clean = if mistaken(Mistake::RunCarries) { MOST_CLEAN + 1 } else { MOST_CLEAN };
    let most_dirty = if mistaken(Mistake::FullMarkerOneMore) { MOST_DIRTY + 1 } else { MOST_DIRTY };
    settle_within(segments, most_clean, most_dirty)
}

/// The same for any two limits of a marker's counts.
fn settle_within(segments: &Spans<Segment>, most_clean: usize, most_dirty: usize) -> Vec<u32> {
    let mut words = Vec::new();
    let mut spans = segments.iter().peekable();
    while spans.peek().is_some() {
        // The longest clean run from here; none where the body begins mixed.
        let (value, mut run) = clean_run(&mut spans);
        let mixed = mixed_words(&mut spans);

        // The run's markers; the last one carries what it can of the dirty words.
        while run > most_clean {
            words.push(word_of(Marker { value, clean: most_clean, dirty: 0 }));
            run -= most_clean;
        }
        let (carried, further) = mixed.split_at(mixed.len().min(most_dirty));
        words.push(word_of(Marker { value, clean: run, dirty: carried.len() }));
        words.extend(carried);

        // The rest under markers without clean segments.
        for part in further.chunks(most_dirty) {
            words.push(word_of(Marker { value: false, clean: 0, dirty: part.len() }));
            words.extend(part);
        }
    }
    words
}

#[cfg(test)]
mod tests {
    use super::*;
    use crate::segment::segments_in;

    /// The fewest words of any body that spells these segments, by trying
    /// every first marker.
    fn fewest(segments: &[Segment], most_clean: usize, most_dirty: usize) -> usize {
        let n = segments.len();
        let mut best = vec![usize::MAX; n + 1];
        best[n] = 0;
        for at in (0..n).rev() {
            for value in [false, true] {
                for clean in 0..=most_clean.min(n - at) {
                    if segments[at..at + clean].iter().any(|s| s.clean != Some(value)) {
                        break;
                    }
                    for dirty in 0..=most_dirty.min(n - at - clean) {
                        if clean + dirty > 0 {
                            let rest = best[at + clean + dirty];
                            best[at] = best[at].min(1 + dirty + rest);
                        }
                    }
                }
            }
        }
        best[0]
    }

    #[test]
    fn settled_has_the_fewest_words_of_all() {
        let kinds = [[false; WORD_BITS], [true; WORD_BITS], std::array::from_fn(|bit| bit == 1)];
        let limits = [(1, 1), (1, 2), (2, 1), (2, 2), (3, 2), (2, 3), (5, 3), (MOST_CLEAN, MOST_DIRTY)];
        for length in 0..=8u32 {
            for code in 0..3usize.pow(length) {
                let rows: Spans<bool> = (0..length).flat_map(|place| kinds[code / 3usize.pow(place) % 3]).collect();
                let segments = segments_in(&rows, Format::Ewah);
                for (clean, dirty) in limits {
                    let settled = settle_within(&segments, clean, dirty);
                    assert_eq!(settled.len(), fewest(&segments.to_vec(), clean, dirty), "{segments:?}");
                }
            }
        }
    }

    #[test]
    fn marker_fields() {
        let m = marker_of(0xFFFE_0000);
        assert_eq!((m.value, m.clean, m.dirty), (false, 0, 32_767));
        let m = marker_of(0x0001_FFFF);
        assert_eq!((m.value, m.clean, m.dirty), (true, 65_535, 0));
        for word in [0, 1, 2, 0x2_0000, 0x1_FFFE, 0xFFFE_0001, u32::MAX, 0x1234_5678] {
            assert_eq!(word_of(marker_of(word)), word);
        }
    }
}
