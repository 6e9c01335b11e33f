//! The index: contents, then bodies.

use std::ops::Range;

use crate::body::{self, check_words, count_in, expand_rows, nth_in, pieces_in, row_in, Body, Row};
use crate::format::Format;
use crate::limits::{ENTRY_WORDS, HEAD_WORDS, MOST_BITMAPS, MOST_INDEX_WORDS};
use crate::mistakes::{limit, mistaken, Mistake, BITMAPS_ONCE};
use crate::refusal::{bad_argument, few_enough, must_fit, refusal, Refusal};

/// A sound index.
pub(crate) struct Index<'a> {
    /// That of all its bodies.
    pub format: Format,
    pub rows: u32,
    words: &'a [u32],
    parts: Vec<Range<usize>>,
}

impl Index<'_> {
    /// Where bitmap `k` lies.
    pub fn part(&self, k: u32) -> Result<Range<usize>, Refusal> {
        self.parts.get(k as usize).cloned().ok_or(bad_argument())
    }

    /// Bitmap `k`, taken apart.
    pub fn body(&self, k: u32) -> Result<Body, Refusal> {
        Ok(body::read(&self.words[self.part(k)?], self.rows, self.format))
    }

    /// The refusal of bitmap `k`'s own body.
    pub fn check_part(&self, k: u32) -> Result<(), Refusal> {
        let part = self.part(k)?;
        check_words(&self.words[part.clone()], self.rows, self.format, k, part.start)
    }

    pub fn bitmaps(&self) -> u32 {
        self.parts.len() as u32
    }
}

/// Where entry `k` of the contents lies; with N for `k`, where the bodies begin.
fn entry_place(k: usize) -> usize {
    HEAD_WORDS + ENTRY_WORDS * k
}

/// Checks everything, in the order the refusals have.
pub(crate) fn open(words: &[u32]) -> Result<Index<'_>, Refusal> {
    let index = open_contents(words)?;
    for k in 0..index.bitmaps() {
        index.check_part(k)?;
    }
    Ok(index)
}

/// The same, except the bodies.
pub(crate) fn open_contents(words: &[u32]) -> Result<Index<'_>, Refusal> {
    let length = words.len();
    if length > MOST_INDEX_WORDS {
        return Err(refusal(3, 0, 0));
    }
    if length < HEAD_WORDS {
        return Err(refusal(1, 0, length));
    }
    let format = Format::of_kind(words[0]).ok_or(refusal(2, 0, 0))?;
    let rows = words[1];
    few_enough(rows, Mistake::RowsOneOver, Mistake::RowsAsOnce)?;
    let bitmaps = words[2] as usize;
    if bitmaps > limit(MOST_BITMAPS as usize, Mistake::BitmapsOneOver, Mistake::BitmapsAsOnce, BITMAPS_ONCE) {
        return Err(refusal(3, 0, 2));
    }
    if length < entry_place(bitmaps) {
        return Err(refusal(1, 0, length));
    }
    let parts = contents(words, bitmaps)?;
    Ok(Index { format, rows, words, parts })
}

/// The bodies' places, entry by entry.
fn contents(words: &[u32], bitmaps: usize) -> Result<Vec<Range<usize>>, Refusal> {
    let mut parts = Vec::new();
    let mut end = entry_place(bitmaps);
    for k in 0..bitmaps {
        let start_place = entry_place(k);
        let length_place = start_place + 1;
        let start = words[start_place] as usize;
        let length = words[length_place] as usize;
        let too_long = end as u64 + length as u64 > words.len() as u64;
        if mistaken(Mistake::LengthBeforeStart) && too_long {
            return Err(refusal(4, k as u32, length_place));
        }
        if start != end {
            return Err(refusal(4, k as u32, start_place));
        }
        if too_long {
            return Err(refusal(4, k as u32, length_place));
        }
        end += length;
        parts.push(start..end);
    }
    if end < words.len() && !mistaken(Mistake::FinalEndUnchecked) {
        return Err(refusal(4, 0, end));
    }
    Ok(parts)
}

/// The bodies of an index that is an answer. All are measured; they are kept as long as the index fits.
pub(crate) struct Bodies {
    /// Words that the index may have.
    room: usize,
    lengths: Vec<usize>,
    kept: Vec<u32>,
    /// Refusal 9 counts these alone, without head and contents.
    counted_alone: Mistake,
}

impl Bodies {
    /// None yet. Of a buffer's room, an index has use for its limit and no more; `by_buffer` takes all.
    pub fn within(room: usize, by_buffer: Mistake, counted_alone: Mistake) -> Bodies {
        let most = MOST_INDEX_WORDS - usize::from(mistaken(Mistake::LongestIndexRefused));
        let room = if mistaken(by_buffer) { room } else { room.min(most) };
        Bodies { room, lengths: Vec::new(), kept: Vec::new(), counted_alone }
    }

    pub fn push(&mut self, body: &[u32]) {
        self.lengths.push(body.len());
        if self.need() <= self.room {
            self.kept.extend(body);
        } else {
            self.kept = Vec::new();
        }
    }

    /// Words of head and contents.
    pub fn front(&self) -> usize {
        entry_place(self.lengths.len())
    }

    /// Words of the whole index.
    fn need(&self) -> usize {
        self.front() + self.lengths.iter().sum::<usize>()
    }

    /// The whole index, its bodies being of this format; refusal 9 if it doesn't fit.
    pub fn write(self, format: Format, rows: u32) -> Result<Vec<u32>, Refusal> {
        must_fit(self.need(), self.room).map_err(|refusal| self.told(refusal))?;
        let mut words = vec![format.kind(), rows, self.lengths.len() as u32];
        let mut start = self.front();
        for &length in &self.lengths {
            words.extend([start as u32, length as u32]);
            start += length;
        }
        words.extend(self.kept);
        Ok(words)
    }

    /// Refusal 9 as a mistake has it.
    fn told(&self, refusal: Refusal) -> Refusal {
        let most = MOST_INDEX_WORDS as u64;
        match refusal.word {
            need if mistaken(self.counted_alone) => Refusal { word: need - self.front() as u64, ..refusal },
            need if mistaken(Mistake::LongNeedCut) => Refusal { word: need.min(most), ..refusal },
            _ => refusal,
        }
    }
}

/// Checks a whole index.
pub fn check(index: &[u32]) -> Result<(), Refusal> {
    open(index).map(|_| ())
}

/// The places of bitmap `k`'s body in the index.
pub fn bitmap(index: &[u32], k: u32) -> Result<Range<usize>, Refusal> {
    open(index)?.part(k)
}

/// Has bitmap `k` this row, and which rows does its piece have?
pub fn row(index: &[u32], k: u32, row: u32) -> Result<Row, Refusal> {
    row_in(&open(index)?.body(k)?, row)
}

/// First and last row of each piece of bitmap `k`, in order.
pub fn pieces(index: &[u32], k: u32) -> Result<Vec<(u32, u32)>, Refusal> {
    Ok(pieces_in(&open(index)?.body(k)?))
}

/// How many rows bitmap `k` has.
pub fn count(index: &[u32], k: u32) -> Result<u32, Refusal> {
    Ok(count_in(&open(index)?.body(k)?))
}

/// The nth set row of bitmap `k`, from 0.
pub fn nth(index: &[u32], k: u32, n: u32) -> Result<u32, Refusal> {
    nth_in(&open(index)?.body(k)?, n)
}

/// Bitmap `k` as plain words.
pub fn expand_bitmap(index: &[u32], k: u32, room: usize) -> Result<Vec<u32>, Refusal> {
    expand_rows(&open(index)?.body(k)?, room)
}

#[cfg(test)]
mod tests {
    use super::*;
    use crate::limits::{MOST_SUMMED, WAH_KIND};
    use crate::mistakes::with_mistake;

    /// An answer of two bodies, one of three words and the other so that the whole has so many; its length.
    fn answered(words: usize, room: usize) -> Result<usize, Refusal> {
        let mut bodies = Bodies::within(room, Mistake::SumByBufferAlone, Mistake::NeedWithoutContents);
        bodies.push(&[7, 8, 9]);
        bodies.push(&vec![0; words - 10]);
        let index = bodies.write(Format::Wah, 40)?;
        assert_eq!(index[..10], [WAH_KIND, 40, 2, 7, 3, 10, words as u32 - 10, 7, 8, 9]);
        Ok(index.len())
    }

    fn nine(words: usize) -> Result<usize, Refusal> {
        Err(refusal(9, 0, words))
    }

    #[test]
    fn at_most_the_limit_whatever_the_buffer() {
        const MOST: usize = MOST_INDEX_WORDS;
        assert_eq!((answered(12, 12), answered(12, 11), answered(12, 0)), (Ok(12), nine(12), nine(12)));
        assert_eq!((answered(MOST, MOST), answered(MOST, MOST - 1)), (Ok(MOST), nine(MOST)));
        for room in [0, MOST, MOST + 1, usize::MAX] {
            assert_eq!(answered(MOST + 1, room), nine(MOST + 1));
        }
        let with = |mistake, words| with_mistake(mistake, || answered(words, usize::MAX));
        assert_eq!(with(Mistake::SumByBufferAlone, MOST + 1), Ok(MOST + 1));
        assert_eq!(with(Mistake::RewriteByBufferAlone, MOST + 1), nine(MOST + 1));
        assert_eq!(with(Mistake::LongestIndexRefused, MOST), nine(MOST));
        assert_eq!(with(Mistake::LongNeedCut, MOST + 1), nine(MOST));
        assert_eq!(with(Mistake::NeedWithoutContents, MOST + 1), nine(MOST + 1 - 7));
    }

    /// What doesn't fit is counted and not kept: more words than any index has.
    #[test]
    fn all_bodies_are_measured() {
        let mut bodies = Bodies::within(usize::MAX, Mistake::SumByBufferAlone, Mistake::NeedWithoutContents);
        let body = vec![0; 33_555_457];
        for _ in 0..MOST_SUMMED {
            bodies.push(&body);
        }
        assert_eq!(bodies.kept.capacity(), 0);
        // 33 bodies of 33,555,457 words behind 3 + 2 * 33.
        assert_eq!(bodies.write(Format::Ewah, 40), Err(refusal(9, 0, 1_107_330_150)));
    }
}
