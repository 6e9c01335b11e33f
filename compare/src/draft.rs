//! Bodies made by hand.

use zvonurel::Format::{self, Ewah, Wah};

use crate::encode::{fill, full, last_mask, marker};

/// Dirty words that a count takes at once.
pub const COUNTED: usize = 64;

/// A body that is put together marker by marker, or by fills and literals, with the segments it stands for.
#[derive(Clone)]
pub struct Draft {
    pub format: Format,
    pub body: Vec<u32>,
    pub segments: Vec<u32>,
    /// Where the last segment's own word stands, unless a run says it.
    last: Option<usize>,
    /// The segments at which blocks of dirty words begin or end.
    pub edges: Vec<usize>,
}

impl Draft {
    pub fn new(format: Format) -> Draft {
        Draft { format, body: Vec::new(), segments: Vec::new(), last: None, edges: Vec::new() }
    }

    /// One more marker, a clean run and dirty words; or a fill, unless it is of none, and literals.
    pub fn then(mut self, value: bool, clean: usize, dirty: &[u32]) -> Draft {
        let full = full(self.format);
        match self.format {
            Ewah => self.body.push(marker(value, clean, dirty.len())),
            Wah if clean > 0 => self.body.push(fill(value, clean)),
            Wah => {}
        }
        self.segments.extend(std::iter::repeat_n(if value { full } else { 0 }, clean));
        let start = self.segments.len();
        self.segments.extend(dirty.iter().map(|word| word & full));
        self.body.extend(&self.segments[start..]);
        if !dirty.is_empty() {
            self.last = Some(self.body.len() - 1);
        } else if clean > 0 {
            self.last = None;
        }
        self.edges.extend((start..self.segments.len()).step_by(COUNTED));
        self.edges.push(self.segments.len());
        self
    }

    /// One more marker with dirty words alone.
    pub fn words(self, dirty: &[u32]) -> Draft {
        self.then(false, 0, dirty)
    }

    pub fn idle(self, value: bool) -> Draft {
        self.then(value, 0, &[])
    }

    /// The rows, with so many pads behind the last one. A dirty word has no pad bits; a run stays.
    pub fn rows(&mut self, pads: usize) -> u32 {
        let rows = (self.format.segment_rows() * self.segments.len() - pads) as u32;
        let mask = last_mask(rows, self.format);
        if let Some(last) = self.segments.last_mut() {
            *last &= mask;
        }
        if let Some(last) = self.last {
            self.body[last] &= mask;
        }
        rows
    }

    /// The first set row, the last one, those about each edge, and numbers that no set row has.
    pub fn nths(&self) -> Vec<u32> {
        let set = |words: &[u32]| words.iter().map(|word| word.count_ones()).sum::<u32>();
        let all = set(&self.segments);
        let mut nths = vec![0, all.saturating_sub(1), all, all + 1, u32::MAX];
        for &edge in &self.edges {
            let before = set(&self.segments[..edge]);
            nths.extend([before.saturating_sub(1), before, before + 1]);
        }
        nths.sort();
        nths.dedup();
        nths
    }
}
