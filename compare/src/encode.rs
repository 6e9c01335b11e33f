//! Segments of plain words, and bodies and indexes made of them.

use zvonurel::Format::{self, Ewah, Wah};
use zvonurel::{CLEAN_SHIFT, DIRTY_SHIFT, ENTRY_WORDS, HEAD_WORDS, MOST_CLEAN, MOST_DIRTY, WORD_BITS};
use zvonurel::{WAH_FILL_SHIFT, WAH_VALUE_SHIFT};

use crate::random::Random;

pub const FORMATS: [Format; 2] = [Ewah, Wah];

pub fn other(format: Format) -> Format {
    match format {
        Ewah => Wah,
        Wah => Ewah,
    }
}

// ---- segments ----

/// The lowest bits of a word, so many.
fn low(bits: usize) -> u32 {
    u32::MAX >> (WORD_BITS - bits)
}

/// A segment of ones.
pub fn full(format: Format) -> u32 {
    low(format.segment_rows())
}

/// The bits of the last segment that are rows.
pub fn last_mask(rows: u32, format: Format) -> u32 {
    match rows as usize % format.segment_rows() {
        0 => full(format),
        used => low(used),
    }
}

/// The same of the last plain word.
pub fn plain_mask(rows: u32) -> u32 {
    last_mask(rows, Ewah)
}

pub fn mask_last(plain: &mut [u32], rows: u32) {
    if let Some(last) = plain.last_mut() {
        *last &= plain_mask(rows);
    }
}

/// The same bits, lowest first, so many words of another width. Bits above a width are none.
fn repacked(words: &[u32], from: usize, to: usize, count: usize) -> Vec<u32> {
    let (mut rest, mut bits, mut held) = (words.iter(), 0, 0);
    let mut next = || {
        while held < to {
            let word = rest.next().copied().unwrap_or(0) & low(from);
            bits |= u64::from(word) << held;
            held += from;
        }
        let word = bits as u32 & low(to);
        bits >>= to;
        held -= to;
        word
    };
    (0..count).map(|_| next()).collect()
}

/// The segments of plain words.
pub fn cut(plain: &[u32], rows: u32, format: Format) -> Vec<u32> {
    repacked(plain, WORD_BITS, format.segment_rows(), format.segments(rows))
}

/// The plain words of segments. Pad bits are left out.
pub fn joined(segments: &[u32], rows: u32, format: Format) -> Vec<u32> {
    let mut plain = repacked(segments, format.segment_rows(), WORD_BITS, zvonurel::segments(rows));
    mask_last(&mut plain, rows);
    plain
}

// ---- words of a body ----

pub const fn marker(value: bool, clean: usize, dirty: usize) -> u32 {
    value as u32 | (clean as u32) << CLEAN_SHIFT | (dirty as u32) << DIRTY_SHIFT
}

pub const fn fill(value: bool, segments: usize) -> u32 {
    1 << WAH_FILL_SHIFT | (value as u32) << WAH_VALUE_SHIFT | segments as u32
}

/// A body of one run: full markers and one more, or a fill, even of one segment.
pub fn one_run(format: Format, value: bool, segments: usize) -> Vec<u32> {
    match format {
        Wah if segments > 0 => vec![fill(value, segments)],
        Wah => Vec::new(),
        Ewah => {
            let mut body = vec![marker(value, MOST_CLEAN, 0); segments / MOST_CLEAN];
            match segments % MOST_CLEAN {
                0 => {}
                rest => body.push(marker(value, rest, 0)),
            }
            body
        }
    }
}

/// A mixed segment, for one that no run is to spell, whatever it is.
const MIXED: u32 = 1;

/// Segments that a body is to be made of.
pub struct Segments {
    format: Format,
    rows: u32,
    pub words: Vec<u32>,
}

impl Segments {
    pub fn of(plain: &[u32], rows: u32, format: Format) -> Segments {
        Segments { format, rows, words: cut(plain, rows, format) }
    }

    /// As runs spell them: a full last one as all ones, pads and all.
    fn as_runs(&self) -> Vec<u32> {
        let mut words = self.words.clone();
        if let Some(last) = words.last_mut().filter(|last| **last == last_mask(self.rows, self.format)) {
            *last = full(self.format);
        }
        words
    }

    fn is_clean(&self, word: u32) -> bool {
        word == 0 || word == full(self.format)
    }

    /// How many equal clean ones stand at the front.
    fn clean_run(&self, words: &[u32]) -> usize {
        match words.first() {
            Some(&first) if self.is_clean(first) => words.iter().take_while(|&&w| w == first).count(),
            _ => 0,
        }
    }

    fn mixed_run(&self, words: &[u32]) -> usize {
        words.iter().take_while(|&&w| !self.is_clean(w)).count()
    }

    /// The settled body.
    pub fn settled(&self) -> Vec<u32> {
        match self.format {
            Ewah => self.settled_ewah(),
            Wah => self.settled_wah(),
        }
    }

    fn settled_ewah(&self) -> Vec<u32> {
        let words = self.as_runs();
        let (mut body, mut at) = (Vec::new(), 0);
        while at < words.len() {
            // no further than a marker counts, and one more: else a long run is looked through for each marker
            let run = self.clean_run(&words[at..words.len().min(at + MOST_CLEAN + 1)]);
            let clean = run.min(MOST_CLEAN);
            let value = clean > 0 && words[at] != 0;
            at += clean;
            let dirty = match run > clean {
                true => 0,
                false => self.mixed_run(&words[at..words.len().min(at + MOST_DIRTY)]),
            };
            body.push(marker(value, clean, dirty));
            body.extend(&self.words[at..at + dirty]);
            at += dirty;
        }
        body
    }

    fn settled_wah(&self) -> Vec<u32> {
        let words = self.as_runs();
        let (mut body, mut at) = (Vec::new(), 0);
        while at < words.len() {
            match self.clean_run(&words[at..]) {
                0 | 1 => {
                    body.push(self.words[at]);
                    at += 1;
                }
                run => {
                    body.push(fill(words[at] != 0, run));
                    at += run;
                }
            }
        }
        body
    }

    /// A sound body that takes more room than it has to. The last segment is often spelt by itself.
    pub fn wasteful(&self, random: &mut Random) -> Vec<u32> {
        let mut words = self.as_runs();
        if let Some(last) = words.last_mut().filter(|_| random.one_in(3)) {
            *last = MIXED;
        }
        match self.format {
            Ewah => self.wasteful_ewah(&words, random),
            Wah => self.wasteful_wah(&words, random),
        }
    }

    /// Idle markers, cut runs, clean segments under dirty words.
    fn wasteful_ewah(&self, words: &[u32], random: &mut Random) -> Vec<u32> {
        let (mut body, mut at) = (Vec::new(), 0);
        while at < words.len() || random.one_in(6) {
            if random.one_in(8) {
                body.push(marker(random.one_in(2), 0, 0));
                continue;
            }
            let run = self.clean_run(&words[at..]).min(MOST_CLEAN);
            let clean = match random.below(4) {
                0 => 0,
                1 => random.between(0, run),
                _ => run,
            };
            let value = match clean {
                0 => random.one_in(2),
                _ => words[at] != 0,
            };
            at += clean;
            let dirty = self.some_dirty(&words[at..], random);
            body.push(marker(value, clean, dirty));
            body.extend(&self.words[at..at + dirty]);
            at += dirty;
        }
        body
    }

    /// How many words the next marker takes as dirty ones.
    fn some_dirty(&self, rest: &[u32], random: &mut Random) -> usize {
        let mixed = self.mixed_run(rest);
        let wanted = match random.below(4) {
            0 => random.between(0, mixed),
            1 => mixed + random.below(4),
            _ => mixed,
        };
        wanted.min(rest.len()).min(MOST_DIRTY)
    }

    /// Fills of one segment, equal fills side by side, clean literals.
    fn wasteful_wah(&self, words: &[u32], random: &mut Random) -> Vec<u32> {
        let (mut body, mut at) = (Vec::new(), 0);
        while at < words.len() {
            let run = self.clean_run(&words[at..]);
            let part = match random.below(5) {
                0 => 0,
                1 => run.min(1),
                2 => random.between(0, run),
                _ => run,
            };
            match part {
                0 => body.push(self.words[at]),
                _ => body.push(fill(words[at] != 0, part)),
            }
            at += part.max(1);
        }
        body
    }
}

/// The settled body of plain words.
pub fn settled(plain: &[u32], rows: u32, format: Format) -> Vec<u32> {
    Segments::of(plain, rows, format).settled()
}

// ---- an index ----

/// An index of these bodies, as they are.
pub fn index_in<B: AsRef<[u32]>>(format: Format, rows: u32, bodies: &[B]) -> Vec<u32> {
    match format {
        Ewah => zvonurel::index_of(rows, bodies),
        Wah => zvonurel::wah::index_of(rows, bodies),
    }
}

/// What word 0 says of the bodies; EWAH where it says nothing.
pub fn format_of(index: &[u32]) -> Format {
    Format::of_index(index).unwrap_or(Ewah)
}

/// Where bitmap `k`'s entry stands, its start and then its length; with N for `k`, where the bodies begin.
pub const fn entry_place(k: usize) -> usize {
    HEAD_WORDS + ENTRY_WORDS * k
}
