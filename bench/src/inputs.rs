//! The inputs: the same words in every run.

use zvonurel::{most_body_words, segments, IndexBuilder, ENTRY_WORDS, HEAD_WORDS, MOST_BITMAPS, MOST_ROWS, WORD_BITS};
use zvonurel::{CLEAN_SHIFT, DIRTY_SHIFT, MOST_CLEAN, MOST_DIRTY};

#[derive(Debug, Clone, Copy, PartialEq, Eq)]
pub enum Kind {
    /// Runs of thousands of segments, a mixed one between them now and then.
    Quiet,
    /// Runs of 10 to 100 segments, one to four mixed ones between them.
    Calm,
    /// Every segment mixed.
    Dense,
}

impl Kind {
    pub const ALL: [Kind; 3] = [Kind::Quiet, Kind::Calm, Kind::Dense];

    pub fn name(self) -> &'static str {
        match self {
            Kind::Quiet => "quiet",
            Kind::Calm => "calm",
            Kind::Dense => "dense",
        }
    }
}

/// What `--one` is told of bitmaps, at least so many of them: their kind, rows and number, and the repeats.
pub fn arguments([kind, rows, bitmaps, repeats]: [&str; 4], least: usize) -> Option<(Kind, u32, usize, u32)> {
    let kind = Kind::ALL.into_iter().find(|k| k.name() == kind)?;
    let rows = rows.parse().ok().filter(|r| (1..=MOST_ROWS).contains(r))?;
    let bitmaps = bitmaps.parse().ok().filter(|n| (least..=MOST_BITMAPS as usize).contains(n))?;
    Some((kind, rows, bitmaps, repeats.parse().ok()?))
}

/// The question that this is all for: at least five of twelve tanks.
pub const TANKS: usize = 12;
pub const ENOUGH: usize = 5;

/// splitmix64
pub struct Random(pub u64);

impl Random {
    pub fn next(&mut self) -> u64 {
        self.0 = self.0.wrapping_add(0x9E37_79B9_7F4A_7C15);
        let mut z = self.0;
        z = (z ^ (z >> 30)).wrapping_mul(0xBF58_476D_1CE4_E5B9);
        z = (z ^ (z >> 27)).wrapping_mul(0x94D0_49BB_1331_11EB);
        z ^ (z >> 31)
    }

    pub fn between(&mut self, low: u64, high: u64) -> usize {
        (low + self.next() % (high - low + 1)) as usize
    }

    /// About half of the bits set, never clean: bit 0 is set and bit 1 is not.
    pub fn mixed(&mut self) -> u32 {
        (self.next() as u32 & !2) | 1
    }
}

pub struct Data {
    pub kind: Kind,
    pub rows: u32,
    pub bitmaps: usize,
    /// The plain words of the bitmaps that plain programs are to work on, one bitmap behind the other.
    plain: Vec<u32>,
    /// The index of them all.
    pub index: Vec<u32>,
    /// All bitmaps, named once.
    pub list: Vec<u32>,
    pub t: u32,
    /// Yes where a third of the numbers are, 1, 4, 7 and so on.
    pub table: Vec<u32>,
}

impl Data {
    /// With the plain words of all bitmaps.
    pub fn new(kind: Kind, rows: u32, bitmaps: usize) -> Data {
        Data::keeping(bitmaps, kind, rows, bitmaps)
    }

    /// With the plain words of the first `kept` bitmaps: of many long ones they would fill the memory.
    pub fn keeping(kept: usize, kind: Kind, rows: u32, bitmaps: usize) -> Data {
        let mut plain = Vec::new();
        let mut builder = IndexBuilder::new(rows);
        for k in 0..bitmaps {
            let body = canonical_body(kind, rows, 1_000 + k as u64);
            builder.add_body(&body).expect("a body of so many rows");
            if k < kept {
                plain.extend(plain_words(&body, rows));
            }
        }
        let t = match bitmaps {
            TANKS => ENOUGH,
            other => (other / 2).max(1),
        };
        Data {
            kind,
            rows,
            index: builder.build().expect("no more bitmaps and words than an index can have"),
            bitmaps,
            plain,
            list: (0..bitmaps as u32).collect(),
            t: t as u32,
            table: (0..=bitmaps).map(|c| u32::from(c % 3 == 1)).collect(),
        }
    }

    pub fn segments(&self) -> usize {
        segments(self.rows)
    }

    /// The plain words of a bitmap.
    pub fn plain(&self, k: usize) -> &[u32] {
        &self.plain[k * self.segments()..][..self.segments()]
    }

    /// The plain words of one bitmap after the other.
    pub fn plains(&self) -> impl Iterator<Item = &[u32]> {
        self.plain.chunks_exact(self.segments())
    }

    /// How many stretches the bitmaps make together.
    pub fn stretches(&self) -> u32 {
        let mut out = vec![0; most_body_words(self.rows)];
        let answer = zvonurel::threshold(&self.index, &self.list, self.t, &mut out);
        answer.expect("a sound question").stretches
    }

    /// Words of all bodies.
    pub fn words(&self) -> usize {
        words(&self.index, self.bitmaps)
    }

    /// A bitmap's body.
    pub fn body(&self, k: usize) -> &[u32] {
        body(&self.index, k)
    }
}

/// Words of all bodies of an index of so many.
pub fn words(index: &[u32], bitmaps: usize) -> usize {
    index.len() - entry_place(bitmaps)
}

/// A bitmap's body as a part of the index, found without the check that a call would begin with.
pub fn body(index: &[u32], k: usize) -> &[u32] {
    let entry = entry_place(k);
    let (start, length) = (index[entry] as usize, index[entry + 1] as usize);
    &index[start..start + length]
}

/// Where a bitmap's entry stands, its start and then its length; with N for `k`, where the bodies begin.
fn entry_place(k: usize) -> usize {
    HEAD_WORDS + ENTRY_WORDS * k
}

/// The bits of the last plain word that are rows.
fn last_mask(rows: u32) -> u32 {
    match rows as usize % WORD_BITS {
        0 => u32::MAX,
        used => (1 << used) - 1,
    }
}

/// Clears the bits behind the last row.
pub fn mask_last(words: &mut [u32], rows: u32) {
    words[segments(rows) - 1] &= last_mask(rows);
}

/// How many segments stay the same next, and how many mixed ones come behind them.
pub fn run_and_mixed(kind: Kind, random: &mut Random, segments: usize) -> (usize, usize) {
    match kind {
        Kind::Quiet => (random.between(1_000, 8_000), random.between(0, 1)),
        Kind::Calm => (random.between(10, 100), random.between(1, 4)),
        Kind::Dense => (0, segments),
    }
}

/// Plain words of one bitmap.
pub fn bitmap(kind: Kind, rows: u32, seed: u64) -> Vec<u32> {
    plain_words(&canonical_body(kind, rows, seed), rows)
}

fn plain_words(body: &[u32], rows: u32) -> Vec<u32> {
    let mut plain = vec![0; segments(rows)];
    zvonurel::expand(body, rows, &mut plain).expect("a sound body");
    plain
}

fn marker(value: u32, clean: usize, dirty: usize) -> u32 {
    value | (clean as u32) << CLEAN_SHIFT | (dirty as u32) << DIRTY_SHIFT
}

/// One bitmap's body, made of its runs and mixed segments, so that it takes no room for the rows of a run.
fn canonical_body(kind: Kind, rows: u32, seed: u64) -> Vec<u32> {
    let segments = segments(rows);
    let mut random = Random(seed);
    let (mut body, mut left, mut ends_mixed) = (Vec::new(), segments, false);
    while left > 0 {
        let (run, mixed) = run_and_mixed(kind, &mut random, segments);
        let value = u32::from(!random.next().is_multiple_of(2));
        let run = run.min(left);
        let mixed = mixed.min(left - run);
        for part in parts(run, MOST_CLEAN) {
            body.push(marker(value, part, 0));
        }
        for part in parts(mixed, MOST_DIRTY) {
            body.push(marker(0, 0, part));
            body.extend((0..part).map(|_| random.mixed()));
        }
        left -= run + mixed;
        ends_mixed = mixed > 0;
    }
    if ends_mixed {
        let last = body.len() - 1;
        body[last] &= last_mask(rows);
    }
    let mut canonical = vec![0; body.len()];
    let words = zvonurel::to_ewah(&body, rows, &mut canonical).expect("a sound body, and no longer one");
    canonical.truncate(words);
    canonical
}

/// So many in full parts, and what is left.
fn parts(count: usize, most: usize) -> impl Iterator<Item = usize> {
    (0..count).step_by(most).map(move |done| most.min(count - done))
}
