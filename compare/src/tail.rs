//! Bitmaps whose last segment is what matters.

use zvonurel::Format::{self, Ewah, Wah};

use crate::encode::{fill, full, index_in, joined, last_mask, marker, settled};

/// How a segment is spelt.
#[derive(Clone, Copy, PartialEq, Eq)]
pub enum Spelling {
    Run(bool),
    /// A dirty word or a literal; pads are cleared.
    Dirty(u32),
}

use Spelling::{Dirty, Run};

/// Mixed, unless it is cut to its first row.
pub const SOME: u32 = 0x9999_9999;

pub const SPELLINGS: [Spelling; 5] = [Run(false), Run(true), Dirty(0), Dirty(u32::MAX), Dirty(SOME)];

/// The segments before the last one in bitmaps that are asked two by two.
pub const FRONTS: [Spelling; 3] = [Run(false), Run(true), Dirty(SOME)];

/// A bitmap of which all segments before the last are spelt alike.
#[derive(Clone, Copy)]
pub struct Tail {
    pub format: Format,
    pub rows: u32,
    pub front: Spelling,
    pub last: Spelling,
}

impl Tail {
    fn segments(&self) -> usize {
        self.format.segments(self.rows)
    }

    /// Is it spelt so? Without segments before the last one any front will do.
    pub fn is(&self, front: Spelling, last: Spelling) -> bool {
        self.last == last && (self.front == front || self.segments() == 1)
    }

    fn spelling(&self, at: usize) -> Spelling {
        if at + 1 < self.segments() {
            self.front
        } else {
            self.last
        }
    }

    /// The segments, pads cleared.
    fn words(&self) -> Vec<u32> {
        let word = |at| match self.spelling(at) {
            Run(value) => full(self.format) * u32::from(value),
            Dirty(word) => word & full(self.format),
        };
        let mut words: Vec<u32> = (0..self.segments()).map(word).collect();
        if let Some(last) = words.last_mut() {
            *last &= last_mask(self.rows, self.format);
        }
        words
    }

    pub fn plain(&self) -> Vec<u32> {
        joined(&self.words(), self.rows, self.format)
    }

    /// How many segments from here on are spelt by such a run, or by dirty words.
    fn alike(&self, at: usize, run: Option<bool>) -> usize {
        let same = |&at: &usize| match self.spelling(at) {
            Run(value) => run == Some(value),
            Dirty(_) => run.is_none(),
        };
        (at..self.segments()).take_while(same).count()
    }

    /// As few runs as there can be, or one for each segment.
    pub fn body(&self, joined: bool) -> Vec<u32> {
        match self.format {
            Ewah => self.markers(joined),
            Wah => self.fills(joined),
        }
    }

    fn markers(&self, joined: bool) -> Vec<u32> {
        let words = self.words();
        let most = if joined { words.len() } else { 1 };
        let (mut body, mut at) = (Vec::new(), 0);
        while at < words.len() {
            let value = self.spelling(at) == Run(true);
            let clean = self.alike(at, Some(value)).min(most);
            at += clean;
            let dirty = self.alike(at, None).min(most - if joined { 0 } else { clean });
            body.push(marker(value, clean, dirty));
            body.extend(&words[at..at + dirty]);
            at += dirty;
        }
        body
    }

    fn fills(&self, joined: bool) -> Vec<u32> {
        let words = self.words();
        let most = if joined { words.len() } else { 1 };
        let (mut body, mut at) = (Vec::new(), 0);
        while at < words.len() {
            let covered = match self.spelling(at) {
                Run(value) => self.alike(at, Some(value)).min(most),
                Dirty(_) => 1,
            };
            body.push(match self.spelling(at) {
                Run(value) => fill(value, covered),
                Dirty(_) => words[at],
            });
            at += covered;
        }
        body
    }

    /// Every body that is tried of it.
    pub fn forms(&self) -> Vec<Vec<u32>> {
        let (joined, each) = (self.body(true), self.body(false));
        match self.format {
            Ewah => (0..4).map(|which| with_idle(&joined, which)).chain([each]).collect(),
            Wah => vec![joined, each, settled(&self.plain(), self.rows, Wah)],
        }
    }
}

/// Every front with every last segment.
pub fn tails(format: Format, rows: u32, fronts: &[Spelling]) -> Vec<Tail> {
    let fronts = if format.segments(rows) > 1 { fronts } else { &fronts[..1] };
    let with = |&front: &Spelling| SPELLINGS.map(|last| Tail { format, rows, front, last });
    fronts.iter().flat_map(with).collect()
}

/// Idle markers before a body, behind it, on both sides or on none.
pub fn with_idle(body: &[u32], which: usize) -> Vec<u32> {
    let idle = [marker(true, 0, 0), marker(false, 0, 0)];
    let (before, behind) = (&idle[..which % 2], &idle[..which / 2 % 2 * 2]);
    [before, body, behind].concat()
}

/// An index of their bodies, in each form in turns.
pub fn index(tails: &[Tail]) -> Vec<u32> {
    let (format, rows) = (tails[0].format, tails[0].rows);
    let body = |(turn, tail): (usize, &Tail)| {
        let forms = tail.forms();
        forms[turn % forms.len()].clone()
    };
    let bodies: Vec<Vec<u32>> = (rows as usize..).zip(tails).map(body).collect();
    index_in(format, rows, &bodies)
}
