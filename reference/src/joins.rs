//! The body of the rows so far with a batch behind them, and what joining these could get wrong.

use crate::body::{settle, settled};
use crate::format::Format::Ewah;
use crate::limits::WORD_BITS;
use crate::mistakes::{mistaken, with_mistake, Mistake};
use crate::segment::{segments_in, Segment};
use crate::spans::Spans;

/// The settled body of all rows.
pub(crate) fn joined(so_far: &Spans<bool>, own: &Spans<bool>) -> Vec<u32> {
    let mut all = so_far.clone();
    all.append(own);
    let wrong = WRONG.iter().find(|(m, _)| mistaken(*m)).filter(|_| own.len() > 0);
    match wrong {
        Some((_, wrong)) => wrong(&Join::of(so_far, own, all)),
        None => settled(&all, Ewah),
    }
}

// ---- mistakes ----

struct Join<'a> {
    so_far: &'a Spans<bool>,
    own: &'a Spans<bool>,
    all: Spans<bool>,
    /// How many whole segments the rows so far have.
    whole: usize,
    /// How many rows of theirs lie in a segment that was begun.
    part: usize,
}

type Wrong = fn(&Join) -> Vec<u32>;

/// The body as each mistake writes it.
const WRONG: [(Mistake, Wrong); 15] = [
    (Mistake::PartSegmentTwice, |join| join.part_twice()),
    (Mistake::PartSegmentLost, |join| {
        let whole = join.so_far.part(0..WORD_BITS * join.whole);
        settled(&chain([&whole, &Spans::alike(join.part, false), join.own]), Ewah)
    }),
    (Mistake::BatchAtNextSegment, |join| {
        let pads = (WORD_BITS - join.part) % WORD_BITS;
        settled(&chain([join.so_far, &Spans::alike(pads, false), join.own]), Ewah)
    }),
    (Mistake::TailRunSpreads, |join| settled(&join.run_spread(), Ewah)),
    (Mistake::BatchInFront, |join| settled(&chain([join.own, join.so_far]), Ewah)),
    (Mistake::CarriedBitsLost, |join| settled(&join.without_carried(), Ewah)),
    (Mistake::LaterWordsUnshifted, |join| settled(&join.unshifted(), Ewah)),
    (Mistake::RunNotJoined, |join| {
        join.in_two(|before, behind| before.clean.is_some() && before.clean == behind.clean)
    }),
    (Mistake::DirtyNotJoined, |join| join.in_two(|before, behind| before.clean.is_none() && behind.clean.is_none())),
    (Mistake::DirtyNotCarried, |join| join.in_two(|before, behind| before.clean.is_some() && behind.clean.is_none())),
    (Mistake::EmptiedMarkerKept, |join| {
        let emptied = join.part > 0 && join.begun().same().is_some();
        join.in_two(|before, behind| emptied && before.clean.is_none() && behind.clean.is_none())
    }),
    (Mistake::JoinedRunCarries, |join| join.settled_with(Mistake::RunCarries)),
    (Mistake::JoinedDirtyOneMore, |join| join.settled_with(Mistake::FullMarkerOneMore)),
    (Mistake::AppendedTailDirty, |join| join.settled_with(Mistake::FullTailDirty)),
    (Mistake::AppendedTailOwnRun, |join| join.settled_with(Mistake::FullTailOwnRun)),
];

fn chain<const N: usize>(parts: [&Spans<bool>; N]) -> Spans<bool> {
    let mut all = Spans::none();
    parts.iter().for_each(|part| all.append(part));
    all
}

impl Join<'_> {
    fn of<'a>(so_far: &'a Spans<bool>, own: &'a Spans<bool>, all: Spans<bool>) -> Join<'a> {
        let rows = so_far.len();
        Join { so_far, own, all, whole: rows / WORD_BITS, part: rows % WORD_BITS }
    }

    fn settled_with(&self, m: Mistake) -> Vec<u32> {
        with_mistake(m, || settled(&self.all, Ewah))
    }

    /// The rows so far of the segment that was begun.
    fn begun(&self) -> Spans<bool> {
        self.so_far.part(WORD_BITS * self.whole..self.so_far.len())
    }

    /// The segment that was begun stays, and comes again with the batch.
    fn part_twice(&self) -> Vec<u32> {
        let mut segments = segments_in(self.so_far, Ewah);
        let mut all = segments_in(&self.all, Ewah);
        segments.append(&all.split_off(self.whole));
        settle(&segments, Ewah)
    }

    /// A begun segment with all its rows set is all ones.
    fn run_spread(&self) -> Spans<bool> {
        let spread = match self.part > 0 && self.begun().same() == Some(true) {
            true => (WORD_BITS - self.part).min(self.own.len()),
            false => 0,
        };
        chain([self.so_far, &Spans::alike(spread, true), &self.own.part(spread..self.own.len())])
    }

    /// Of each word of the batch the bits that belong to the segment behind aren't set.
    fn without_carried(&self) -> Spans<bool> {
        let mut kept = Spans::alike(WORD_BITS * (self.whole + 1), true);
        while kept.len() < self.all.len() {
            kept.push(self.part, false);
            kept.push(WORD_BITS - self.part, true);
        }
        self.all.with(&kept, |set, kept| set && kept)
    }

    /// The words of the batch behind its first lie in segments as they are, over the bits carried there.
    fn unshifted(&self) -> Spans<bool> {
        if self.part == 0 || self.own.len() <= WORD_BITS {
            return self.all.clone();
        }
        let first = self.own.part(0..WORD_BITS - self.part);
        let later = self.own.part(WORD_BITS..self.own.len());
        chain([self.so_far, &first, &later, &Spans::alike(self.part, false)])
    }

    /// Two settled bodies, one behind the other: of the whole segments so far, and of the others; if there are such, and
    /// the rule says so of the two segments at which they meet.
    fn in_two(&self, rule: impl Fn(Segment, Segment) -> bool) -> Vec<u32> {
        let mut front = segments_in(&self.all, Ewah);
        let rest = front.split_off(self.whole);
        let ends = (front.iter().next_back(), rest.iter().next());
        match ends {
            (Some((_, before)), Some((_, behind))) if rule(before, behind) => {
                [settle(&front, Ewah), settle(&rest, Ewah)].concat()
            }
            _ => settled(&self.all, Ewah),
        }
    }
}
