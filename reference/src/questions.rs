//! Answers over two bitmaps, one, or a list.

use crate::body::{settle, settled, Body};
use crate::format::Format;
use crate::index::{open, Index};
use crate::limits::{MOST_NAMED, TALLY_ENTRIES};
use crate::mistakes::{limit, mistaken, mistaken_in, Mistake, NAMED_ONCE};
use crate::refusal::{bad_argument, must_fit, Refusal};
use crate::segment::{segments_in, Segment};
use crate::spans::Spans;

#[derive(Debug, Clone, PartialEq, Eq)]
pub struct Answer {
    pub words: Vec<u32>,
    pub stretches: u32,
}

/// What is kept of the named bodies besides their rows.
struct Named {
    /// That of the index, and so of the answer.
    format: Format,
    /// Words of their bodies, repeats added again.
    words: usize,
    /// The segments at which pieces end.
    ends: Spans<bool>,
    /// All pieces, for a mistake only.
    pieces: usize,
    /// The segments under some dirty word, for a mistake only.
    dirty: Spans<bool>,
    /// Runs of ones over the pads, for mistakes only.
    over_pads: usize,
}

impl Named {
    /// None named yet.
    fn of(index: &Index) -> Named {
        let format = index.format;
        Named { format, words: 0, ends: Spans::none(), pieces: 0, dirty: Spans::none(), over_pads: 0 }
    }

    /// Names bitmap `k` and gives it, taken apart.
    fn name(&mut self, index: &Index, k: u32) -> Result<Body, Refusal> {
        let body = index.body(k)?;
        self.words += index.part(k)?.len();
        self.pieces += body.pieces.len();
        self.ends.unite(Spans::at(body.pieces.iter().map(|piece| piece.last)));
        self.dirty.unite(Spans::at(body.pieces.iter().filter(|piece| piece.dirty).map(|piece| piece.last)));
        self.over_pads += usize::from(body.pads.any());
        Ok(body)
    }

    fn stretches(&self) -> u32 {
        if mistaken(Mistake::StretchPerBitmap) {
            return self.pieces as u32;
        }
        self.ends.count() as u32
    }

    /// The settled body of the answer's rows, if it fits.
    fn write(&self, rows: &Spans<bool>, room: usize) -> Result<Vec<u32>, Refusal> {
        let format = if mistaken(Mistake::AnswerInEwah) { Format::Ewah } else { self.format };
        let kept = mistaken_in(self.format, Mistake::CleanKeptDirty, Mistake::CleanKeptLiteral);
        let words = if kept { self.kept_dirty(rows) } else { settled(rows, format) };
        if mistaken(Mistake::RoomByBound) {
            must_fit(2 * self.words, room)?;
        }
        must_fit(words.len(), room)?;
        Ok(words)
    }

    /// What a mistake writes: a dirty word wherever a named bitmap has one.
    fn kept_dirty(&self, rows: &Spans<bool>) -> Vec<u32> {
        let segments = segments_in(rows, self.format);
        let mut dirty = Spans::alike(segments.len(), false);
        dirty.unite(self.dirty.clone());
        let kept = |segment: Segment, dirty: bool| Segment { clean: segment.clean.filter(|_| !dirty), ..segment };
        settle(&segments.with(&dirty, kept), self.format)
    }
}

/// Sets every pad of the last segment: what some mistakes do.
fn fill_pads(rows: &mut Spans<bool>, format: Format) {
    let whole = rows.len().next_multiple_of(format.width());
    rows.push(whole - rows.len(), true);
}

// ---- two bitmaps, or one ----

fn of_two(index: &[u32], j: u32, k: u32, room: usize, rule: fn(bool, bool) -> bool) -> Result<Vec<u32>, Refusal> {
    let index = open(index)?;
    let mut named = Named::of(&index);
    let first = named.name(&index, j)?;
    let second = named.name(&index, k)?;
    let mut answer = first.rows.with(&second.rows, rule);
    let pads_too = mistaken_in(index.format, Mistake::PairKeepsPads, Mistake::WahPairKeepsPads);
    if pads_too && first.pads.with(&second.pads, rule).any() {
        fill_pads(&mut answer, index.format);
    }
    named.write(&answer, room)
}

pub fn and(index: &[u32], j: u32, k: u32, room: usize) -> Result<Vec<u32>, Refusal> {
    of_two(index, j, k, room, |a, b| a && b)
}

pub fn or(index: &[u32], j: u32, k: u32, room: usize) -> Result<Vec<u32>, Refusal> {
    of_two(index, j, k, room, |a, b| a || b)
}

pub fn xor(index: &[u32], j: u32, k: u32, room: usize) -> Result<Vec<u32>, Refusal> {
    of_two(index, j, k, room, |a, b| a != b)
}

/// The rows of bitmap `j` that bitmap `k` has not.
pub fn and_not(index: &[u32], j: u32, k: u32, room: usize) -> Result<Vec<u32>, Refusal> {
    if mistaken(Mistake::AndNotSwapped) {
        return of_two(index, j, k, room, |a, b| b && !a);
    }
    of_two(index, j, k, room, |a, b| a && !b)
}

pub fn not(index: &[u32], k: u32, room: usize) -> Result<Vec<u32>, Refusal> {
    let index = open(index)?;
    let mut named = Named::of(&index);
    let body = named.name(&index, k)?;
    let mut answer = body.rows.map(|set| !set);
    let always = mistaken_in(index.format, Mistake::NotFillsPads, Mistake::WahNotFillsPads);
    if always || mistaken(Mistake::NotKeepsPads) && named.over_pads > 0 {
        fill_pads(&mut answer, index.format);
    }
    if mistaken(Mistake::NotKeepsRun) && named.over_pads > 0 {
        let part = answer.len() % index.format.width();
        answer.split_off(answer.len() - part);
        answer.push(part, true);
    }
    named.write(&answer, room)
}

// ---- a list ----

/// The list itself: 1 to `MOST_NAMED` numbers, each of a bitmap that is there. The mistakes are about the limit.
fn check_list(index: &Index, list: &[u32], one_over: Mistake, as_once: Mistake) -> Result<(), Refusal> {
    let most = limit(MOST_NAMED, one_over, as_once, NAMED_ONCE);
    let good = (1..=most).contains(&list.len()) && list.iter().all(|&k| k < index.bitmaps());
    if good {
        Ok(())
    } else {
        Err(bad_argument())
    }
}

/// For each row, how many of the list hold it; with the mistake `in_byte`, what a byte keeps of that.
fn holders(index: &Index, list: &[u32], named: &mut Named, in_byte: Mistake) -> Result<Spans<usize>, Refusal> {
    let mut held = Spans::alike(index.rows as usize, 0);
    for (place, &k) in list.iter().enumerate() {
        let rows = named.name(index, k)?.rows;
        if mistaken(Mistake::RepeatCountsOnce) && list[..place].contains(&k) {
            continue;
        }
        held = held.with(&rows, |c, set| c + usize::from(set));
    }
    if mistaken(in_byte) {
        held = held.map(|c| usize::from(c as u8));
    }
    Ok(held)
}

/// The threshold answer, and its rows.
pub(crate) fn threshold_rows(
    index: &[u32],
    list: &[u32],
    t: u32,
    room: usize,
) -> Result<(Answer, Spans<bool>), Refusal> {
    let index = open(index)?;
    check_list(&index, list, Mistake::ThresholdListOneOver, Mistake::ThresholdListAsOnce)?;
    let t = t as usize;
    if t == 0 || (t > list.len() && !mistaken(Mistake::HighThresholdEmpty)) {
        return Err(bad_argument());
    }
    let mut named = Named::of(&index);
    let held = holders(&index, list, &mut named, Mistake::ThresholdInByte)?;
    let enough = |c: usize| {
        if mistaken(Mistake::ThresholdAboveT) {
            c > t
        } else {
            c >= t
        }
    };
    let rows = held.map(enough);
    let words = named.write(&rows, room)?;
    Ok((Answer { words, stretches: named.stretches() }, rows))
}

/// Rows with `t` holders or more.
pub fn threshold(index: &[u32], list: &[u32], t: u32, room: usize) -> Result<Answer, Refusal> {
    Ok(threshold_rows(index, list, t, room)?.0)
}

/// The rows at whose number of holders the table says yes.
pub fn symmetric(index: &[u32], list: &[u32], table: &[u32], room: usize) -> Result<Answer, Refusal> {
    let index = open(index)?;
    check_list(&index, list, Mistake::TableListOneOver, Mistake::TableListAsOnce)?;
    let most = if mistaken(Mistake::TableTwoIsYes) { 2 } else { 1 };
    if table.len() != list.len() + 1 || table.iter().any(|&entry| entry > most) {
        return Err(bad_argument());
    }
    let mut named = Named::of(&index);
    let held = holders(&index, list, &mut named, Mistake::TableInByte)?;
    let mut rows = held.map(|c| table[c] != 0);
    let over = named.over_pads;
    let always = mistaken_in(index.format, Mistake::TableFillsPads, Mistake::WahTableFillsPads);
    let filled = always && table[0] == 1
        || mistaken(Mistake::TableFillsUnderRun) && table[0] == 1 && over > 0
        || mistaken(Mistake::TableKeepsPads) && table[over] == 1 && over > 0;
    if filled {
        fill_pads(&mut rows, index.format);
    }
    let words = named.write(&rows, room)?;
    Ok(Answer { words, stretches: named.stretches() })
}

/// Entries of a tally that are filled: all, but for mistakes.
fn entries_filled() -> usize {
    if mistaken(Mistake::TallyLastMissing) {
        return MOST_NAMED;
    }
    if mistaken(Mistake::TallyAsOnce) {
        return NAMED_ONCE + 1;
    }
    TALLY_ENTRIES
}

/// Entry c: how many rows have c holders.
pub fn histogram(index: &[u32], list: &[u32]) -> Result<[u32; TALLY_ENTRIES], Refusal> {
    let index = open(index)?;
    check_list(&index, list, Mistake::TallyListOneOver, Mistake::TallyListAsOnce)?;
    let mut named = Named::of(&index);
    let held = holders(&index, list, &mut named, Mistake::TallyInByte)?;
    let mut tally = [0; TALLY_ENTRIES];
    for (rows, c) in held.iter().filter(|&(_, c)| c < entries_filled()) {
        tally[c] += rows.len() as u32;
    }
    let pads = (held.len().next_multiple_of(index.format.width()) - held.len()) as u32;
    if mistaken_in(index.format, Mistake::TallyCountsPads, Mistake::WahTallyCountsPads) {
        tally[0] += pads;
    }
    if mistaken(Mistake::TallyCountsRunPads) && named.over_pads > 0 {
        tally[named.over_pads] += pads;
    }
    Ok(tally)
}
