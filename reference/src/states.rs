//! Is a state the one that a writer left, as far as can be told? And what testing it could get wrong.

use crate::append::AppendState;
use crate::body::{check_words, read, settle, settled, Body};
use crate::format::Format::Ewah;
use crate::limits::{MOST_CLEAN, MOST_DIRTY, MOST_ROWS, WORD_BITS};
use crate::mistakes::{mistaken, with_mistake, Mistake};
use crate::refusal::{refusal, Refusal};
use crate::segment::{segments_in, Segment};
use crate::spans::Spans;

/// Refusal 12.
fn broken() -> Refusal {
    refusal(12, 0, 0)
}

/// The rows of the body in use; refusal 12 if the three numbers can't be, or if it isn't the settled body of the rows
/// accepted.
pub(crate) fn so_far(state: AppendState, buffer: &[u32]) -> Result<Spans<bool>, Refusal> {
    let room = buffer.len() as u64;
    if other_length(state.room, room) || too_many(state.rows) || too_long(state.words, room) {
        return Err(broken());
    }
    // Only mistakes let a larger number come here.
    let rows = state.rows.min(u32::MAX.into()) as u32;
    let body = &buffer[..state.words.min(room) as usize];
    if let Some(rows) = taken_anyway(rows, body, buffer)? {
        return Ok(rows);
    }
    if let Err(fault) = check_words(body, rows, Ewah, 0, 0) {
        return read_anyway(body, rows, fault).ok_or(match mistaken(Mistake::BrokenStateTellsPlace) {
            true => Refusal { number: 12, ..fault },
            false => broken(),
        });
    }
    let used = Used::of(body, rows);
    match used.settled == body || used.passes() {
        true => Ok(used.read.rows),
        false => Err(broken()),
    }
}

// ---- the three numbers ----

/// The state as it is looked at.
pub(crate) fn seen(state: AppendState) -> AppendState {
    let low = |number: u64, m| if mistaken(m) { u64::from(number as u32) } else { number };
    AppendState {
        room: low(state.room, Mistake::RoomInWord),
        rows: low(state.rows, Mistake::StateRowsInWord),
        words: low(state.words, Mistake::StateWordsInWord),
    }
}

fn other_length(begun: u64, room: u64) -> bool {
    let passes = mistaken(Mistake::RoomUncompared)
        || mistaken(Mistake::LongerBufferPasses) && room > begun
        || mistaken(Mistake::ShorterBufferPasses) && room < begun;
    room != begun && !passes
}

fn too_many(rows: u64) -> bool {
    let most = u64::from(MOST_ROWS);
    rows > most && !mistaken(Mistake::StateRowsPass) || rows == most && mistaken(Mistake::FullRowsRefused)
}

fn too_long(words: u64, room: u64) -> bool {
    words > room && !mistaken(Mistake::StateWordsPass)
        || words == room && room > 0 && mistaken(Mistake::FullBufferRefused)
}

/// What mistakes make of a state without rows or without words, before the body is looked at.
fn taken_anyway(rows: u32, body: &[u32], buffer: &[u32]) -> Result<Option<Spans<bool>>, Refusal> {
    let fresh = rows == 0 && body.is_empty();
    if mistaken(Mistake::FreshBufferLookedAt) && fresh && buffer.iter().any(|&word| word != 0) {
        return Err(broken());
    }
    let passes = mistaken(Mistake::WordsWithoutRowsPass) && rows == 0
        || mistaken(Mistake::RowsWithoutWordsPass) && body.is_empty();
    Ok(passes.then(|| Spans::alike(rows as usize, false)))
}

// ---- a body with a fault ----

type Unseen = fn(&Refusal, usize) -> bool;

/// The faults that mistakes don't see, in a body of so many words.
const UNSEEN: [(Mistake, Unseen); 4] = [
    (Mistake::DirtyPastUsePasses, |fault, _| fault.number == 5),
    (Mistake::LongBodyPasses, |fault, words| fault.number == 6 && fault.word < words as u64),
    (Mistake::ShortBodyPasses, |fault, words| fault.number == 6 && fault.word == words as u64 && words > 0),
    (Mistake::PadInUsePasses, |fault, _| fault.number == 7),
];

/// The rows of a body whose fault isn't seen: what comes before it, and then none set. Pad bits are left out.
fn read_anyway(body: &[u32], rows: u32, fault: Refusal) -> Option<Spans<bool>> {
    let unseen = UNSEEN.iter().any(|(m, unseen)| mistaken(*m) && unseen(&fault, body.len()));
    let sound = if fault.number == 7 { body } else { &body[..fault.word as usize] };
    unseen.then(|| {
        let mut read = read(sound, rows, Ewah).rows;
        read.push(rows as usize - read.len(), false);
        read
    })
}

// ---- a body that isn't settled ----

/// A sound body in use.
struct Used<'a> {
    body: &'a [u32],
    read: Body,
    /// How its rows should be written.
    settled: Vec<u32>,
}

type Passes = fn(&Used) -> bool;

/// Which bodies besides the settled one mistakes let pass.
const PASSES: [(Mistake, Passes); 9] = [
    (Mistake::WastefulPasses, |_| true),
    (Mistake::ShortestPasses, |used| used.is_shortest()),
    (Mistake::IdleMarkersPass, |used| used.without_idle() == used.settled),
    (Mistake::CleanDirtyPasses, |used| used.with_dirty_kept() == used.body),
    (Mistake::DirtyFullTailPasses, |used| {
        with_mistake(Mistake::FullTailDirty, || settled(&used.read.rows, Ewah)) == used.body
    }),
    (Mistake::UnjoinedPasses, |used| used.read.runs.iter().any(|run| used.in_two(run.start) == used.body)),
    (Mistake::EmptyRunOfOnesPasses, |used| used.with_empty_runs_zero() == used.settled),
    (Mistake::LongRunAnyhowPasses, |used| {
        used.is_shortest() && used.read.runs.iter().any(|run| run.len() == MOST_CLEAN)
    }),
    (Mistake::ManyDirtyAnyhowPasses, |used| {
        used.is_shortest() && used.read.dirties.iter().any(|words| words.len() == MOST_DIRTY)
    }),
];

impl Used<'_> {
    fn of(body: &[u32], rows: u32) -> Used<'_> {
        let read = read(body, rows, Ewah);
        let settled = settled(&read.rows, Ewah);
        Used { body, read, settled }
    }

    fn passes(&self) -> bool {
        PASSES.iter().any(|(m, passes)| mistaken(*m) && passes(self))
    }

    fn is_shortest(&self) -> bool {
        self.body.len() == self.settled.len()
    }

    /// Each marker with its dirty words, and how many clean segments it has.
    fn markers(&self) -> impl Iterator<Item = (&[u32], usize)> + '_ {
        let mut rest = self.body;
        self.read.runs.iter().zip(&self.read.dirties).map(move |(run, dirty)| {
            let (marker, behind) = rest.split_at(1 + dirty.len());
            rest = behind;
            (marker, run.len())
        })
    }

    fn without_idle(&self) -> Vec<u32> {
        let busy = self.markers().filter(|(marker, clean)| marker.len() + clean > 1);
        busy.flat_map(|(marker, _)| marker.to_vec()).collect()
    }

    /// The body with the value 0 in markers that have no clean segments.
    fn with_empty_runs_zero(&self) -> Vec<u32> {
        let zeroed = self.markers().map(|(marker, clean)| match clean {
            0 => [&[marker[0] & !1], &marker[1..]].concat(),
            _ => marker.to_vec(),
        });
        zeroed.flatten().collect()
    }

    /// The settled body, if the segments under dirty words were mixed.
    fn with_dirty_kept(&self) -> Vec<u32> {
        let segments = segments_in(&self.read.rows, Ewah);
        let mut dirty = Spans::over(self.read.dirties.iter().cloned());
        dirty.push(segments.len() - dirty.len(), false);
        let kept = |segment: Segment, dirty| match dirty {
            true => Segment { clean: None, ..segment },
            false => segment,
        };
        settle(&segments.with(&dirty, kept), Ewah)
    }

    /// Two settled bodies, one behind the other: of the segments before this one, and of the others.
    fn in_two(&self, segment: usize) -> Vec<u32> {
        let mut front = self.read.rows.clone();
        let rest = front.split_off(segment * WORD_BITS);
        [settled(&front, Ewah), settled(&rest, Ewah)].concat()
    }
}
