//! Fixed cases of rows in batches: every kind of segment at which they meet, states that aren't a writer's, and rows at
//! the limits.

use zvonurel::Format::Ewah;
use zvonurel::{segments, AppendState, MOST_CLEAN, MOST_DIRTY, MOST_ROWS, WORD_BITS};

use crate::batches::Writer;
use crate::encode::{marker, mask_last, one_run, settled};
use crate::generate::{DIRTIES, RUNS};
use crate::question::{Call, Question};
use crate::second;
use crate::session::Session;

pub fn run(session: &mut Session) {
    beginnings(session);
    meetings(session);
    states(session);
    in_use(session);
    long_runs(session);
    many_dirty_words(session);
    most_rows(session);
    cuttings(session);
}

/// Empty, full, mixed.
const KINDS: [u32; 3] = [0, u32::MAX, 0x5555_5555];

/// Rows of a kind, with a last word of another.
fn plain_of(rows: u32, kind: u32, last: u32) -> Vec<u32> {
    let mut plain = vec![kind; segments(rows)];
    if let Some(word) = plain.last_mut() {
        *word = last;
    }
    mask_last(&mut plain, rows);
    plain
}

fn beginnings(session: &mut Session) {
    for room in [0, 1, 2, 3, 9] {
        let writer = Writer::begin(session, room);
        for rows in [0, 1, 8, 31, 32, 33, 48, 64, 65, 96] {
            for (kind, last) in KINDS.into_iter().flat_map(|kind| KINDS.map(|last| (kind, last))) {
                let mut writer = writer.clone();
                for _ in 0..3 {
                    writer.add(session, rows, &plain_of(rows, kind, last));
                }
            }
        }
    }
}

/// Every number of rows in the last segment, of each kind behind each kind, and a batch of each kind.
fn meetings(session: &mut Session) {
    for rows in 0..=66 {
        for (kind, last) in KINDS.into_iter().flat_map(|kind| KINDS.map(|last| (kind, last))) {
            let plain = plain_of(rows, kind, last);
            let writer = Writer::with(rows, &settled(&plain, rows, Ewah), 0);
            for more in [0, 1, 2, 31, 32, 33, 48, 64, 65] {
                for (kind, last) in [(0, 0), (0, 5), (u32::MAX, u32::MAX), (5, 5), (u32::MAX, 0)] {
                    writer.fitting(session, more, &plain_of(more, kind, last));
                }
            }
        }
    }
}

// ---- states ----

/// So many rows, all set or none.
pub fn most(value: bool, rows: u32) -> Writer {
    Writer::with(rows, &one_run(Ewah, value, segments(rows)), 0)
}

/// 8 rows, 40 rows, the most rows, no rows; in buffers that are full or are not.
fn writers() -> Vec<Writer> {
    let (eight, forty) = ([marker(false, 0, 1), 0xF], [marker(false, 0, 2), 1, 0x80]);
    let fresh = |room| Writer::with(0, &[], room);
    let mut all = vec![fresh(0), fresh(1), fresh(4), most(false, MOST_ROWS), most(true, MOST_ROWS - 3)];
    for more in [0, 2] {
        all.push(Writer::with(8, &eight, more));
        all.push(Writer::with(40, &forty, more));
        all.push(Writer::with(64, &[marker(true, 2, 0)], more));
    }
    all
}

/// A number that is another one, near or far, or the same in its low 32 bits.
fn others(number: u64) -> impl Iterator<Item = u64> {
    let near = [1, 2, 31, 32].into_iter().flat_map(move |by| [number.wrapping_add(by), number.wrapping_sub(by)]);
    let most = u64::from(MOST_ROWS);
    near.chain([0, number + (1 << 32), number | 1 << 63, most, most + 1, u64::from(u32::MAX), u64::MAX])
        .filter(move |other| *other != number)
}

/// The same writer; with one of the state's numbers changed; with a longer or a shorter buffer; with a word of the body
/// changed, one of the first or the last.
fn spoilt(writer: &Writer) -> Vec<Writer> {
    let but = |change: &dyn Fn(&mut AppendState)| {
        let mut other = writer.clone();
        change(&mut other.state);
        other
    };
    let AppendState { room, rows, words } = writer.state;
    let mut all = vec![writer.clone()];
    all.extend(others(room).map(|room| but(&|state| state.room = room)));
    all.extend(others(rows).map(|rows| but(&|state| state.rows = rows)));
    all.extend(others(words).map(|words| but(&|state| state.words = words)));
    all.push(but(&|state| *state = AppendState { room: room + 1, rows: MOST_ROWS as u64 + 1, words: room + 1 }));
    for length in [room.saturating_sub(1), room + 1, 0] {
        let mut other = writer.clone();
        other.buffer.resize(length as usize, 7);
        all.push(other);
    }
    let places = (0..words as usize).filter(|&at| at < 3 || at + 1 == words as usize);
    for (at, bit) in places.flat_map(|at| [0, 1, 2, 8, 17, 31].map(|bit| (at, bit))) {
        let mut other = writer.clone();
        other.buffer[at] ^= 1 << bit;
        all.push(other);
    }
    all
}

/// Batches that are right, and such as are due one refusal or two.
fn batches(rows: u64) -> Vec<(u32, Vec<u32>)> {
    let pad = |rows: u32| 1 << (rows % WORD_BITS as u32);
    let many = MOST_ROWS - 7;
    // The sum with the rows is 2^32.
    let wrapping = (1_u64 << 32).saturating_sub(rows).min(u32::MAX.into()) as u32;
    let left = u64::from(MOST_ROWS).saturating_sub(rows) as u32;
    let mut all = vec![
        (0, vec![]),
        (0, vec![0]),
        (0, vec![u32::MAX]),
        (8, vec![0xF0]),
        (8, vec![]),
        (8, vec![0, 0]),
        (8, vec![pad(8)]),
        (8, vec![u32::MAX]),
        (8, vec![0, pad(8)]),
        (24, vec![0x0055_5555]),
        (56, vec![0, 0]),
        (56, vec![5, 0]),
        (56, vec![0]),
        (55, vec![0, pad(55)]),
        (55, vec![0, 0x55, pad(55)]),
        (320, [0, 5].repeat(5)),
        (320, [0, 5].repeat(4)),
        (319, [0, u32::MAX].repeat(5)),
        (many, vec![]),
        (many, vec![pad(many)]),
        (MOST_ROWS, vec![]),
        (MOST_ROWS + 1, vec![]),
        (u32::MAX, vec![u32::MAX]),
        (wrapping, vec![]),
    ];
    if left < 100 {
        for rows in [left, left + 1, left + 33] {
            all.extend(KINDS.map(|kind| (rows, plain_of(rows, kind, kind))));
            all.push((rows, vec![u32::MAX; segments(rows)]));
            all.push((rows, vec![0; segments(rows) + 1]));
        }
    }
    all
}

/// Every state with every batch.
fn states(session: &mut Session) {
    for writer in writers().iter().flat_map(spoilt) {
        for (rows, plain) in batches(writer.state.rows) {
            writer.ask(session, rows, &plain);
        }
    }
}

/// Bodies that aren't settled, or aren't of so many rows.
fn in_use(session: &mut Session) {
    let one = marker(false, 0, 1);
    let bodies: [(u32, &[u32]); 30] = [
        (96, &[marker(false, 0, 3), 0x20, 0, 1]),
        (8, &[marker(true, 0, 1), 0xF]),
        (8, &[one, 0xFF]),
        (40, &[marker(true, 1, 1), 0xFF]),
        (8, &[one, 0]),
        (32, &[one, u32::MAX]),
        (64, &[marker(false, 1, 0), marker(false, 1, 0)]),
        (40, &[marker(true, 1, 0), marker(true, 1, 0)]),
        (64, &[one, 0xF, one, 0xF]),
        (64, &[marker(false, 1, 0), one, 0xF]),
        (64, &[marker(false, 1, 0), marker(true, 0, 1), 0xF]),
        (8, &[0, one, 0xF]),
        (8, &[1, one, 0xF]),
        (8, &[one, 0xF, 0]),
        (8, &[marker(false, 1, 0), 0]),
        (8, &[marker(true, 1, 0), 1]),
        (64, &[marker(false, 0, 2), 0, 0xF]),
        (64, &[marker(false, 0, 2), 0xF, u32::MAX]),
        (0, &[0]),
        (0, &[1, 0]),
        (0, &[2]),
        (8, &[marker(false, 0, 2), 0xF]),
        (8, &[marker(false, 2, 0)]),
        (8, &[marker(true, 2, 0)]),
        (40, &[marker(false, 1, 0)]),
        (40, &[marker(true, 3, 0)]),
        (8, &[one, 0x10F]),
        (8, &[one, u32::MAX]),
        (40, &[marker(false, 0, 3), 1, 2, 3]),
        (40, &[marker(false, 0, 1), 1]),
    ];
    for (rows, body) in bodies {
        for more in [0, 3] {
            let writer = Writer::with(rows, body, more);
            for (rows, plain) in [(0, &[][..]), (8, &[0xF0]), (32, &[0]), (24, &[0])] {
                writer.ask(session, rows, plain);
            }
        }
    }
}

// ---- the limits of a marker ----

/// So many clean segments, the last with so many pads, behind a mixed one or not.
pub fn run_of(value: bool, run: usize, pads: usize, mixed: bool) -> Writer {
    let mut body = one_run(Ewah, value, run);
    if mixed {
        body.splice(0..0, [marker(false, 0, 1), 5]);
    }
    Writer::with((WORD_BITS * (run + usize::from(mixed)) - pads) as u32, &body, 0)
}

fn long_runs(session: &mut Session) {
    for (value, run) in [false, true].into_iter().flat_map(|value| RUNS.map(|run| (value, run))) {
        for (pads, mixed) in [(0, false), (0, true), (1, false), (31, true)] {
            let writer = run_of(value, run, pads, mixed);
            for rows in [0, 1, 31, 32, 33, 64, 65] {
                for (kind, last) in [(0, 0), (u32::MAX, u32::MAX), (5, 5), (u32::MAX, 0), (0, u32::MAX)] {
                    writer.fitting(session, rows, &plain_of(rows, kind, last));
                }
            }
        }
    }
    // The full marker of a run should come first.
    for value in [false, true] {
        let body = [marker(value, 1, 0), marker(value, MOST_CLEAN, 0)];
        let writer = Writer::with((WORD_BITS * (MOST_CLEAN + 1)) as u32, &body, 3);
        [0, 32].into_iter().for_each(|rows| writer.ask(session, rows, &plain_of(rows, 0, 0)));
    }
    // A batch with the run, behind a part of a run or another segment.
    let kinds =
        [(0, &[][..]), (8, &[marker(false, 1, 0)]), (8, &[marker(false, 0, 1), 5]), (33, &[marker(false, 2, 0)])];
    for ((rows, body), run) in kinds.into_iter().flat_map(|kind| RUNS.map(|run| (kind, run))) {
        let more = (WORD_BITS * run) as u32;
        let writer = Writer::with(rows, body, 0);
        for (more, last) in [(more, 0), (more - 8, 0), (more - 1, 1)] {
            writer.fitting(session, more, &plain_of(more, 0, last));
        }
    }
}

/// So many mixed segments, the last with so many pads, behind a clean one or not.
pub fn mixed_of(mixed: usize, pads: usize, clean: bool) -> Writer {
    let mut plain = vec![5; mixed + usize::from(clean)];
    if clean {
        plain[0] = 0;
    }
    let rows = (WORD_BITS * plain.len() - pads) as u32;
    Writer::with(rows, &settled(&plain, rows, Ewah), 0)
}

fn many_dirty_words(session: &mut Session) {
    for (mixed, (pads, clean)) in
        DIRTIES.into_iter().flat_map(|mixed| [(0, false), (0, true), (28, false)].map(|front| (mixed, front)))
    {
        let writer = mixed_of(mixed, pads, clean);
        for (rows, kind, last) in [(0, 0, 0), (1, 1, 1), (32, 5, 5), (33, 5, 1), (64, 5, 5), (64, 0, 5), (96, 5, 0)] {
            writer.fitting(session, rows, &plain_of(rows, kind, last));
        }
    }
    // The full marker should come first, as in the one and not in the other.
    let plain = vec![5; MOST_DIRTY + 1];
    let late = [&[marker(false, 0, 1), 5, marker(false, 0, MOST_DIRTY)][..], &plain[1..]].concat();
    let rows = (WORD_BITS * plain.len()) as u32;
    for body in [settled(&plain, rows, Ewah), late] {
        [0, 32].into_iter().for_each(|more| Writer::with(rows, &body, 3).ask(session, more, &plain_of(more, 0, 0)));
    }
    // A batch with the words, behind a part of a segment.
    for (rows, body) in [(0, &[][..]), (4, &[marker(false, 0, 1), 5]), (32, &[marker(false, 0, 1), 5])] {
        for mixed in DIRTIES {
            Writer::with(rows, body, 0).fitting(session, (WORD_BITS * mixed) as u32, &vec![5; mixed]);
        }
    }
}

// ---- the most rows ----

/// Mixed segments, the last begun, behind all the others of about the most rows: as the reference writes them.
fn most_mixed(rows: u32) -> Writer {
    const MIXED: u32 = 100;
    let mut writer = most(false, rows - MIXED).in_room(1_000);
    let written = second::append(&plain_of(MIXED, 5, 5), MIXED, &mut writer.state, &mut writer.buffer);
    written.expect("there is room");
    writer.in_room(0)
}

fn most_rows(session: &mut Session) {
    for short in [0, 1, 2, 31, 32, 33, 48, 65] {
        let rows = MOST_ROWS - short;
        for writer in [most(false, rows), most(true, rows), most_mixed(rows)] {
            for more in [0, 1, short.saturating_sub(1), short, short + 1, short + 2, short + 32] {
                for kind in KINDS {
                    writer.fitting(session, more, &plain_of(more, kind, kind));
                    writer.in_room(writer.body().len() + 5).ask(session, more, &plain_of(more, kind, 0));
                }
            }
            for more in [MOST_ROWS, u32::MAX, u32::MAX - MOST_ROWS + short, u32::MAX - MOST_ROWS + short + 1] {
                writer.ask(session, more, &[]);
            }
        }
    }
    // One row over, and far over: no state has so many.
    for rows in [MOST_ROWS + 1, MOST_ROWS + 32, u32::MAX] {
        for more in [0, 1] {
            most(false, rows).ask(session, more, &plain_of(more, 0, 0));
        }
    }
}

// ---- cuttings ----

/// The same rows cut in several ways, in just the room that is needed.
fn cuttings(session: &mut Session) {
    for rows in [0, 1, 31, 32, 33, 64, 70, 96, 100, 700, 5_000] {
        for (kind, last) in KINDS.into_iter().flat_map(|kind| KINDS.map(|last| (kind, last))) {
            let plain = plain_of(rows, kind, last);
            let room = settled(&plain, rows, Ewah).len();
            for seed in 0..10 {
                session.ask(&plain, Question::lone(Call::Batches, Ewah, rows).number(seed).room(room));
            }
        }
    }
    for run in [MOST_CLEAN, MOST_CLEAN + 1] {
        let rows = (WORD_BITS * run) as u32;
        for plain in [vec![0; run], vec![u32::MAX; run]] {
            (0..3).for_each(|seed| {
                session.ask(&plain, Question::lone(Call::Batches, Ewah, rows).number(seed).room(2));
            });
        }
    }
}
