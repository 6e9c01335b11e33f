//! A writer that takes rows in batches, worked out by hand.

mod common;
use common::bodies::{bodies, rows_to_try, settled};
use common::*;
use reference::limits::*;
use reference::*;

const BROKEN: Refusal = Refusal { number: 12, bitmap: 0, word: 0 };
const BAD: Refusal = Refusal { number: 8, bitmap: 0, word: 0 };
const TOO_MANY: Refusal = Refusal { number: 3, bitmap: 0, word: 1 };

/// What lies in a buffer beforehand, each word something else.
fn filled(room: usize) -> Vec<u32> {
    (0..room as u32).map(|at| 0xABCD_0000 + at).collect()
}

/// A state with its buffer, and what the buffer was at first.
#[derive(Clone)]
struct Writer {
    state: AppendState,
    buffer: Vec<u32>,
}

impl Writer {
    fn new(room: usize) -> Writer {
        let buffer = filled(room);
        Writer { state: begin(&buffer), buffer }
    }

    /// A writer that has this body of so many rows, in a buffer of its words and so many more.
    fn with(rows: u64, body: &[u32], more: usize) -> Writer {
        let buffer = [body, &filled(more)].concat();
        Writer { state: AppendState { room: buffer.len() as u64, rows, words: body.len() as u64 }, buffer }
    }

    fn body(&self) -> &[u32] {
        &self.buffer[..self.state.words as usize]
    }

    /// Adds rows. A refusal changes nothing; else the body has the words told, those past it stay, and it is no shorter
    /// than before.
    fn add(&mut self, rows: u32, plain: &[u32]) -> Result<usize, Refusal> {
        let before = self.clone();
        let told = append(&mut self.state, &mut self.buffer, rows, plain);
        match told {
            Ok(words) => {
                assert_eq!((self.state.room, self.state.words), (before.state.room, words as u64));
                assert_eq!(self.state.rows, before.state.rows + u64::from(rows));
                assert_eq!(self.buffer[words..], before.buffer[words..]);
                assert!(self.state.words >= before.state.words);
            }
            Err(_) => assert_eq!((self.state, &self.buffer), (before.state, &before.buffer)),
        }
        told
    }

    /// Adds rows, one bool each, and gives the body.
    fn add_rows(&mut self, rows: &[bool]) -> &[u32] {
        self.add(rows.len() as u32, &plain(rows)).unwrap();
        self.body()
    }

    /// The same state, with other numbers.
    fn but(&self, change: impl Fn(&mut AppendState)) -> Writer {
        let mut other = self.clone();
        change(&mut other.state);
        other
    }

    /// Refused with 12, rows or none, and whatever else would be refused.
    fn is_broken(&self) {
        for (rows, plain) in [(0, &[][..]), (8, &[0xF0]), (8, &[0x100]), (8, &[]), (u32::MAX, &[])] {
            assert_eq!(self.clone().add(rows, plain), Err(BROKEN));
        }
    }
}

#[test]
fn beginning() {
    for room in [0, 1, 9] {
        assert_eq!(begin(&filled(room)), AppendState { room: room as u64, rows: 0, words: 0 });
        assert_eq!(begin(&vec![0; room]), AppendState { room: room as u64, rows: 0, words: 0 });
        assert_eq!(Writer::new(room).add(0, &[]), Ok(0));
    }
    // The first row is a run of one segment, set or not.
    for row in [0, 1] {
        assert_eq!(Writer::new(0).add(1, &[row]), Err(no(9, 0, 1)));
        let mut writer = Writer::new(1);
        assert_eq!((writer.add(1, &[row]), writer.body()), (Ok(1), &[2 + row][..]));
    }
}

#[test]
fn readings_in_batches() {
    // 40 rows, all set.
    let mut writer = Writer::new(3);
    assert_eq!(writer.add_rows(&[true; 20]), [3]);
    assert_eq!(writer.add_rows(&[true; 20]), [5]);
    assert_eq!(writer.add_rows(&[true; 24]), [5]);
    // 40 rows, rows 0 and 39: the second marker goes when its only segment becomes mixed.
    let mut writer = Writer::new(3);
    assert_eq!(writer.add_rows(&[true]), [3]);
    assert_eq!(writer.add_rows(&[false]), [0x0002_0000, 1]);
    assert_eq!(writer.add_rows(&[false; 37]), [0x0002_0000, 1, 2]);
    assert_eq!(writer.add_rows(&[true]), [0x0004_0000, 1, 0x80]);
    // 96 rows, rows 5 and 64.
    let mut writer = Writer::new(4);
    assert_eq!(writer.add(64, &[0x20, 0]), Ok(3));
    assert_eq!(writer.body(), [0x0002_0000, 0x20, 2]);
    assert_eq!(writer.add_rows(&[true]), [0x0002_0000, 0x20, 2, 3]);
    assert_eq!(writer.add_rows(&[false; 31]), FIVE_64);
    // A day of half hours, and another: 0 to 47, 48 to 95.
    let mut writer = Writer::new(4);
    assert_eq!(writer.add(48, &[0, 0xC000]), Ok(2));
    assert_eq!(writer.body(), [0x0002_0002, 0xC000]);
    assert_eq!(writer.add(48, &[0xF, 0x8000]), Ok(3));
    assert_eq!(writer.body(), [0x0004_0002, 0x000F_C000, 0x8000_0000]);
}

/// A segment that was begun clean stays in its run, or leaves it: of so many clean segments before it.
#[test]
fn begun_segments() {
    for before in 0..3 {
        for value in [0, 1] {
            let mut writer = Writer::new(9);
            let rows = |count, value| vec![value == 1; count];
            assert_eq!(writer.add_rows(&rows(32 * before + 8, value)), [2 * (before as u32 + 1) + value]);
            assert_eq!(writer.clone().add_rows(&rows(24, value)), [2 * (before as u32 + 1) + value]);
            // The marker of the run before has the word now; without a run it has the value 0.
            let run = if before > 0 { 2 * before as u32 + value } else { 0 };
            let word = if value == 1 { 0xFF } else { 0x100 };
            assert_eq!(writer.add_rows(&rows(1, 1 - value)), [0x0002_0000 + run, word]);
        }
    }
}

/// Every cutting in two and some in many, of rows of all kinds, gives the body of all rows.
#[test]
fn any_cutting() {
    for count in [1, 2, 31, 32, 33, 40, 63, 64, 65, 96, 100] {
        for rows in rows_to_try(count, Ewah) {
            let due = settled(&rows, Ewah);
            for cut in 0..=count {
                // Just the room that is needed in the end.
                let mut writer = Writer::new(due.len());
                writer.add_rows(&rows[..cut]);
                assert_eq!(writer.add_rows(&rows[cut..]), due, "{count} {cut}");
            }
            for size in [1, 7, 31, 32, 33, 48] {
                let mut writer = Writer::new(due.len());
                rows.chunks(size).for_each(|batch| assert!(!writer.add_rows(batch).is_empty()));
                assert_eq!(writer.body(), due, "{count} by {size}");
            }
        }
    }
}

/// Rows and batches by chance. A batch that doesn't fit is refused with the words of all rows, and writing goes on.
#[test]
fn by_chance() {
    let mut dice = Dice(9);
    for _ in 0..3_000 {
        let room = dice.below(14) as usize;
        let (mut writer, mut rows, stretch) = (Writer::new(room), Vec::new(), 1 + dice.below(90));
        let mut set = false;
        for _ in 0..1 + dice.below(8) {
            let sizes = [0, 1, 2, 16, 31, 32, 33, 48, 64, 65, 130];
            let mut batch = Vec::new();
            for _ in 0..sizes[dice.below(11) as usize] {
                set ^= dice.below(stretch) == 0;
                batch.push(set);
            }
            let all = [&rows[..], &batch].concat();
            let due = if all.is_empty() { vec![] } else { settled(&all, Ewah) };
            let told = writer.add(batch.len() as u32, &plain(&batch));
            if due.len() > room {
                assert_eq!(told, Err(no(9, 0, due.len() as u64)));
            } else {
                assert_eq!((told, writer.body()), (Ok(due.len()), &due[..]));
                rows = all;
            }
        }
    }
}

#[test]
fn long_runs() {
    for value in [0, 1] {
        let word = if value == 1 { u32::MAX } else { 0 };
        let mut writer = Writer::new(4);
        // 65,534 segments and a part.
        assert_eq!(writer.add(2_097_097, &[&[word; 65_534][..], &[word & 0x1FF]].concat()), Ok(1));
        assert_eq!(writer.body(), [0x1_FFFE + value]);
        assert_eq!(writer.add(23, &[word & 0x7F_FFFF]), Ok(1));
        assert_eq!(writer.body(), [0x1_FFFE + value]);
        let full = writer.clone();
        // A row in the next segment.
        assert_eq!(writer.add(1, &[word & 1]), Ok(2));
        assert_eq!(writer.body(), [0x1_FFFE + value, 0x2 + value]);
        assert_eq!(writer.add(63, &[word, word & 0x7FFF_FFFF]), Ok(2));
        assert_eq!(writer.body(), [0x1_FFFE + value, 0x4 + value]);
        // The full marker carries a dirty word, and a run of the other value begins.
        let mut mixed = full.clone();
        assert_eq!(mixed.add(64, &[5, word]), Ok(3));
        assert_eq!(mixed.body(), [0x3_FFFE + value, 5, 2 + value]);
        let mut other = full.clone();
        assert_eq!(other.add(33, &[!word, word & 1]), Ok(3));
        assert_eq!(other.body(), [0x1_FFFE + value, 3 - value, 2 + value]);
    }
    // A batch of many segments behind others: 65,535 and 65,535.
    let mut writer = Writer::new(2);
    for words in [1, 2] {
        assert_eq!(writer.add(2_097_120, &[0; 65_535]), Ok(words));
    }
    assert_eq!(writer.body(), [0x1_FFFE; 2]);
    assert_eq!(writer.add(1, &[0]), Err(no(9, 0, 3)));
}

#[test]
fn many_dirty_words() {
    let full = [&[0xFFFE_0000][..], &[1; 32_767]].concat();
    let mut writer = Writer::new(65_540);
    assert_eq!(writer.add(1_048_544, &[1; 32_767]), Ok(32_768));
    assert!(writer.body() == full);
    // A row that is set is a segment of ones, until another one isn't.
    assert_eq!(writer.add(1, &[1]), Ok(32_769));
    assert!(writer.body() == [&full[..], &[3]].concat());
    assert_eq!(writer.add(1, &[0]), Ok(32_770));
    assert!(writer.body() == [&full[..], &[0x0002_0000, 1]].concat());
    // Two rows are in the segment: bit 30 of each word is the first row of the next.
    assert_eq!(writer.add(30 + 1_048_512, &[&[0x4000_0000; 32_766][..], &[0]].concat()), Ok(65_536));
    assert!(writer.body() == [&full[..], &full].concat());
    assert_eq!(writer.add(32, &[1]), Ok(65_538));
    assert_eq!(writer.body()[65_536..], [0x0002_0000, 1]);
}

/// 2^30 rows have 2^25 segments: 512 full markers and 512 segments.
#[test]
fn the_most_rows() {
    let most = u64::from(MOST_ROWS);
    for value in [0, 1] {
        let body = [&[0x1_FFFE + value; 512][..], &[0x400 + value]].concat();
        for short in 0..32 {
            let writer = Writer::with(most - short, &body, 2);
            let mut full = writer.clone();
            let rest = if value == 1 { ((1u64 << short) - 1) as u32 } else { 0 };
            assert_eq!(full.add(short as u32, &vec![rest; usize::from(short > 0)]), Ok(513));
            assert_eq!((full.state.rows, full.body()), (most, &body[..]));
            assert_eq!(full.add(0, &[]), Ok(513));
            for over in [1, 2, 1_000, MOST_ROWS, u32::MAX - short as u32] {
                assert_eq!(writer.clone().add(short as u32 + over, &[]), Err(TOO_MANY));
            }
            assert_eq!(full.add(1, &[0]), Err(TOO_MANY));
            // The sum of these is 2^32: it is a number, and has no end.
            assert_eq!(writer.clone().add((4 * most - (most - short)) as u32, &[]), Err(TOO_MANY));
        }
        let last = Writer::with(most - 32, &[&body[..512], &[0x3FE + value]].concat(), 1);
        assert_eq!(last.clone().add(32, &[5]), Ok(514));
        assert_eq!(last.clone().add(33, &[5, 0]), Err(TOO_MANY));
        // A row more than can be: it is no state.
        Writer::with(most + 1, &[&body[..512], &[0x402 + value]].concat(), 1).is_broken();
    }
    // All in one batch of the most rows is 3 behind any row, and first of all 8 without.
    assert_eq!(Writer::new(3).add(MOST_ROWS, &[]), Err(BAD));
    assert_eq!(Writer::new(3).add(MOST_ROWS + 1, &[]), Err(TOO_MANY));
    assert_eq!(Writer::with(1, &[2], 3).add(MOST_ROWS, &[]), Err(TOO_MANY));
}

/// 8 rows, of which the lowest four are set, in a buffer of so many words more.
fn eight(more: usize) -> Writer {
    Writer::with(8, &[0x0002_0000, 0xF], more)
}

#[test]
fn wrong_batches() {
    for (rows, words) in [(0, 0), (1, 1), (31, 1), (32, 1), (33, 2), (64, 2), (65, 3)] {
        for length in 0..6 {
            let told = eight(9).add(rows, &vec![0; length]);
            assert_eq!(told.err(), (length != words).then_some(BAD));
        }
    }
    // Pads are those of the batch, and so is the place.
    for rows in 1..=70 {
        let length = (rows as usize).div_ceil(32);
        for bit in 0..32 {
            let mut batch = vec![0; length];
            batch[length - 1] = 1 << bit;
            let passes = 32 * (length - 1) + bit < rows as usize;
            let told = eight(9).add(rows, &batch);
            assert_eq!(told.err(), (!passes).then_some(no(7, 0, length as u64 - 1)), "{rows} {bit}");
        }
    }
    for (rows, pads) in [(8, [0x100, 0x8000_0000, u32::MAX]), (31, [0x8000_0000, 0xC000_0000, u32::MAX])] {
        assert!(pads.iter().all(|&pads| eight(9).add(rows, &[pads]) == Err(no(7, 0, 0))));
    }
}

/// Refused, and then what fits is taken.
#[test]
fn no_room() {
    let mut writer = eight(0);
    assert_eq!(writer.add(56, &[0, 0]), Err(no(9, 0, 3)));
    assert_eq!(writer.add(56, &[0, 0xFF_0000]), Err(no(9, 0, 3)));
    assert_eq!(writer.add(88, &[0, 0xFF_0000, 0]), Err(no(9, 0, 4)));
    assert_eq!(writer.add(24, &[0xFF_FFF0]), Ok(2));
    assert_eq!(writer.body(), [0x0002_0000, 0xFFFF_F00F]);
    assert_eq!(writer.add(1, &[0]), Err(no(9, 0, 3)));
    assert_eq!(writer.add(0, &[]), Ok(2));
    // A run goes on in the same word, and needs no more.
    let mut writer = Writer::with(64, &[5], 0);
    assert_eq!(writer.add(2_097_120 - 64, &[u32::MAX; 65_533]), Ok(1));
    assert_eq!(writer.add(1, &[1]), Err(no(9, 0, 2)));
}

/// A pair of refusals for each two that can be due at once.
#[test]
fn order_of_refusals() {
    let broken = |writer: Writer| writer.but(|state| state.room += 1);
    let most = Writer::with(MOST_ROWS.into(), &[&[0x1_FFFE; 512][..], &[0x400]].concat(), 0);
    let nine = no(9, 0, 3);
    // 12, and 3, 8, 7 or 9.
    assert_eq!(broken(eight(2)).add(MOST_ROWS, &[]), Err(BROKEN));
    assert_eq!(broken(most.clone()).add(1, &[1]), Err(BROKEN));
    assert_eq!(broken(eight(2)).add(8, &[]), Err(BROKEN));
    assert_eq!(broken(eight(2)).add(8, &[0x100]), Err(BROKEN));
    assert_eq!(broken(eight(0)).add(56, &[0, 0]), Err(BROKEN));
    // 3, and 8, 7 or 9.
    assert_eq!(eight(2).add(MOST_ROWS, &[]), Err(TOO_MANY));
    assert_eq!(most.clone().add(1, &[2]), Err(TOO_MANY));
    assert_eq!(most.clone().add(1, &[1]), Err(TOO_MANY));
    // 8, and 7 or 9.
    assert_eq!(eight(2).add(8, &[0, 0x100]), Err(BAD));
    assert_eq!(eight(0).add(56, &[0]), Err(BAD));
    // 7, and 9.
    assert_eq!(eight(0).add(55, &[0, 0x80_0000]), Err(no(7, 0, 1)));
    assert_eq!(eight(0).add(55, &[0, 0]), Err(nine));
}

#[test]
fn states_that_cannot_be() {
    let writer = eight(2);
    for change in [1, 2, 1 << 32, u64::MAX] {
        writer.but(|state| state.room = state.room.wrapping_add(change)).is_broken();
        writer.but(|state| state.rows = state.rows.wrapping_sub(change) | 1 << 32).is_broken();
        writer.but(|state| state.words = state.words.wrapping_add(change)).is_broken();
    }
    // The buffer is another length than at first.
    for length in [0, 1, 2, 3, 5] {
        let mut other = writer.clone();
        other.buffer.resize(length, 0);
        other.is_broken();
        other.state.words = other.state.words.min(length as u64);
        other.is_broken();
    }
    // No rows, and words; rows, and no words.
    for body in [[2], [0], [1], [3]] {
        Writer::with(0, &body, 3).is_broken();
    }
    Writer::with(8, &[], 3).is_broken();
    Writer::with(8, &[], 0).is_broken();
    // Neither: whatever is in the buffer.
    assert_eq!(Writer::with(0, &[], 3).add(1, &[1]), Ok(1));
}

/// Only the settled body of the rows accepted passes.
#[test]
fn bodies_in_use() {
    for count in [1, 8, 31, 32, 33, 40, 64, 65, 96] {
        for rows in rows_to_try(count, Ewah) {
            for body in bodies(&rows, Ewah) {
                let writer = Writer::with(count as u64, &body, 2);
                match body == settled(&rows, Ewah) {
                    true => assert_eq!(writer.clone().add(0, &[]), Ok(body.len())),
                    false => writer.is_broken(),
                }
            }
        }
    }
    // Each is sound and as short as it can be, but for the dirty words and the values that are wrong.
    let in_use: [(u64, &[u32]); 8] = [
        (96, &FIVE_64_WASTEFUL),
        (8, &[0x0002_0001, 0xF]),
        (8, &[0x0002_0000, 0xFF]),
        (8, &[0x0002_0000, 0]),
        (64, &[2, 2]),
        (64, &[0x0002_0000, 0xF, 0x0002_0000, 0xF]),
        (64, &[0x2, 0x0002_0000, 0xF]),
        (2_097_152, &[2, 0x1_FFFE]),
    ];
    for (rows, body) in in_use {
        assert_eq!(check_body(body, rows as u32, Ewah), Ok(()));
        Writer::with(rows, body, 2).is_broken();
    }
    // Dirty words, segments, pads: too many or too few.
    for (rows, body) in [(8, &[0x0004_0000, 0xF][..]), (8, &[4]), (40, &[2]), (8, &[0x0002_0000, 0x10F])] {
        assert!(check_body(body, rows as u32, Ewah).is_err());
        Writer::with(rows, body, 2).is_broken();
    }
    // 32,768 mixed segments, not the full marker first.
    let mixed = [&[0x0002_0000, 1, 0xFFFE_0000][..], &[1; 32_767]].concat();
    Writer::with(1_048_576, &mixed, 2).is_broken();
}

/// What can't be told apart is taken as it is.
#[test]
fn swapped_but_good() {
    // A clean last segment with other rows in it: none set, all set, or neither.
    let writer = Writer::with(40, &[4], 2);
    for rows in 33..=64 {
        let mut other = writer.but(|state| state.rows = rows);
        assert_eq!(other.add(1, &[1]), Ok(2));
        assert_eq!(other.state.rows, rows + 1);
    }
    for rows in [32, 65] {
        writer.but(|state| state.rows = rows).is_broken();
    }
    // 0xF is the word of 5 rows and of more; of 4 it is full.
    for rows in 1..=33 {
        let mut other = eight(2).but(|state| state.rows = rows);
        match rows {
            5..=32 => assert_eq!(other.add(0, &[]), Ok(2)),
            _ => other.is_broken(),
        }
    }
    // Another body of as many rows: these are the rows so far.
    let mut swapped = eight(2);
    swapped.buffer[1] = 0x81;
    assert_eq!(swapped.add(8, &[0xF0]), Ok(2));
    assert_eq!(swapped.body(), [0x0002_0000, 0xF081]);
    // The body of rows before, with the state of then.
    let mut writer = eight(2);
    let then = writer.clone();
    assert_eq!(writer.add(8, &[0]), Ok(2));
    writer.state = then.state;
    assert_eq!(writer.add(8, &[0xFF]), Ok(2));
    assert_eq!(writer.body(), [0x0002_0000, 0xFF0F]);
}
