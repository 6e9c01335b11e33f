//! Fixed cases of the two formats side by side: rows for which their segments differ in number, bodies cut at every
//! word, buffers that one takes and the other doesn't, long fills.

use reference::Format as Second;
use zvonurel::Format::{self, Ewah, Wah};
use zvonurel::{segments, MOST_CLEAN, MOST_ROWS, WAH_SEGMENT_ROWS, WORD_BITS};

use crate::ask::words_needed;
use crate::choose::ask_all;
use crate::encode::{fill, full, index_in, joined, mask_last, one_run, settled, Segments, FORMATS};
use crate::generate::{Effort, Form, Input};
use crate::question::{Call, Question};
use crate::random::Random;
use crate::session::Session;

pub fn run(session: &mut Session) {
    let mut random = Random::for_case(0, 1);
    for (rows, body) in BODIES {
        whole(session, rows, body, &mut random);
    }
    for rows in ROWS {
        for format in FORMATS {
            side_by_side(session, format, rows, &mut random);
        }
    }
    for format in FORMATS {
        cut_at_every_word(session, format);
        between_the_bounds(session, format);
        other_kinds(session, format);
    }
    long_fills(session);
}

/// WAH bodies, sound and otherwise, that each show a rule or a mistake.
const BODIES: [(u32, &[u32]); 39] = [
    // a fill of no segments, with segments left and without
    (62, &[0x8000_0000]),
    (62, &[0x8000_0000, 0x8000_0002]),
    (62, &[0x8000_0002, 0x8000_0000]),
    (62, &[0xC000_0002, 0xC000_0000]),
    (62, &[0x8000_0000, 0x8000_0003]),
    (62, &[0x8000_0003, 0x8000_0000]),
    (62, &[0x8000_0002, 0, 0x8000_0000]),
    (0, &[0x8000_0000]),
    (0, &[0xC000_0000, 0]),
    // behind the last segment
    (62, &[0x8000_0002, 0]),
    (62, &[0, 0, 0]),
    (31, &[0x7FFF_FFFF, 0x7FFF_FFFF]),
    (0, &[0]),
    (0, &[0x8000_0001]),
    (62, &[0x8000_0003]),
    (62, &[0xC000_0003]),
    (62, &[0, 0x8000_0002]),
    (62, &[0x8001_0002]),
    (62, &[0xBFFF_FFFF]),
    (62, &[0xFFFF_FFFF]),
    // an early end
    (62, &[0]),
    (62, &[]),
    (63, &[0x8000_0002]),
    (62, &[0xC000_0001]),
    // ones over the last segment: as a literal, whole and with pads, and as a fill
    (62, &[0, 0x7FFF_FFFF]),
    (40, &[0, 0x7FFF_FFFF]),
    (40, &[0x7FFF_FFFF, 0x7FFF_FFFF]),
    (40, &[0xC000_0002]),
    (32, &[0xC000_0002]),
    (36, &[0x7FFF_FFFF, 0x0000_001F]),
    (36, &[0x0000_0000, 0x0000_001F]),
    (36, &[0xC000_0002]),
    (36, &[0xC000_0001, 0x0000_003F]),
    (9, &[0x0000_01FF]),
    (9, &[0xC000_0001]),
    // equal fills side by side, clean literals among fills
    (93, &[0x8000_0001, 0x8000_0002]),
    (124, &[0xC000_0002, 0xC000_0002]),
    (124, &[0, 0x8000_0002, 0]),
    (124, &[0x7FFF_FFFF, 0xC000_0002, 0x8000_0001]),
];

/// Every question on such a body, alone and beside its canonical form, or beside no rows where it is unsound.
fn whole(session: &mut Session, rows: u32, body: &[u32], random: &mut Random) {
    let plain = reference::expand(body, rows, Second::Wah, usize::MAX).unwrap_or_else(|_| vec![0; segments(rows)]);
    let bodies = [body.to_vec(), settled(&plain, rows, Wah)];
    let index = index_in(Wah, rows, &bodies);
    ask_all(session, &input(Form::Body, Wah, body.to_vec(), rows, vec![plain.clone()]), random);
    ask_all(session, &input(Form::Index, Wah, index, rows, vec![plain; 2]), random);
}

fn input(form: Form, format: Format, words: Vec<u32>, rows: u32, plain: Vec<Vec<u32>>) -> Input {
    Input { form, format, words, rows, bitmaps: plain.len() as u32, plain, effort: Effort::Full }
}

// ---- numbers of rows ----

/// About one segment, two and three, and where one format has a segment more than the other.
const ROWS: [u32; 24] =
    [0, 1, 30, 31, 32, 33, 61, 62, 63, 64, 65, 66, 92, 93, 94, 95, 96, 97, 124, 128, 155, 992, 993, 1_024];

/// None, all, the first row, the last, and some.
fn samples(rows: u32) -> Vec<Vec<u32>> {
    let count = segments(rows);
    let row = |row: u32| {
        let mut plain = vec![0; count];
        plain[row as usize / WORD_BITS] |= 1 << (row as usize % WORD_BITS);
        plain
    };
    let mut all = vec![vec![0; count], vec![u32::MAX; count], vec![0xF0F0_1234; count]];
    if rows > 0 {
        all.extend([row(0), row(rows - 1), row(rows.saturating_sub(2)), row(30.min(rows - 1)), row(31.min(rows - 1))]);
    }
    all.iter_mut().for_each(|plain| mask_last(plain, rows));
    all
}

/// Every question on bodies of so many rows: an index of all, and each alone, canonical and wasteful.
fn side_by_side(session: &mut Session, format: Format, rows: u32, random: &mut Random) {
    let samples = samples(rows);
    let wasteful: Vec<Vec<u32>> =
        samples.iter().map(|plain| Segments::of(plain, rows, format).wasteful(random)).collect();
    for (plain, body) in samples.iter().zip(&wasteful) {
        for body in [body.clone(), settled(plain, rows, format)] {
            ask_all(session, &input(Form::Body, format, body, rows, vec![plain.clone()]), random);
        }
    }
    let index = index_in(format, rows, &wasteful);
    ask_all(session, &input(Form::Index, format, index, rows, samples), random);
}

// ---- cuts ----

/// 155 rows: a run, a mixed segment, a run of ones over the end, alone and as an index of two; each word in turn is
/// the first that is missing.
fn cut_at_every_word(session: &mut Session, format: Format) {
    let rows = 155;
    let ones = full(format);
    let plain = joined(&[0, 0, 0x55, ones, ones], rows, format);
    let mut random = Random::for_case(0, 2);
    let body = Segments::of(&plain, rows, format).wasteful(&mut random);
    let index = index_in(format, rows, &[settled(&plain, rows, format), body.clone()]);
    for length in 0..index.len() {
        let cut = input(Form::Index, format, index[..length].to_vec(), rows, vec![plain.clone(); 2]);
        ask_all(session, &cut, &mut random);
    }
    for length in 0..body.len() {
        let cut = body[..length].to_vec();
        let behind = index_in(format, rows, &[body.clone(), cut.clone()]);
        ask_all(session, &input(Form::Body, format, cut, rows, vec![plain.clone()]), &mut random);
        ask_all(session, &input(Form::Index, format, behind, rows, vec![plain.clone(); 2]), &mut random);
    }
}

/// The bodies of an index under every small word 0.
fn other_kinds(session: &mut Session, format: Format) {
    let mut random = Random::for_case(0, 3);
    let plain = vec![vec![0x1, 0x80], vec![u32::MAX, 0xFF], vec![0, 0]];
    let bodies: Vec<Vec<u32>> = plain.iter().map(|plain| settled(plain, 40, format)).collect();
    let mut index = index_in(format, 40, &bodies);
    for kind in 0..6 {
        index[0] = kind;
        ask_all(session, &input(Form::Index, format, index.clone(), 40, plain.clone()), &mut random);
    }
}

// ---- rooms ----

/// 1,984 rows, all segments mixed in both formats: 63 words in EWAH, 64 in WAH.
fn between_the_bounds(session: &mut Session, format: Format) {
    let rows = 1_984;
    let plain = vec![0x0F0F_3355; segments(rows)];
    let body = settled(&plain, rows, format);
    let none = one_run(format, false, format.segments(rows));
    let index = index_in(format, rows, &[&body, &none]);
    for room in 60..=67 {
        session.ask(&plain, Question::lone(Call::Compress, format, rows).room(room));
        for call in [Call::Expand, Call::BodyToEwah, Call::BodyToWah, Call::BodyAround] {
            session.ask(&body, Question::lone(call, format, rows).room(room));
        }
        for call in Call::ALL.into_iter().filter(|call| call.of_index() && call.writes()) {
            let question = Question::new(call).list(&[0, 1]).number(1).table(&[0, 1, 0]);
            session.ask(&index, question.room(room));
        }
    }
    for call in Call::REWRITE_INDEX {
        let need = words_needed(&index, &Question::new(call));
        for room in need - 3..=need + 3 {
            session.ask(&index, Question::new(call).room(room));
        }
    }
}

// ---- long fills ----

/// Fills of more segments than a marker counts, and as many.
fn long_fills(session: &mut Session) {
    for count in [MOST_CLEAN, MOST_CLEAN + 1, 2 * MOST_CLEAN + 1] {
        let rows = (WAH_SEGMENT_ROWS * count) as u32;
        for value in [false, true] {
            let plain = joined(&vec![full(Wah) * u32::from(value); count], rows, Wah);
            let parts = [fill(value, 1), fill(value, MOST_CLEAN - 1), fill(value, count - MOST_CLEAN)];
            let bodies = [vec![fill(value, count)], parts[..if count > MOST_CLEAN { 3 } else { 2 }].to_vec()];
            for body in &bodies {
                few(session, input(Form::Body, Wah, body.clone(), rows, vec![plain.clone()]));
            }
            let index = index_in(Wah, rows, &bodies);
            few(session, input(Form::Index, Wah, index, rows, vec![plain.clone(); 2]));
            for format in FORMATS {
                session.ask(&plain, Question::lone(Call::Compress, format, rows).room(3));
            }
        }
    }
    let most = one_run(Wah, true, Wah.segments(MOST_ROWS));
    for call in [Call::CheckBody, Call::BodyCount] {
        session.ask(&most, Question::lone(call, Wah, MOST_ROWS + 1));
        session.ask(&most, Question::lone(call, Wah, MOST_ROWS));
    }
    session.ask(&one_run(Ewah, true, segments(MOST_ROWS)), Question::lone(Call::BodyToWah, Ewah, MOST_ROWS).room(1));
}

/// The questions that a long input can afford.
fn few(session: &mut Session, input: Input) {
    ask_all(session, &Input { effort: Effort::Few, ..input }, &mut Random::for_case(0, u64::from(input.rows)));
}
