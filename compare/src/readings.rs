//! The readings, examples with known answers, held against both programs.

use zvonurel::Format::{self, Ewah, Wah};
use zvonurel::{index_of, segments, AppendState, Row, HISTOGRAM_COUNTS, MOST_ROWS, WORD_BITS};

use crate::ask::{ask_library, ask_reference, Outcome, Refused, Value};
use crate::batches::Writer;
use crate::encode::index_in;
use crate::question::{Call, Question};
use crate::samples::{LOOPED, LOOPED_WAH};

/// All of so many rows.
fn all(rows: u32) -> Vec<u32> {
    (0..rows).collect()
}

struct Readings {
    held: usize,
    failed: bool,
}

/// Runs every reading; true if all hold.
pub fn run() -> bool {
    let mut readings = Readings { held: 0, failed: false };
    readings.bodies();
    readings.long_bodies();
    readings.looped();
    readings.pairs();
    readings.wasteful();
    readings.columns();
    readings.changes();
    readings.ends();
    readings.ranks();
    readings.cut_ranks();
    readings.wah_bodies();
    readings.wah_refusals();
    readings.wah_answers();
    readings.rewriting();
    readings.pieces();
    readings.wah_pieces();
    readings.batches();
    readings.broken_states();
    readings.long_batches();
    println!("{} readings hold for both", readings.held);
    !readings.failed
}

impl Readings {
    /// The result, and the front of the buffer, that both have to give.
    fn reading(&mut self, words: &[u32], question: &Question, expected: Result<Value, Refused>, written: &[u32]) {
        self.leaving(words, question, expected, question.state, written);
    }

    /// The same, and the state that is left.
    fn leaving(
        &mut self,
        words: &[u32],
        question: &Question,
        expected: Result<Value, Refused>,
        state: AppendState,
        written: &[u32],
    ) {
        let good = |o: &Outcome| o.result == expected && o.state == state && o.buffer.starts_with(written);
        let library = ask_library(words, question);
        let reference = ask_reference(words, question, None);
        if good(&library) && good(&reference) {
            self.held += 1;
            return;
        }
        self.failed = true;
        println!("a reading fails: {}", question.text());
        println!("  should be {expected:x?}");
        println!("  library {:x?}", library.result);
        println!("  reference {:x?}", reference.result);
    }

    /// Writing these rows gives this body, and reading it gives them back.
    fn body(&mut self, rows: u32, set: &[u32], body: &[u32]) {
        self.body_in(Ewah, rows, set, body);
    }

    fn body_in(&mut self, format: Format, rows: u32, set: &[u32], body: &[u32]) {
        let lone = |call: Call| Question::lone(call, format, rows);
        let mut plain = vec![0; segments(rows)];
        set.iter().for_each(|&r| plain[r as usize / WORD_BITS] |= 1 << (r as usize % WORD_BITS));
        let written = Ok(Value::Words(body.len()));
        let compress = lone(Call::Compress).room(body.len());
        self.reading(&plain, &compress, written, body);
        let read = Ok(Value::Words(plain.len()));
        let expand = lone(Call::Expand).room(plain.len());
        self.reading(body, &expand, read, &plain);
        let count = lone(Call::BodyCount);
        self.reading(body, &count, Ok(Value::Number(set.len() as u32)), &[]);
    }

    fn bodies(&mut self) {
        self.body(0, &[], &[]);
        self.body(64, &[], &[0x4]);
        self.body(64, &all(64), &[0x5]);
        self.body(40, &all(40), &[0x5]);
        self.body(40, &[0, 39], &[0x0004_0000, 0x1, 0x80]);
        self.body(96, &[5, 64], &[0x0002_0000, 0x20, 0x0002_0002, 0x1]);
        let check = Question::lone(Call::CheckBody, Ewah, 40);
        self.reading(&[0x5], &check, Ok(Value::Sound), &[]);
        self.reading(&[0x0002_0003, 0x1FF], &check, Err((7, 0, 1)), &[]);
        // A dirty word may still spell a full last segment.
        let expand = Question::lone(Call::Expand, Ewah, 40).room(2);
        self.reading(&[0x0002_0003, 0xFF], &expand, Ok(Value::Words(2)), &[u32::MAX, 0xFF]);
    }

    fn long_bodies(&mut self) {
        self.body(2_097_152, &[], &[0x1_FFFE, 0x2]);
        self.body(2_097_120, &[], &[0x1_FFFE]);
        let mut most = vec![0x1_FFFE; 512];
        most.push(0x400);
        self.body(1_073_741_824, &[], &most);
        let check = Question::lone(Call::CheckBody, Ewah, 1_073_741_825);
        self.reading(&most, &check, Err((3, 0, 1)), &[]);
        let every = |rows: u32| (0..rows).step_by(32).collect::<Vec<u32>>();
        let mut dirty = vec![0xFFFE_0000];
        dirty.extend([1; 32_767]);
        self.body(1_048_544, &every(1_048_544), &dirty);
        dirty.extend([0x0002_0000, 1]);
        assert_eq!(dirty.len(), 32_770);
        self.body(1_048_576, &every(1_048_576), &dirty);
    }

    fn looped(&mut self) {
        let list = [0, 1, 2];
        let threshold = Question::new(Call::Threshold).list(&list);
        let two = threshold.clone().number(2).room(2);
        self.reading(&LOOPED, &two, Ok(Value::Answer(2, 1)), &[0x0002_0000, 0xA]);
        let four = threshold.clone().number(4).room(2);
        self.reading(&LOOPED, &four, Err((8, 0, 0)), &[]);
        let small = threshold.number(2).room(1);
        self.reading(&LOOPED, &small, Err((9, 0, 2)), &[]);
        let mut tally = [0; HISTOGRAM_COUNTS];
        (tally[1], tally[2]) = (2, 2);
        let histogram = Question::new(Call::Histogram).list(&list);
        let expected = Ok(Value::Tally(Box::new(tally)));
        self.reading(&LOOPED, &histogram, expected, &[]);
    }

    fn pairs(&mut self) {
        let index = index_of(8, &[vec![0x0002_0000, 0x32], vec![0x0002_0000, 0xB0]]);
        let due = [(Call::And, 0x30), (Call::Or, 0xB2), (Call::Xor, 0x82), (Call::AndNot, 0x02), (Call::Not, 0xCD)];
        for (call, word) in due {
            let question = Question::new(call).list(&[0, 1]).room(2);
            let written = Ok(Value::Words(2));
            self.reading(&index, &question, written, &[0x0002_0000, word]);
        }
    }

    /// 96 rows: the wasteful body is sound, and three stretches lie beside it.
    fn wasteful(&mut self) {
        let expand = Question::lone(Call::Expand, Ewah, 96).room(3);
        let body = [0x0006_0000, 0x20, 0, 1];
        self.reading(&body, &expand, Ok(Value::Words(3)), &[0x20, 0, 1]);
        let settled = vec![0x0002_0000, 0x20, 0x0002_0002, 0x1];
        let index = index_of(96, &[vec![0x6], settled.clone()]);
        let either = Question::new(Call::Threshold).list(&[0, 1]).number(1);
        let expected = Ok(Value::Answer(4, 3));
        self.reading(&index, &either.room(4), expected, &settled);
    }

    /// 4 rows: 1, 2, 3 at rows 0 to 2, and 1, 1, 0 at rows 1 to 3. The sums, 3 and 4, were worked out by hand.
    fn columns(&mut self) {
        let one = |rows: u32| vec![0x0002_0000, rows];
        let index = index_of(4, &[0x7, 0x5, 0x6, 0xE, 0x6].map(one));
        let value = |list: &[u32], row| Question::new(Call::Value).list(list).number(row);
        for (row, whole) in [(0, 1), (1, 2), (2, 3)] {
            self.reading(&index, &value(&[0, 1, 2], row), Ok(Value::Whole(whole)), &[]);
        }
        self.reading(&index, &value(&[0, 1, 2], 3), Err((8, 0, 0)), &[]);
        self.reading(&index, &value(&[0, 1, 3], 1), Err((11, 3, 3)), &[]);
        let due = index_of(4, &[0x6, 0x2, 0x2, 0x4].map(one));
        let sum = |first: &[u32], room| Question::pair(Call::Sum, first, &[3, 4]).room(room);
        self.reading(&index, &sum(&[0, 1, 2], 19), Ok(Value::Words(19)), &due);
        self.reading(&index, &sum(&[0, 1, 2], 18), Err((9, 0, 19)), &[]);
        self.reading(&index, &sum(&[0, 1, 3], 18), Err((11, 3, 3)), &[]);
    }

    /// The same columns: 2 and 1 at row 1, 3 and 1 at row 2. Their differences, 1 and 2, or -1 (111) and -2 (110), were
    /// worked out by hand.
    fn changes(&mut self) {
        let (one, none) = (|rows: u32| vec![0x0002_0000, rows], vec![0x2]);
        let index = index_of(4, &[0x7, 0x5, 0x6, 0xE, 0x6].map(one));
        let lists = [&[0, 1, 2][..], &[3, 4]];
        let due = [
            (Call::SignedDifference, 0, vec![one(0x6), one(0x2), one(0x4), none.clone()]),
            (Call::SignedDifference, 1, vec![one(0x6), one(0x2), one(0x6), one(0x6)]),
            (Call::Smaller, 0, vec![one(0x6), one(0x6), none.clone()]),
            (Call::Smaller, 1, vec![one(0x6), one(0x6), none.clone()]),
            (Call::DifferenceOrZero, 0, vec![one(0x6), one(0x2), one(0x4)]),
            (Call::DifferenceOrZero, 1, vec![one(0x6), none.clone(), none]),
        ];
        for (call, first, bodies) in due {
            let due = index_of(4, &bodies);
            let question = Question::pair(call, lists[first], lists[1 - first]);
            self.reading(&index, &question.clone().room(due.len()), Ok(Value::Words(due.len())), &due);
            self.reading(&index, &question.room(due.len() - 1), Err((9, 0, due.len() as u64)), &[]);
        }
        // 10 and 11 with a sign, and a sign alone.
        let signed = |list: &[u32], row| Question::new(Call::SignedValue).list(list).number(row);
        for (row, whole) in [(0, 1), (1, -2), (2, -1)] {
            self.reading(&index, &signed(&[0, 1, 2], row), Ok(Value::Signed(whole)), &[]);
            self.reading(&index, &signed(&[0, 0], row), Ok(Value::Signed(-1)), &[]);
        }
        self.reading(&index, &signed(&[0, 1, 2], 3), Err((8, 0, 0)), &[]);
        self.reading(&index, &signed(&[0, 1, 3], 1), Err((11, 3, 3)), &[]);
    }

    /// 31 rows in WAH, all set in bitmap 0 and none in bitmap 1: the largest number less 0, and 0 less that.
    fn ends(&mut self) {
        let (all, none) = ([0x7FFF_FFFF], [0]);
        let index = index_in(Wah, 31, &[all, none]);
        let (largest, zero) = (&[0; 33][..], &[0, 1][..]);
        let mut up = [all; 34];
        up[33] = none;
        let mut down = [none; 34];
        (down[0], down[1], down[33]) = (all, all, all);
        let list: Vec<u32> = (0..34).collect();
        for (first, second, bodies, end) in [(largest, zero, up, 4_294_967_295), (zero, largest, down, -4_294_967_295)]
        {
            let due = index_in(Wah, 31, &bodies);
            let question = Question::pair(Call::SignedDifference, first, second).room(due.len());
            self.reading(&index, &question, Ok(Value::Words(due.len())), &due);
            let value = Question::new(Call::SignedValue).list(&list).number(30);
            self.reading(&due, &value, Ok(Value::Signed(end)), &[]);
        }
        let value = |list: &[u32]| Question::new(Call::SignedValue).list(list);
        self.reading(&index, &value(&[&[0], &[1; 32][..], &[0]].concat()), Ok(Value::Signed(-4_294_967_296)), &[]);
        self.reading(&index, &value(&[0; 35]), Err((8, 0, 0)), &[]);
    }

    /// 6 rows: 3, 1, 3, 2, none, 3, in either format. The rows, in order by hand: 0, 2, 5, 3, 1 and 1, 3, 0, 2, 5.
    fn ranks(&mut self) {
        let rows = [0x2F, 0x27, 0x2D];
        let ewah = index_of(6, &rows.map(|rows| [0x0002_0000, rows]));
        let wah = index_in(Wah, 6, &rows.map(|rows| [rows]));
        let due = [(Call::Largest, [0x1, 0x5, 0x25, 0x2D, 0x2F]), (Call::Smallest, [0x2, 0xA, 0xB, 0xF, 0x2F])];
        for (call, due) in due {
            let of = |k: u32| Question::new(call).list(&[0, 1, 2]).number(k);
            for (k, rows) in (1..).zip(due) {
                self.reading(&ewah, &of(k).room(2), Ok(Value::Words(2)), &[0x0002_0000, rows]);
                self.reading(&wah, &of(k).room(1), Ok(Value::Words(1)), &[rows]);
                self.reading(&ewah, &of(k).room(1), Err((9, 0, 2)), &[]);
            }
            self.reading(&ewah, &of(0).room(1), Ok(Value::Words(1)), &[0x2]);
            self.reading(&wah, &of(0).room(1), Ok(Value::Words(1)), &[0]);
            for (list, k, refused) in [
                (&[0, 1, 2][..], 6, (8, 0, 0)),
                (&[0], 0, (8, 0, 0)),
                (&[0; 34], 0, (8, 0, 0)),
                (&[0, 3], 0, (8, 0, 0)),
                // Row 1 doesn't exist among rows 0, 2, 3 and 5.
                (&[2, 1], 5, (8, 0, 0)),
                (&[2, 2, 1], 4, (11, 1, 1)),
            ] {
                self.reading(&ewah, &Question::new(call).list(list).number(k), Err(refused), &[]);
            }
        }
    }

    /// All of 40 rows, equal: the lowest are taken. Then as many as there can be.
    fn cut_ranks(&mut self) {
        let due: [(Format, u32, &[u32], &[(u32, &[u32])]); 4] = [
            (Ewah, 40, &[0x5], &[(31, &[0x0002_0000, 0x7FFF_FFFF, 0x2]), (32, &[0x3, 0x2]), (33, &[0x0002_0003, 0x1])]),
            (Ewah, 40, &[0x0002_0003, 0xFF], &[(0, &[0x4]), (39, &[0x0002_0003, 0x7F]), (40, &[0x5])]),
            (Wah, 40, &[0xC000_0002], &[(30, &[0x3FFF_FFFF, 0]), (31, &[0x7FFF_FFFF, 0]), (40, &[0xC000_0002])]),
            (Wah, 1_073_741_824, &[0xC210_8422], &[(536_870_912, &[0xC108_4210, 0xFFFF, 0x8108_4211])]),
        ];
        for (format, rows, all, due) in due {
            let index = index_in(format, rows, &[all]);
            for (call, &(k, body)) in Call::RANKINGS.into_iter().flat_map(|call| due.iter().map(move |due| (call, due)))
            {
                let question = Question::new(call).list(&[0, 0]).room(body.len());
                self.reading(&index, &question.clone().number(k), Ok(Value::Words(body.len())), body);
                self.reading(&index, &question.number(rows + 1), Err((8, 0, 0)), &[]);
            }
        }
    }

    // ---- WAH, worked out by hand ----

    fn wah_bodies(&mut self) {
        let bodies: [(u32, &[u32], &[u32]); 11] = [
            (0, &[], &[]),
            (31, &[], &[0]),
            (31, &all(31), &[0x7FFF_FFFF]),
            (62, &[], &[0x8000_0002]),
            (62, &all(62), &[0xC000_0002]),
            (40, &all(40), &[0xC000_0002]),
            (40, &[0, 39], &[0x1, 0x100]),
            (9, &all(9), &[0x1FF]),
            (36, &[31, 32, 33, 34, 35], &[0, 0x1F]),
            (2_031_616, &[], &[0x8001_0000]),
            (1_073_741_824, &[], &[0x8210_8422]),
        ];
        for (rows, set, body) in bodies {
            self.body_in(Wah, rows, set, body);
        }
    }

    fn wah_refusals(&mut self) {
        let bodies: [(u32, &[u32], Refused); 10] = [
            (62, &[0x8000_0000], (10, 0, 0)),
            (62, &[0x8000_0002, 0x8000_0000], (10, 0, 1)),
            (62, &[0x8000_0003], (6, 0, 0)),
            (62, &[0x8000_0002, 0], (6, 0, 1)),
            (62, &[0], (6, 0, 1)),
            (62, &[], (6, 0, 0)),
            (40, &[0, 0x7FFF_FFFF], (7, 0, 1)),
            (40, &[0, 0x200], (7, 0, 1)),
            (0, &[0], (6, 0, 0)),
            (1_073_741_825, &[0x8210_8422], (3, 0, 1)),
        ];
        for (rows, body, refused) in bodies {
            self.reading(body, &Question::lone(Call::CheckBody, Wah, rows), Err(refused), &[]);
        }
        let whole = Question::lone(Call::CheckBody, Wah, 62);
        self.reading(&[0, 0x7FFF_FFFF], &whole, Ok(Value::Sound), &[]);
        self.reading(&[2, 40, 0], &Question::new(Call::Check), Ok(Value::Sound), &[]);
        for kind in [0, 3, 4] {
            self.reading(&[kind, 40, 0], &Question::new(Call::Check), Err((2, 0, 0)), &[]);
        }
    }

    /// LOOPED in WAH; then 93 rows in which two fills of one value, side by side, are two pieces.
    fn wah_answers(&mut self) {
        let two = Question::new(Call::Threshold).list(&[0, 1, 2]).number(2);
        self.reading(&LOOPED_WAH, &two.clone().room(1), Ok(Value::Answer(1, 1)), &[0xA]);
        self.reading(&LOOPED_WAH, &two.room(0), Err((9, 0, 1)), &[]);
        let fills = index_in(Wah, 93, &[[0x8000_0001, 0x8000_0002]]);
        let one = Question::new(Call::Threshold).list(&[0]).number(1).room(1);
        self.reading(&fills, &one, Ok(Value::Answer(1, 2)), &[0x8000_0003]);
        let not = Question::new(Call::Not).list(&[0]).room(1);
        self.reading(&fills, &not, Ok(Value::Words(1)), &[0xC000_0003]);
    }

    fn rewriting(&mut self) {
        let to_wah = Question::new(Call::IndexToWah);
        self.reading(&LOOPED, &to_wah.clone().room(12), Ok(Value::Words(12)), &LOOPED_WAH);
        self.reading(&LOOPED, &to_wah.room(11), Err((9, 0, 12)), &[]);
        let to_ewah = Question::new(Call::IndexToEwah);
        self.reading(&LOOPED_WAH, &to_ewah.clone().room(15), Ok(Value::Words(15)), &LOOPED);
        self.reading(&LOOPED_WAH, &to_ewah.room(12), Err((9, 0, 15)), &[]);
        let bitmap = |call: Call| Question::new(call).list(&[1]).room(2);
        self.reading(&LOOPED, &bitmap(Call::BitmapToWah), Ok(Value::Words(1)), &[0xE]);
        self.reading(&LOOPED_WAH, &bitmap(Call::BitmapToEwah), Ok(Value::Words(2)), &[0x0002_0000, 0xE]);
        let lone = |call: Call, format: Format, rows: u32| Question::lone(call, format, rows).room(3);
        // row 31 of 62
        let words = [0x0002_0000, 0x8000_0000, 0x2];
        self.reading(&[0, 1], &lone(Call::BodyToEwah, Wah, 62), Ok(Value::Words(3)), &words);
        self.reading(&words, &lone(Call::BodyToWah, Ewah, 62), Ok(Value::Words(2)), &[0, 1]);
        self.reading(&[0, 0], &lone(Call::BodyToWah, Wah, 62), Ok(Value::Words(1)), &[0x8000_0002]);
        self.reading(&[0x0002_0003, 0xFF], &lone(Call::BodyToEwah, Ewah, 40), Ok(Value::Words(1)), &[0x5]);
    }

    // ---- pieces, worked out by hand ----

    /// These rows of a body, with their values, lie in the piece from the first row to the last.
    fn piece(&mut self, format: Format, rows: u32, body: &[u32], (first, last): (u32, u32), asked: &[(u32, bool)]) {
        for &(row, set) in asked {
            let expected = Ok(Value::Row(Row { set, first, last }));
            self.reading(body, &Question::lone(Call::BodyRow, format, rows).number(row), expected, &[]);
        }
    }

    fn pieces(&mut self) {
        self.piece(Ewah, 40, &[0x5], (0, 39), &[(0, true), (31, true), (32, true), (39, true)]);
        self.piece(Ewah, 40, &[0x0002_0003, 0xFF], (0, 31), &[(0, true), (31, true)]);
        self.piece(Ewah, 40, &[0x0002_0003, 0xFF], (32, 39), &[(32, true), (39, true)]);
        let settled = [0x0002_0000, 0x20, 0x0002_0002, 0x1];
        for body in [settled, [0x0006_0000, 0x20, 0, 1]] {
            self.piece(Ewah, 96, &body, (0, 31), &[(0, false), (5, true), (31, false)]);
            self.piece(Ewah, 96, &body, (32, 63), &[(32, false), (63, false)]);
            self.piece(Ewah, 96, &body, (64, 95), &[(64, true), (95, false)]);
        }
        let none = [0x1_FFFE, 0x2];
        self.piece(Ewah, 2_097_152, &none, (0, 2_097_119), &[(0, false), (2_097_119, false)]);
        self.piece(Ewah, 2_097_152, &none, (2_097_120, 2_097_151), &[(2_097_120, false), (2_097_151, false)]);
        // Equal runs, and idle markers before, between and behind.
        let idle = [0, 1, 0x3, 1, 0x5, 0];
        self.piece(Ewah, 96, &idle, (0, 31), &[(0, true), (31, true)]);
        self.piece(Ewah, 96, &idle, (32, 95), &[(32, true), (95, true)]);
        for (number, row) in [(1, 96), (1, u32::MAX), (2, 0)] {
            let index = index_of(96, &[&settled[..], &idle]);
            self.reading(&index, &Question::new(Call::Row).list(&[number]).number(row), Err((8, 0, 0)), &[]);
        }
    }

    fn wah_pieces(&mut self) {
        self.piece(Wah, 40, &[0xC000_0002], (0, 39), &[(0, true), (30, true), (31, true), (39, true)]);
        self.piece(Wah, 40, &[0x1, 0x100], (0, 30), &[(0, true), (30, false)]);
        self.piece(Wah, 40, &[0x1, 0x100], (31, 39), &[(31, false), (39, true)]);
        // Fills of one value, and a clean literal beside one.
        let fills = [0x8000_0001, 0x8000_0002, 0];
        self.piece(Wah, 120, &fills, (0, 30), &[(0, false), (30, false)]);
        self.piece(Wah, 120, &fills, (31, 92), &[(31, false), (92, false)]);
        self.piece(Wah, 120, &fills, (93, 119), &[(93, false), (119, false)]);
        self.piece(Wah, 2_031_616, &[0x8001_0000], (0, 2_031_615), &[(0, false), (2_031_615, false)]);
        let index = index_in(Wah, 40, &[&[0x8000_0002][..], &[0x1, 0x100]]);
        let row = Question::new(Call::Row).list(&[1]).number(39);
        self.reading(&index, &row, Ok(Value::Row(Row { set: true, first: 31, last: 39 })), &[]);
        self.reading(&index, &row.number(40), Err((8, 0, 0)), &[]);
    }

    // ---- batches, worked out by hand ----

    /// So many rows behind this writer's give this body, in just its room and in more. It is the writer's then.
    fn batch(&mut self, writer: &mut Writer, rows: u32, plain: &[u32], body: &[u32]) {
        for room in [body.len(), body.len() + 2] {
            *writer = writer.in_room(room);
            let question = Question::append(writer.state, &writer.buffer, rows);
            let state =
                AppendState { rows: writer.state.rows + u64::from(rows), words: body.len() as u64, ..writer.state };
            let after = [body, &writer.buffer[body.len()..]].concat();
            self.leaving(plain, &question, Ok(Value::Words(body.len())), state, &after);
        }
        *writer = Writer::with(writer.state.rows as u32 + rows, body, 0);
    }

    /// So many rows behind this writer's are refused.
    fn refused_batch(&mut self, writer: &Writer, rows: u32, plain: &[u32], refused: Refused) {
        let question = Question::append(writer.state, &writer.buffer, rows);
        self.reading(plain, &question, Err(refused), &writer.buffer);
    }

    fn batches(&mut self) {
        for room in [0, 9] {
            let begun = Value::State(AppendState { room: room as u64, rows: 0, words: 0 });
            self.reading(&[], &Question::begin(&vec![7; room]), Ok(begun), &vec![7; room]);
        }
        let fresh = || Writer::with(0, &[], 0);
        self.refused_batch(&fresh(), 1, &[0], (9, 0, 1));
        self.refused_batch(&fresh(), 1, &[1], (9, 0, 1));
        self.batch(&mut fresh(), 0, &[], &[]);
        // All of 40 rows; rows 0 and 39; rows 5 and 64 of 96; a day and another.
        let all = &mut fresh();
        self.batch(all, 20, &[0xF_FFFF], &[0x3]);
        self.batch(all, 20, &[0xF_FFFF], &[0x5]);
        self.batch(all, 0, &[], &[0x5]);
        let two = &mut fresh();
        self.batch(two, 1, &[1], &[0x3]);
        self.batch(two, 38, &[0, 0], &[0x0002_0000, 0x1, 0x2]);
        self.batch(two, 1, &[1], &[0x0004_0000, 0x1, 0x80]);
        self.refused_batch(two, 25, &[0], (9, 0, 4));
        self.refused_batch(two, 8, &[0x100], (7, 0, 0));
        self.refused_batch(two, 40, &[0, 0x100], (7, 0, 1));
        self.refused_batch(two, 8, &[0, 0], (8, 0, 0));
        self.refused_batch(two, 0, &[0], (8, 0, 0));
        self.refused_batch(two, 1_073_741_785, &[], (3, 0, 1));
        let later = &mut fresh();
        self.batch(later, 64, &[0x20, 0], &[0x0002_0000, 0x20, 0x2]);
        self.batch(later, 32, &[1], &[0x0002_0000, 0x20, 0x0002_0002, 0x1]);
        let days = &mut fresh();
        self.batch(days, 48, &[0, 0], &[0x4]);
        self.batch(days, 48, &[0x8000_0000, 0x1], &[0x0002_0004, 0x0001_8000]);
    }

    /// A state, or a body, that isn't what a writer left: refusal 12, whatever else holds.
    fn broken_states(&mut self) {
        let bodies: [(u32, &[u32]); 9] = [
            (96, &[0x0006_0000, 0x20, 0, 1]),
            (40, &[0x0002_0003, 0xFF]),
            (64, &[0x2, 0x2]),
            (8, &[0x0002_0001, 0xF]),
            (8, &[0x0002_0000, 0xF, 0]),
            (8, &[0x4]),
            (40, &[0x2]),
            (0, &[0x2]),
            (8, &[]),
        ];
        for (rows, body) in bodies {
            for (more, plain) in [(0, &[][..]), (8, &[0xF0]), (8, &[0x100]), (8, &[]), (u32::MAX, &[])] {
                self.refused_batch(&Writer::with(rows, body, 1), more, plain, (12, 0, 0));
            }
        }
        let writer = Writer::with(8, &[0x0002_0000, 0xF], 1);
        let AppendState { room, rows, words } = writer.state;
        for (room, rows, words) in
            [(room + 1, rows, words), (room, rows, 4), (room, 1_073_741_825, words), (room, rows + (1 << 32), words)]
        {
            let other = Writer { state: AppendState { room, rows, words }, ..writer.clone() };
            self.refused_batch(&other, 0, &[], (12, 0, 0));
        }
    }

    fn long_batches(&mut self) {
        let run = &mut Writer::with(2_097_120, &[0x1_FFFE], 0);
        self.batch(run, 32, &[0], &[0x1_FFFE, 0x2]);
        let mut dirty = vec![0xFFFE_0000];
        dirty.extend([1; 32_767]);
        let mixed = &mut Writer::with(1_048_544, &dirty, 0);
        dirty.extend([0x0002_0000, 1]);
        self.batch(mixed, 32, &[1], &dirty);
        let mut most = vec![0x1_FFFE; 512];
        most.push(0x400);
        let full = &mut Writer::with(MOST_ROWS - 1, &most, 0);
        self.refused_batch(full, 2, &[0], (3, 0, 1));
        self.batch(full, 1, &[0], &most);
        self.batch(full, 0, &[], &most);
        // With the rows accepted they are 2^32.
        for rows in [1, 3_221_225_472] {
            self.refused_batch(full, rows, &[], (3, 0, 1));
        }
    }
}
