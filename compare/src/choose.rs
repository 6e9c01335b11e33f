//! Every question on an input, with good and bad arguments.

use zvonurel::{segments, Format, HISTOGRAM_COUNTS, MOST_NAMED, MOST_ROWS, WORD_BITS};

use crate::ask::words_needed;
use crate::encode::{entry_place, other, plain_mask, FORMATS};
use crate::generate::{Effort, Form, Input};
use crate::question::{Call, Question};
use crate::random::Random;
use crate::second::pieces;
use crate::session::Session;

/// A buffer is never made longer than this just to be long.
const LONGEST: usize = 200_000;

/// Lengths of a list and of a table that are far too long.
const FAR_LIST: usize = 300;
const FAR_TABLE: usize = 400;
const _: () = assert!(FAR_LIST > MOST_NAMED && FAR_TABLE > HISTOGRAM_COUNTS);

/// One input in so many has a list of about the most numbers too, since it is slow.
const LONG_LIST_IN: usize = 16;

const PAIRS: [Call; 4] = [Call::And, Call::Or, Call::Xor, Call::AndNot];

pub fn ask_all(session: &mut Session, input: &Input, random: &mut Random) {
    asking(session, input, random, |asker| match input.form {
        Form::Index => asker.index(),
        Form::Body => asker.body(),
    });
}

/// Asks these questions; the lent words must stay as they are.
pub fn asking(session: &mut Session, input: &Input, random: &mut Random, ask: impl FnOnce(&mut Asker)) {
    if session.difference.is_some() {
        return;
    }
    let before = fingerprint(&input.words);
    ask(&mut Asker { session, input, random });
    if before != fingerprint(&input.words) {
        println!("DIFFERENCE  the lent words of a case were changed");
        std::process::exit(1);
    }
}

/// The last bit of the segment in which the first number that is no row would be.
fn last_bit(rows: u32, format: Format) -> u32 {
    let width = format.segment_rows() as u32;
    (rows / width * width).saturating_add(width - 1)
}

fn fingerprint(words: &[u32]) -> u64 {
    words.iter().fold(0, |sum: u64, &word| sum.wrapping_mul(0x9E37_79B9_7F4A_7C15) ^ u64::from(word))
}

pub struct Asker<'a> {
    session: &'a mut Session,
    pub input: &'a Input,
    pub random: &'a mut Random,
}

impl Asker<'_> {
    pub fn ask(&mut self, question: Question) {
        self.session.ask(&self.input.words, question);
    }

    /// All of these, or two of them where the effort is small.
    pub fn thin<T: Copy>(&mut self, mut from: Vec<T>) -> Vec<T> {
        if self.input.effort == Effort::Few {
            while from.len() > 2 {
                from.swap_remove(self.random.below(from.len()));
            }
        }
        from
    }

    // ---- buffers ----

    /// The same question with buffers of several lengths.
    pub fn ask_rooms(&mut self, words: &[u32], question: Question) {
        let need = words_needed(words, &question);
        let twice = 2 * (self.named_words(&question.list) + self.named_words(&question.second));
        let all = [need.saturating_sub(1), need, need + 1, 0, twice.min(LONGEST), need + 20 + self.random.below(20)];
        let rooms = match self.input.effort {
            Effort::Full => all.to_vec(),
            Effort::Some => vec![self.random.pick(&all[..2]), self.random.pick(&all)],
            Effort::Few if self.random.one_in(2) => vec![need],
            Effort::Few => vec![self.random.pick(&all)],
        };
        for (place, &room) in rooms.iter().enumerate() {
            if !rooms[..place].contains(&room) {
                self.session.ask(words, question.clone().room(room));
            }
        }
    }

    /// Words of the bodies named, by the contents.
    fn named_words(&self, list: &[u32]) -> usize {
        let words = &self.input.words;
        let length = |&k: &u32| words.get(entry_place(k as usize) + 1).copied().unwrap_or(0);
        let lengths = list.iter().map(|k| length(k).min(words.len() as u32));
        lengths.map(|length| length as usize).sum()
    }

    /// A buffer for questions that are refused before it matters.
    pub fn any_room(&mut self) -> usize {
        self.random.pick(&[0, 1, 5, 30])
    }

    // ---- arguments ----

    fn good(&mut self) -> u32 {
        self.random.below(self.input.bitmaps as usize) as u32
    }

    pub fn bad(&mut self) -> u32 {
        let n = self.input.bitmaps;
        self.random.pick(&[n, n, n + 1, u32::MAX])
    }

    fn numbers(&mut self) -> Vec<u32> {
        let n = self.input.bitmaps;
        let some = self.good();
        let mut numbers = vec![some, 0, n.wrapping_sub(1), n, n + 1, u32::MAX];
        numbers.dedup();
        self.thin(numbers)
    }

    /// Numbers for this question on a row: those of some piece's ends among them.
    fn row_numbers(&mut self, question: &Question) -> Vec<u32> {
        let rows = self.input.rows;
        let inside = self.random.below(rows as usize) as u32;
        let last = rows.wrapping_sub(1);
        let [last_bit, wah_last_bit] = FORMATS.map(|format| last_bit(rows, format));
        let pieces = pieces(&self.input.words, question).unwrap_or_default();
        let ends = pieces.get(self.random.below(pieces.len())).map(|&(first, last)| [first, last]);
        let mut numbers = vec![inside, 0, last, rows, rows.wrapping_add(1), last_bit, wah_last_bit, u32::MAX];
        numbers.extend(ends.into_iter().flatten());
        self.thin(numbers)
    }

    /// Numbers for nth on bitmap `k`.
    fn nth_numbers(&mut self, k: u32) -> Vec<u32> {
        let plain = self.input.plain.get(k as usize);
        let set = plain.map_or(0, |words| words.iter().map(|w| w.count_ones()).sum());
        let inside = self.random.below(set as usize) as u32;
        let last = u32::wrapping_sub(set, 1);
        self.thin(vec![inside, 0, last, set, set + 1, u32::MAX])
    }

    // ---- a lone body ----

    fn lone(&self, call: Call) -> Question {
        Question::lone(call, self.input.format, self.input.rows)
    }

    fn body(&mut self) {
        self.ask(self.lone(Call::CheckBody));
        self.ask(self.lone(Call::BodyCount));
        for row in self.row_numbers(&self.lone(Call::BodyRow)) {
            self.ask(self.lone(Call::BodyRow).number(row));
        }
        for n in self.nth_numbers(0) {
            self.ask(self.lone(Call::BodyNth).number(n));
        }
        let seed = self.random.word();
        self.ask(self.lone(Call::BodyWalk).number(seed));
        let words = &self.input.words;
        self.ask_rooms(words, self.lone(Call::Expand));
        for call in Call::REWRITE_BODY {
            self.ask_rooms(words, self.lone(call));
        }
        self.taken_for_other();
        if let Some(plain) = self.input.plain.first() {
            self.compress(plain);
        }
    }

    /// The same words as a body of the other format: seldom a sound one.
    fn taken_for_other(&mut self) {
        let room = self.any_room();
        let format = other(self.input.format);
        for call in Call::ALL.into_iter().filter(|call| call.of_body()) {
            self.ask(Question { format, ..self.lone(call) }.room(room));
        }
    }

    /// Good plain words, pad bits set, too few, too many, other rows.
    fn compress(&mut self, plain: &[u32]) {
        let (rows, format) = (self.input.rows, self.input.format);
        let question = |rows| Question::lone(Call::Compress, format, rows);
        self.ask_rooms(plain, question(rows));
        self.ask_rooms(plain, Question::lone(Call::Compress, other(format), rows));
        let mut wrong = plain.to_vec();
        if let Some(last) = wrong.last_mut() {
            let pads = !plain_mask(rows);
            let some = pads & self.random.word();
            *last |= self.random.pick(&[pads, some, 1 << (WORD_BITS - 1), u32::MAX]);
        }
        self.ask_rooms(&wrong, question(rows));
        wrong.pop();
        let room = plain.len() + 2;
        self.session.ask(&wrong, question(rows).room(room));
        wrong.extend([0, self.random.word()]);
        self.session.ask(&wrong, question(rows).room(room));
        let anything = self.random.word();
        for wrong in [MOST_ROWS + 1, u32::MAX, anything, rows ^ 1] {
            let room = self.any_room();
            self.session.ask(plain, question(wrong).room(room));
        }
        let whole = (WORD_BITS * plain.len()) as u32;
        if segments(whole) == plain.len() {
            self.ask_rooms(plain, question(whole));
        }
    }

    // ---- an index ----

    fn index(&mut self) {
        self.ask(Question::new(Call::Check));
        for k in self.numbers() {
            self.ask(Question::new(Call::Bitmap).list(&[k]));
            self.ask(Question::new(Call::BitmapRefusal).list(&[k]));
            self.ask(Question::new(Call::Count).list(&[k]));
        }
        self.rows_and_nths();
        self.one_bitmap(Call::ExpandBitmap);
        self.one_bitmap(Call::Not);
        for call in Call::REWRITE_BITMAP {
            self.one_bitmap(call);
        }
        for call in Call::REWRITE_INDEX {
            self.ask_rooms(&self.input.words, Question::new(call));
        }
        for call in PAIRS {
            self.two_bitmaps(call);
        }
        self.lists();
        self.loose_columns();
    }

    fn rows_and_nths(&mut self) {
        let k = self.good();
        let question = Question::new(Call::Row).list(&[k]);
        for row in self.row_numbers(&question) {
            self.ask(question.clone().number(row));
        }
        for n in self.nth_numbers(k) {
            self.ask(Question::new(Call::Nth).list(&[k]).number(n));
        }
        let (seed, bad) = (self.random.word(), self.bad());
        for k in [k, bad] {
            self.ask(Question::new(Call::Walk).list(&[k]).number(seed));
        }
        for number in [0, self.input.rows] {
            self.ask(Question::new(Call::Row).list(&[bad]).number(number));
            self.ask(Question::new(Call::Nth).list(&[bad]).number(number));
        }
    }

    fn one_bitmap(&mut self, call: Call) {
        let words = &self.input.words;
        let k = self.good();
        self.ask_rooms(words, Question::new(call).list(&[k]));
        let (bad, room) = (self.bad(), self.any_room());
        self.ask(Question::new(call).list(&[bad]).room(room));
    }

    fn two_bitmaps(&mut self, call: Call) {
        let words = &self.input.words;
        let (j, k) = (self.good(), self.good());
        self.ask_rooms(words, Question::new(call).list(&[j, k]));
        if self.random.one_in(4) {
            self.ask_rooms(words, Question::new(call).list(&[j, j]));
        }
        let bad = self.bad();
        for pair in [[bad, k], [j, bad], [bad, bad]] {
            let room = self.any_room();
            self.ask(Question::new(call).list(&pair).room(room));
        }
    }

    // ---- lists ----

    pub fn some_list(&mut self, length: usize) -> Vec<u32> {
        (0..length).map(|_| self.good()).collect()
    }

    fn lists(&mut self) {
        let most = match self.input.effort {
            Effort::Full if self.random.one_in(5) => 60,
            Effort::Few if self.input.bitmaps < 3 => 3,
            _ => 9,
        };
        let length = self.random.between(2, most);
        let some = self.some_list(length);
        self.good_list(&some);
        if self.input.effort != Effort::Few {
            let one = self.some_list(1);
            self.good_list(&one);
        }
        if self.random.one_in(2) {
            let all: Vec<u32> = (0..self.input.bitmaps).collect();
            self.good_list(&all);
        }
        if self.random.one_in(LONG_LIST_IN) && self.input.effort != Effort::Few {
            let some = self.random.between(MOST_NAMED / 2, MOST_NAMED);
            let length = self.random.pick(&[MOST_NAMED, MOST_NAMED, MOST_NAMED - 1, some]);
            let long = self.some_list(length);
            self.good_list(&long);
        }
        let mut wrong = some.clone();
        let at = self.random.below(wrong.len());
        wrong[at] = self.bad();
        let over = self.some_list(MOST_NAMED + 1);
        let far = self.some_list(FAR_LIST);
        for list in [&[][..], &wrong, &over, &far] {
            self.bad_list(list);
        }
    }

    /// Threshold, symmetric and tally with this list, which is a good one
    /// unless the index has no bitmaps.
    fn good_list(&mut self, list: &[u32]) {
        let words = &self.input.words;
        let length = list.len() as u32;
        self.ask(Question::new(Call::Histogram).list(list));
        let threshold = Question::new(Call::Threshold).list(list);
        let inside = 1 + self.random.below(list.len()) as u32;
        let mut good = self.thin(vec![inside, 1, length]);
        good.dedup();
        for t in good {
            self.ask_rooms(words, threshold.clone().number(t));
        }
        for t in [0, length + 1, u32::MAX] {
            let room = self.any_room();
            self.ask(threshold.clone().number(t).room(room));
        }
        let symmetric = Question::new(Call::Symmetric).list(list);
        let tables = if self.input.effort == Effort::Few { 1 } else { 2 };
        for _ in 0..tables {
            let table = self.some_table(list.len() + 1);
            self.ask_rooms(words, symmetric.clone().table(&table));
        }
        for table in self.bad_tables(list.len()) {
            let room = self.any_room();
            self.ask(symmetric.clone().table(&table).room(room));
        }
    }

    /// A good table; half of them say yes at 0.
    fn some_table(&mut self, length: usize) -> Vec<u32> {
        let rare = self.random.one_in(3);
        let entry = |random: &mut Random| match rare {
            true => u32::from(random.one_in(6)),
            false => u32::from(random.one_in(2)),
        };
        let mut table: Vec<u32> = (0..length).map(|_| entry(self.random)).collect();
        if self.random.one_in(4) {
            table.fill(self.random.pick(&[0, 1]));
        }
        table
    }

    fn bad_tables(&mut self, length: usize) -> Vec<Vec<u32>> {
        let mut entry = self.some_table(length + 1);
        let at = self.random.below(entry.len());
        entry[at] = self.random.pick(&[2, 2, 3, 256, u32::MAX]);
        let mut long_entry = self.some_table(length + 2);
        long_entry[length + 1] = 2;
        vec![
            self.some_table(length),
            self.some_table(length + 2),
            Vec::new(),
            self.some_table(FAR_TABLE),
            entry,
            long_entry,
        ]
    }

    fn bad_list(&mut self, list: &[u32]) {
        let room = self.any_room();
        self.ask(Question::new(Call::Histogram).list(list));
        let t = self.random.pick(&[1, list.len() as u32, 0]);
        let threshold = Question::new(Call::Threshold).list(list).room(room);
        self.ask(threshold.number(t));
        let length = list.len() + self.random.pick(&[1, 1, 1, 0, 2]);
        let table = self.some_table(length);
        let symmetric = Question::new(Call::Symmetric).list(list).room(room);
        self.ask(symmetric.table(&table));
    }
}
