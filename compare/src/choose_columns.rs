//! Values of an input's columns and what is made of two, with good and bad arguments.

use std::collections::HashSet;

use reference::limits::{LEAST_COLUMN, MOST_SUMMED, MOST_VALUED};
use zvonurel::WORD_BITS;

use crate::ask::words_needed;
use crate::choose::{asking, Asker};
use crate::columns::Columns;
use crate::generate::Effort;
use crate::question::{Call, Question};
use crate::random::Random;
use crate::session::Session;

/// Lengths of a list, at the limits and between.
const LENGTHS: [usize; 8] = [0, 1, LEAST_COLUMN, 3, 17, MOST_SUMMED, MOST_VALUED, MOST_VALUED + 1];

/// Every question about columns on an index that was made of them.
pub fn ask_columns(session: &mut Session, columns: &Columns, random: &mut Random) {
    let (first, second) = (&columns.first, &columns.second);
    asking(session, &columns.input, random, |asker| {
        asker.ask(Question::new(Call::Check));
        asker.values(first);
        asker.values(second);
        asker.pairs(first, second);
        asker.ranks(first);
        asker.ranks(second);
        asker.wrong_numbers(first, second);
        asker.lengths(first, second);
    });
}

impl Asker<'_> {
    /// Any bitmaps taken for columns: mostly strays.
    pub fn loose_columns(&mut self) {
        let (wide, narrow) = (self.random.between(2, 5), self.random.between(0, 3));
        let (first, second) = (self.some_list(wide), self.some_list(narrow));
        for row in self.value_rows(&first).into_iter().take(2) {
            self.value(&first, row);
        }
        let room = self.any_room();
        for call in Call::PAIRINGS {
            self.ask(Question::pair(call, &first, &second).room(room));
        }
        let call = self.some_pairing();
        self.ask(Question::pair(call, &first, &first).room(room));
        self.changes(&first, &first);
        self.loose_ranks(&first);
        self.loose_ranks(&second);
    }

    fn some_pairing(&mut self) -> Call {
        self.random.pick(&Call::PAIRINGS)
    }

    // ---- rows ----

    /// Rows that exist in a column first, then such as do not, then the edges.
    fn value_rows(&mut self, list: &[u32]) -> Vec<u32> {
        let rows = self.input.rows;
        let start = self.random.below(rows as usize) as u32;
        let mut all = Vec::new();
        for wanted in [true, false] {
            all.extend(self.near(list, start, wanted));
            all.extend(self.near(list, 0, wanted));
        }
        all.extend([rows.wrapping_sub(1), rows, rows.wrapping_add(1), u32::MAX]);
        // Not sorted: whoever takes the first row wants one that exists.
        let mut met = HashSet::new();
        all.retain(|&row| met.insert(row));
        all
    }

    /// The next row from here on that exists, or doesn't, as the plain words say.
    fn near(&self, list: &[u32], start: u32, wanted: bool) -> Option<u32> {
        let exists = self.input.plain.get(*list.first()? as usize)?;
        let exists_at = |row: u32| {
            let row = row as usize;
            exists.get(row / WORD_BITS).is_some_and(|word| (word >> (row % WORD_BITS)) & 1 == 1)
        };
        (start..self.input.rows).find(|&row| exists_at(row) == wanted)
    }

    fn values(&mut self, list: &[u32]) {
        let rows = self.value_rows(list);
        for row in self.thin(rows) {
            self.value(list, row);
        }
    }

    fn value(&mut self, list: &[u32], row: u32) {
        for question in Question::values(list, row) {
            self.ask(question);
        }
    }

    // ---- two columns ----

    fn pairs(&mut self, first: &[u32], second: &[u32]) {
        let words = &self.input.words;
        for call in Call::PAIRINGS {
            self.ask_rooms(words, Question::pair(call, first, second));
        }
        self.changes(first, second);
        if self.input.effort == Effort::Few {
            return;
        }
        let call = self.some_pairing();
        if self.random.one_in(2) {
            self.ask_rooms(words, Question::pair(call, second, first));
        }
        if self.random.one_in(4) {
            self.ask_rooms(words, Question::pair(call, first, first));
        }
    }

    fn changes(&mut self, first: &[u32], second: &[u32]) {
        let seed = self.random.word();
        self.ask(Question::pair(Call::Changes, first, second).number(seed));
    }

    /// A bitmap number too large, as existence or as a slice.
    fn wrong_numbers(&mut self, first: &[u32], second: &[u32]) {
        let mut wrong = self.random.pick(&[first, second]).to_vec();
        let any = self.random.below(wrong.len());
        let at = self.random.pick(&[0, any]);
        wrong[at] = self.bad();
        let rows = self.value_rows(first);
        let row = self.random.pick(&rows);
        self.value(&wrong, row);
        self.loose_ranks(&wrong);
        // two faults at once
        self.loose_ranks(&wrong[at..at + 1]);
        for (a, b) in self.thin(vec![(&wrong[..], second), (first, &wrong), (&wrong, &wrong)]) {
            let (call, room) = (self.some_pairing(), self.any_room());
            self.ask(Question::pair(call, a, b).room(room));
            self.changes(a, b);
        }
    }

    // ---- lengths ----

    /// A column's list drawn out to a length. Either its slices come again behind its own, in any order, or one of
    /// them comes again and again before its own: then the first stray can be as late as the last slice.
    fn drawn_out(&mut self, list: &[u32], length: usize) -> Vec<u32> {
        let own = &list[..list.len().min(length)];
        let more = length - own.len();
        let last = list.len() - 1;
        if self.random.one_in(2) {
            let behind: Vec<u32> = (0..more).map(|_| list[self.random.between(1, last)]).collect();
            return [own, &behind].concat();
        }
        let (exists, slices) = own.split_at(own.len().min(1));
        let before = vec![list[self.random.between(1, last)]; more];
        [exists, &before, slices].concat()
    }

    fn lengths(&mut self, first: &[u32], second: &[u32]) {
        let count = match self.input.effort {
            Effort::Full => 3,
            Effort::Some => 2,
            Effort::Few => 1,
        };
        for _ in 0..count {
            let length = self.random.pick(&LENGTHS);
            // Long lists over long bitmaps are slow.
            let length = if self.input.effort == Effort::Few { length.min(3) } else { length };
            let a = self.drawn_out(first, length);
            let b = self.drawn_out(second, length);
            let rows = self.value_rows(first);
            for row in [rows[0], self.random.pick(&rows)] {
                self.value(&a, row);
            }
            self.drawn_ranks(&a);
            let two = self.random.pick(&[(&a[..], second), (first, &b[..]), (&a, &b), (&b, &a), (&a, &a)]);
            let call = self.some_pairing();
            self.ask_one_room(Question::pair(call, two.0, two.1));
            self.changes(two.0, two.1);
        }
    }

    /// A buffer of just the words needed, or too small.
    pub fn ask_one_room(&mut self, question: Question) {
        let need = words_needed(&self.input.words, &question);
        let room = self.random.pick(&[need, need, need.saturating_sub(1), 0, need + 3]);
        self.ask(question.room(room));
    }
}
