//! The first rows of an input's columns, with good and bad numbers of them.

use zvonurel::{MOST_CLEAN, WORD_BITS};

use crate::choose::Asker;
use crate::generate::{Effort, Input};
use crate::question::{Call, Question};

/// Rows side by side that exist and have one number.
#[derive(Debug, Clone, Copy, PartialEq, Eq)]
struct Span {
    first: u32,
    last: u32,
    number: u64,
}

/// The numbers of a column, as the plain words say.
struct Numbers(Vec<Span>);

impl Numbers {
    fn of(input: &Input, list: &[u32]) -> Numbers {
        let named: Vec<&Vec<u32>> = list.iter().filter_map(|&k| input.plain.get(k as usize)).collect();
        let mut numbers = Numbers(Vec::new());
        let [exists, slices @ ..] = &named[..] else { return numbers };
        for at in 0..exists.len() {
            let first = (WORD_BITS * at) as u32;
            let rows = (input.rows - first).min(WORD_BITS as u32);
            let number = |bit: u32| {
                let digit = |words: &[u32]| u64::from(words[at] >> bit & 1);
                let weighed = (0..).zip(slices).map(|(place, words)| digit(words) << place);
                (digit(exists) == 1).then(|| weighed.sum())
            };
            match named.iter().all(|words| matches!(words[at], 0 | u32::MAX)) {
                true => numbers.push(first, rows, number(0)),
                false => (0..rows).for_each(|bit| numbers.push(first + bit, 1, number(bit))),
            }
        }
        numbers
    }

    /// So many rows with a number, or such as don't exist.
    fn push(&mut self, first: u32, rows: u32, number: Option<u64>) {
        let Some(number) = number else { return };
        let last = first + rows - 1;
        match self.0.last_mut() {
            Some(span) if span.last + 1 == first && span.number == number => span.last = last,
            _ => self.0.push(Span { first, last, number }),
        }
    }

    fn count(&self) -> u32 {
        self.0.iter().map(|span| span.last - span.first + 1).sum()
    }

    /// The first row from here on that exists, and its number.
    fn next(&self, row: u32) -> Option<(u32, u64)> {
        let span = self.0.get(self.0.partition_point(|span| span.last < row))?;
        Some((span.first.max(row), span.number))
    }

    /// The first row with this number, and the last.
    fn ends(&self, number: u64) -> Option<[u32; 2]> {
        let mut equal = self.0.iter().filter(|span| span.number == number);
        let first = equal.next()?;
        Some([first.first, equal.next_back().unwrap_or(first).last])
    }

    /// As many rows as have to be asked for so that this one, with this number, is the last that is taken.
    fn rank(&self, row: u32, number: u64, call: Call) -> u32 {
        let taken = |span: &Span| match call {
            _ if span.number == number => (span.last + 1).min(row + 1).saturating_sub(span.first),
            Call::Largest if span.number < number => 0,
            Call::Smallest if span.number > number => 0,
            _ => span.last - span.first + 1,
        };
        self.0.iter().map(taken).sum()
    }
}

impl Asker<'_> {
    /// The largest and the smallest rows of a column.
    pub fn ranks(&mut self, list: &[u32]) {
        let numbers = Numbers::of(self.input, list);
        for call in Call::RANKINGS {
            let question = Question::new(call).list(list);
            let cuts = self.cuts(&numbers, call);
            for &k in &cuts {
                self.ask_one_room(question.clone().number(k));
            }
            let any = self.random.pick(&cuts);
            self.ask_rooms(&self.input.words, question.number(any));
        }
        for k in self.counts(&numbers) {
            for question in Question::ranks(list, k) {
                self.ask_one_room(question);
            }
        }
    }

    /// None, one, half, all and about as many, and more than there are.
    fn counts(&mut self, numbers: &Numbers) -> Vec<u32> {
        let (count, rows) = (numbers.count(), self.input.rows);
        let any = self.random.below(count as usize + 1) as u32;
        let good = vec![0, 1, count / 2, count.saturating_sub(1), count, any];
        let more = self.random.pick(&[rows, rows.wrapping_add(1), u32::MAX]);
        let mut all = self.thin(good);
        all.extend([count + 1, more]);
        all
    }

    /// Numbers of rows at which equal ones are cut: at the first of them, between, at the last, about the ends of a
    /// segment, and about as many segments as a marker counts. At least one.
    fn cuts(&mut self, numbers: &Numbers, call: Call) -> Vec<u32> {
        let width = self.input.format.segment_rows() as u32;
        let some = self.random.below(self.input.rows as usize) as u32;
        let edge = some / width * width;
        let mut last = vec![some, edge, edge + 1, edge + width - 1, edge + width - 2];
        if let Some((_, number)) = numbers.next(some) {
            last.extend(numbers.ends(number).into_iter().flatten());
        }
        let marker = MOST_CLEAN as u32 * width;
        let long = numbers.0.iter().filter(|span| span.last - span.first >= marker);
        last.extend(long.map(|span| span.first + marker));
        let ranked = last.into_iter().filter_map(|row| numbers.next(row));
        let mut all: Vec<u32> = ranked.map(|(row, number)| numbers.rank(row, number, call)).collect();
        all.sort();
        all.dedup();
        if all.is_empty() {
            all.push(0);
        }
        all
    }

    /// Lists of any bitmaps, mostly with strays, and of such as there are not.
    pub fn loose_ranks(&mut self, list: &[u32]) {
        let rows = self.input.rows as usize;
        for k in [0, 1, self.random.below(rows + 2) as u32] {
            for question in Question::ranks(list, k) {
                let room = self.any_room();
                self.ask(question.room(room));
            }
        }
    }

    /// A list that was drawn out from a column's, with numbers of its rows.
    pub fn drawn_ranks(&mut self, list: &[u32]) {
        let count = Numbers::of(self.input, &list[..list.len().min(1)]).count();
        let k = self.random.pick(&[0, 1, count / 2, count, count + 1]);
        for question in Question::ranks(list, k) {
            self.ask_one_room(question);
        }
        if self.input.effort == Effort::Full {
            let call = self.random.pick(&Call::RANKINGS);
            let cuts = self.cuts(&Numbers::of(self.input, list), call);
            let k = self.random.pick(&cuts);
            self.ask_one_room(Question::new(call).list(list).number(k));
        }
    }
}

#[cfg(test)]
mod tests {
    use super::*;
    use crate::encode::index_in;
    use crate::generate::Form;
    use zvonurel::Format::Ewah;

    /// 40 rows: 1 at rows 0 to 9, 3 at rows 10 to 35, none at 36 and 37, 1 at 38 and 39.
    #[test]
    fn by_hand() {
        let plain = vec![vec![u32::MAX, 0xCF], vec![u32::MAX, 0xCF], vec![0xFFFF_FC00, 0xF]];
        let words = index_in(Ewah, 40, &[[0]; 3]);
        let input = Input { form: Form::Index, format: Ewah, words, rows: 40, bitmaps: 3, plain, effort: Effort::Full };
        let numbers = Numbers::of(&input, &[0, 1, 2]);
        let spans = [(0, 9, 1), (10, 35, 3), (38, 39, 1)].map(|(first, last, number)| Span { first, last, number });
        assert_eq!(numbers.0, spans);
        assert_eq!((numbers.count(), numbers.ends(1), numbers.ends(2)), (38, Some([0, 39]), None));
        assert_eq!([9, 10, 36, 40].map(|row| numbers.next(row)), [Some((9, 1)), Some((10, 3)), Some((38, 1)), None]);
        let ranks = [(0, 1), (9, 1), (10, 3), (35, 3), (38, 1), (39, 1)];
        assert_eq!(ranks.map(|(row, n)| numbers.rank(row, n, Call::Largest)), [27, 36, 1, 26, 37, 38]);
        assert_eq!(ranks.map(|(row, n)| numbers.rank(row, n, Call::Smallest)), [1, 10, 13, 38, 11, 12]);
    }
}
