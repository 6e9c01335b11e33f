//! Columns by chance, against a value for each row.

#[path = "../shared/random.rs"]
mod random;

use crate::first_rows::FirstRows;
use crate::shared::{told, writes, Numbers, BAD};
use crate::two_columns::{whole, Made, MADE};
use random::Random;
use zvonurel::*;

/// So many rows in spells of one value, or of rows that do not exist.
fn some_values(random: &mut Random, rows: u32, slices: usize) -> Vec<Option<u32>> {
    let longest = [1, 3, 70, 400][random.below(4) as usize];
    let mut values = Vec::new();
    while values.len() < rows as usize {
        let value = random.below(1 << slices) as u32;
        let value = [None, Some(0), Some(u32::MAX >> (32 - slices)), Some(value)][random.below(4) as usize];
        values.extend(vec![value; 1 + random.below(longest) as usize]);
    }
    values.truncate(rows as usize);
    values
}

/// The index of a column with values of up to 33 digits, or of two's complement, from its rows.
fn index_of_values(format: Format, values: &[Option<i64>], slices: usize) -> Vec<u32> {
    let mut builder = IndexBuilder::with_format(values.len() as u32, format);
    let listed = |wanted: &dyn Fn(i64) -> bool| -> Vec<u32> {
        (0..).zip(values).filter(|(_, value)| value.is_some_and(wanted)).map(|(row, _)| row).collect()
    };
    builder.add_rows(listed(&|_| true)).unwrap();
    for i in 0..slices {
        builder.add_rows(listed(&|value| value >> i & 1 == 1)).unwrap();
    }
    builder.build().unwrap()
}

/// A call that gives the first rows of a column, and what they are sorted by, the lowest first.
type Order = (FirstRows, fn(u32) -> u32);

const ORDERS: [Order; 2] = [(largest, |value| u32::MAX - value), (smallest, |value| value)];

/// Two columns of one index, with their values and slices.
struct Two {
    format: Format,
    index: Vec<u32>,
    values: [Vec<Option<u32>>; 2],
    lists: [Vec<u32>; 2],
    wider: usize,
}

impl Two {
    /// Columns of some widths, with a bitmap before them.
    fn by_chance(random: &mut Random, format: Format, rows: u32) -> Two {
        let widths = [(1, 1), (1, 32), (2, 9), (9, 2), (31, 30), (29, 32), (32, 29)];
        let (m, n) = widths[random.below(7) as usize];
        let values = [some_values(random, rows, m), some_values(random, rows, n)];
        let mut builder = IndexBuilder::with_format(rows, format);
        builder.add_rows([]).unwrap();
        let lists = [builder.add_column(&values[0], m).unwrap(), builder.add_column(&values[1], n).unwrap()];
        Two { format, index: builder.build().unwrap(), values, lists, wider: m.max(n) }
    }

    fn rows(&self) -> u32 {
        self.index[1]
    }

    /// Some rows, which are all where they are few.
    fn some_rows(&self) -> impl Iterator<Item = u32> {
        (0..self.rows()).step_by(1 + self.rows() as usize / 40)
    }

    /// They have the values that they were made of.
    fn read(&self) {
        for row in self.some_rows() {
            for (list, values) in self.lists.iter().zip(&self.values) {
                assert_eq!(told(value(&self.index, list, row)), values[row as usize].map(u64::from).ok_or(BAD));
            }
        }
    }

    /// What is made of them is, word for word, the index of the values that it should have, and they are read back.
    fn make(&self, Made { call, of, more, read }: Made) {
        let [a, b] = &self.values;
        let both: Vec<_> = a.iter().zip(b).map(|(x, y)| Some(of(i64::from((*x)?), i64::from((*y)?)))).collect();
        let slices = self.wider + more;
        let want = index_of_values(self.format, &both, slices);
        writes(&want, |out| call(&self.index, &self.lists[0], &self.lists[1], out));
        assert!(want.len() <= self.format.most_new_index_words(self.rows(), slices + 1));
        for row in self.some_rows() {
            assert_eq!(told(read(&want, &whole(&want), row)), both[row as usize].ok_or(BAD));
        }
    }

    /// A column of the first one's existence and the second one's slices, and its refusal, if these have a row that
    /// the other has not.
    fn mixed(&self) -> (Vec<u32>, Option<Numbers>) {
        let ([a, b], [first, second]) = (&self.values, &self.lists);
        let mixed = first[..1].iter().chain(&second[1..]).copied().collect();
        let has = |r: u32, k: usize| a[r as usize].is_none() && b[r as usize].is_some_and(|y| y >> k & 1 == 1);
        let lowest = |k: usize| (0..self.rows()).find(|r| has(*r, k));
        let slices = second.len() - 1;
        let fault = (0..slices).find_map(|k| Some((Refusal::STRAY_ROW, second[1 + k], lowest(k)?.into())));
        (mixed, fault)
    }

    /// Of such a column nothing is made.
    fn mix(&self, Made { call, .. }: Made) {
        let ((mixed, fault), second) = (self.mixed(), &self.lists[1]);
        let mut out = vec![0; self.format.most_sum_words(self.rows(), second.len() - 1)];
        let refused = call(&self.index, &mixed, second, &mut out).err();
        assert_eq!(refused.map(|refusal| refusal.numbers()), fault);
    }

    /// The rows of each column that exist, sorted, and then as many of them as are asked for. Twice the words of the
    /// bodies is room enough.
    fn rank(&self, random: &mut Random, (call, key): Order) {
        for (list, values) in self.lists.iter().zip(&self.values) {
            let mut sorted: Vec<_> = (0..).zip(values).filter_map(|(row, value)| Some((key((*value)?), row))).collect();
            sorted.sort();
            let existing = sorted.len() as u32;
            let body_words = |k: &u32| bitmap(&self.index, *k).unwrap().len();
            let room = 2 * list.iter().map(body_words).sum::<usize>();
            for k in [0, 1, random.below(1 + u64::from(existing)) as u32, existing] {
                let Some(taken) = sorted.get(..k as usize) else { continue };
                let mut builder = IndexBuilder::with_format(self.rows(), self.format);
                builder.add_rows(taken.iter().map(|(_, row)| *row)).unwrap();
                let index = builder.build().unwrap();
                let want = bitmap(&index, 0).unwrap();
                writes(want, |out| call(&self.index, list, k, out));
                assert!(want.len() <= room, "{} words, and there is room for {room}", want.len());
            }
            let refusal = call(&self.index, list, existing + 1, &mut []).unwrap_err();
            assert_eq!(refusal.numbers(), BAD);
            assert_eq!(refusal.argument, Some(BadArgument::FewRows { k: existing + 1, existing }));
        }
    }

    /// Nor has a mixed column first rows, however many of them are asked for.
    fn mix_ranks(&self, (call, _): Order) {
        let ((mixed, fault), existing) = (self.mixed(), count(&self.index, self.lists[0][0]).unwrap());
        let mut out = vec![0; self.format.most_body_words(self.rows())];
        for k in [0, existing / 2, existing] {
            let refused = call(&self.index, &mixed, k, &mut out).err();
            assert_eq!(refused.map(|refusal| refusal.numbers()), fault);
        }
        assert_eq!(told(call(&self.index, &mixed, existing + 1, &mut out)), Err(BAD));
    }
}

#[test]
fn columns_by_chance() {
    let mut random = Random(20_261_116);
    for rows in (0..140).chain([1_023, 1_024, 3_000]) {
        for format in [Format::Ewah, Format::Wah] {
            let two = Two::by_chance(&mut random, format, rows);
            two.read();
            for made in MADE {
                two.make(made);
                two.mix(made);
            }
            for order in ORDERS {
                two.rank(&mut random, order);
                two.mix_ranks(order);
            }
        }
    }
}
