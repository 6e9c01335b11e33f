//! The questions on columns to the library.

use zvonurel::{BadArgument, IndexBuilder, Refusal, Spell};

use crate::log::Log;
use crate::reading::{Reading, SLICES};

/// A question to the library that makes a new index, with one column, of two columns of an index.
type Pairing = fn(&[u32], &[u32], &[u32], &mut [u32]) -> Result<usize, Refusal>;

/// A question to the library for the body of the rows of a column that come first in an order, so many of them.
pub type Ranking = fn(&[u32], &[u32], u32, &mut [u32]) -> Result<usize, Refusal>;

/// An index, and the lists that name its columns.
pub struct Columns {
    rows: u32,
    index: Vec<u32>,
    lists: Vec<Vec<u32>>,
}

impl Columns {
    /// A column for each tank.
    pub fn new(log: &Log<Reading>) -> Result<Columns, Refusal> {
        let readings: Vec<&[Reading]> = log.tanks.iter().map(|tank| tank.entries.as_slice()).collect();
        Columns::of(log.span().rows, &readings)
    }

    /// Columns of so many rows, in hundredths of a milligram. A half hour without a reading does not exist in its
    /// column.
    pub fn of(rows: usize, readings: &[&[Reading]]) -> Result<Columns, Refusal> {
        // no more than a log may have
        let rows = rows as u32;
        let mut builder = IndexBuilder::new(rows);
        let lists = readings.iter().map(|readings| builder.add_column(readings, SLICES));
        let lists = lists.collect::<Result<_, _>>()?;
        Ok(Columns { rows, index: builder.build()?, lists })
    }

    /// What is made of two columns of that many slices, as the one column of a new index.
    pub fn combined(&self, pairing: Pairing, [first, second]: [usize; 2]) -> Result<Columns, Refusal> {
        // a sum takes the most room: no other has more slices
        let mut index = vec![0; zvonurel::most_sum_words(self.rows, SLICES)];
        let words = pairing(&self.index, &self.lists[first], &self.lists[second], &mut index)?;
        index.truncate(words);
        let bitmaps = index[2];
        Ok(Columns { rows: self.rows, index, lists: vec![(0..bitmaps).collect()] })
    }

    /// What a column has at a row, or none where the row does not exist in it.
    pub fn value(&self, column: usize, row: usize) -> Result<Option<u64>, Refusal> {
        existing(zvonurel::value(&self.index, &self.lists[column], row as u32))
    }

    /// What a column has at each row.
    pub fn values(&self, column: usize) -> Result<Vec<Option<u64>>, Refusal> {
        (0..self.rows as usize).map(|row| self.value(column, row)).collect()
    }

    /// What a signed column has at each row.
    pub fn signed_values(&self, column: usize) -> Result<Vec<Option<i64>>, Refusal> {
        let list = &self.lists[column];
        (0..self.rows).map(|row| existing(zvonurel::signed_value(&self.index, list, row))).collect()
    }

    /// The k rows of a column that come first in an order, the lowest row first.
    pub fn ranked(&self, ranking: Ranking, column: usize, k: usize) -> Result<Vec<usize>, Refusal> {
        let mut out = vec![0; zvonurel::most_body_words(self.rows)];
        // no more than a log may have rows
        let words = ranking(&self.index, &self.lists[column], k as u32, &mut out)?;
        Ok(zvonurel::set_rows(&out[..words], self.rows)?.map(|row| row as usize).collect())
    }

    /// How many rows exist in a column.
    pub fn count(&self, column: usize) -> Result<usize, Refusal> {
        Ok(zvonurel::count(&self.index, self.lists[column][0])? as usize)
    }

    /// How many rows of a signed column are below 0: those of its top slice, which is the sign.
    pub fn count_negative(&self, column: usize) -> Result<usize, Refusal> {
        let list = &self.lists[column];
        Ok(zvonurel::count(&self.index, list[list.len() - 1])? as usize)
    }

    /// How many rows of a column are not 0: those that one slice or more has.
    pub fn count_nonzero(&self, column: usize) -> Result<usize, Refusal> {
        let mut out = vec![0; zvonurel::most_body_words(self.rows)];
        let answer = zvonurel::threshold(&self.index, &self.lists[column][1..], 1, &mut out)?;
        Ok(zvonurel::body_count(&out[..answer.words], self.rows)? as usize)
    }

    /// The spells in which the rows of a column exist.
    pub fn spells(&self, column: usize) -> Result<Vec<Spell>, Refusal> {
        let existence = zvonurel::bitmap(&self.index, self.lists[column][0])?;
        Ok(zvonurel::spells(existence, self.rows)?.collect())
    }

    /// For each number of columns, from none to all, how many rows exist in just so many of them.
    pub fn histogram(&self) -> Result<Vec<usize>, Refusal> {
        let existence: Vec<u32> = self.lists.iter().map(|list| list[0]).collect();
        let counts = zvonurel::histogram(&self.index, &existence)?;
        Ok(counts[..=existence.len()].iter().map(|rows| *rows as usize).collect())
    }
}

/// A value, or none where the row does not exist.
fn existing<V>(told: Result<V, Refusal>) -> Result<Option<V>, Refusal> {
    match told {
        Err(Refusal { argument: Some(BadArgument::NoValue { .. }), .. }) => Ok(None),
        told => told.map(Some),
    }
}

#[cfg(test)]
mod tests {
    use super::*;
    use crate::log::Entry;

    fn columns(tanks: &[&str]) -> Columns {
        let lines: String = tanks.iter().zip(1..).map(|(readings, n)| format!("tank {n}: {readings}\n")).collect();
        let text = format!("tanks {}\nfrom 2026-03-09 00:00\n{lines}", tanks.len());
        let log = Log::read(&text).unwrap_or_else(|fault| panic!("{}", fault.what));
        Columns::new(&log).expect("columns")
    }

    /// Fifteen columns of 16 slices with existence are 255 bitmaps.
    #[test]
    fn every_tank_has_a_column() {
        let tanks = [vec!["0.00 0.01 655.35", "- - -"], vec!["0.21 - 0.20"; 12], vec!["- 1.00 -"]].concat();
        let columns = columns(&tanks);
        assert_eq!((tanks.len(), columns.index[2]), (Reading::MOST_TANKS, 255));
        assert_eq!(columns.lists[1], (17..34).collect::<Vec<_>>());
        assert_eq!(columns.lists[14], (238..255).collect::<Vec<_>>());
        assert_eq!(columns.values(0), Ok(vec![Some(0), Some(1), Some(65_535)]));
        assert_eq!(columns.values(1), Ok(vec![None; 3]));
        assert_eq!(columns.values(14), Ok(vec![None, Some(100), None]));
        assert_eq!(columns.spells(14), Ok(vec![Spell { first: 1, length: 1 }]));
        assert_eq!(columns.spells(1), Ok(Vec::new()));
    }

    /// A row counts once, with the number of columns that it exists in.
    #[test]
    fn a_histogram_has_every_row() {
        let histogram = |tanks: &[&str]| columns(tanks).histogram();
        assert_eq!(histogram(&["0.00 0.01 - - 0.21", "- - - 1.00 0.20", "- 1.00 - - 0.00"]), Ok(vec![1, 2, 1, 1]));
        assert_eq!(histogram(&["- -"]), Ok(vec![2, 0]));
        let all = [vec![0; 15], vec![2]].concat();
        assert_eq!(histogram(&["0.00 655.35"; 15]), Ok(all));
    }

    #[test]
    fn a_sum_is_where_both_are() {
        let columns = columns(&["655.35 0.01 - 0.00 -", "655.35 - 0.02 0.00 -"]);
        let sum = columns.combined(zvonurel::sum, [0, 1]).expect("a sum");
        assert_eq!(sum.lists, [(0..18).collect::<Vec<_>>()]);
        assert_eq!(sum.values(0), Ok(vec![Some(131_070), None, None, Some(0), None]));
        assert_eq!(sum.spells(0), Ok(vec![Spell { first: 0, length: 1 }, Spell { first: 3, length: 1 }]));
        assert_eq!(columns.combined(zvonurel::sum, [0, 0]).and_then(|sum| sum.value(0, 1)), Ok(Some(2)));
    }

    /// The first two rows have the highest change and the lowest, and the last of those that exist the lowest again.
    #[test]
    fn a_change_is_where_both_are() {
        let columns =
            columns(&["655.35 0.00 - 0.00 0.21 0.20 0.00 - 0.20", "0.00 655.35 0.02 0.00 0.20 0.21 655.35 - -"]);
        let [change, rise, lower] = [zvonurel::signed_difference, zvonurel::difference_or_zero, zvonurel::smaller]
            .map(|pairing| columns.combined(pairing, [0, 1]).expect("a column"));
        assert_eq!([&change, &rise, &lower].map(|made| made.lists[0].len()), [18, 17, 17]);
        let changes = vec![Some(65_535), Some(-65_535), None, Some(0), Some(1), Some(-1), Some(-65_535), None, None];
        assert_eq!(change.signed_values(0), Ok(changes));
        let rises = vec![Some(65_535), Some(0), None, Some(0), Some(1), Some(0), Some(0), None, None];
        assert_eq!(rise.values(0), Ok(rises));
        let lowers = vec![Some(0), Some(0), None, Some(0), Some(20), Some(20), Some(0), None, None];
        assert_eq!(lower.values(0), Ok(lowers));
        assert_eq!([&change, &rise, &lower].map(|made| made.count(0)), [Ok(6); 3]);
        assert_eq!((change.count_negative(0), rise.count_nonzero(0), lower.count_nonzero(0)), (Ok(3), Ok(2), Ok(2)));
    }

    /// Of equal ones the lowest rows are taken, and the rows are in order, whatever their values.
    #[test]
    fn the_first_rows_of_an_order() {
        let columns = columns(&["0.20 - 655.35 0.21 0.21 0.00 0.21", "- - - - - - -"]);
        let ranked = |ranking: Ranking, k: usize| columns.ranked(ranking, 0, k).map_err(|refusal| refusal.number);
        for (k, largest, smallest) in [
            (0, &[][..], &[][..]),
            (1, &[2], &[5]),
            (2, &[2, 3], &[0, 5]),
            (3, &[2, 3, 4], &[0, 3, 5]),
            (5, &[0, 2, 3, 4, 6], &[0, 3, 4, 5, 6]),
            (6, &[0, 2, 3, 4, 5, 6], &[0, 2, 3, 4, 5, 6]),
        ] {
            assert_eq!(ranked(zvonurel::largest, k), Ok(largest.to_vec()));
            assert_eq!(ranked(zvonurel::smallest, k), Ok(smallest.to_vec()));
        }
        assert_eq!(ranked(zvonurel::largest, 7), Err(Refusal::BAD_ARGUMENT));
        assert_eq!(ranked(zvonurel::smallest, 7), Err(Refusal::BAD_ARGUMENT));
        assert_eq!(columns.ranked(zvonurel::largest, 1, 0), Ok(Vec::new()));
    }

    #[test]
    fn any_other_refusal_is_one() {
        let columns = columns(&["0.21 0.20"]);
        assert_eq!(columns.value(0, 2).map_err(|refusal| refusal.number), Err(Refusal::BAD_ARGUMENT));
    }
}
