//! The numbers of two columns at some rows, beside what is made of them there.
//!
//! The library writes the difference, the smaller numbers and the difference without negatives, and then tells the
//! values of these and of the two columns at some rows that both have. The reference takes the two numbers of such a
//! row and works out the others. So at each of these rows the difference added to the second number is the first.

use zvonurel::Refusal;

use crate::library::measured;
use crate::question::Question;
use crate::random::Random;

/// So many rows by chance, beside the first and the last one.
const CHANCES: usize = 4;

#[derive(Debug, Clone, PartialEq, Eq)]
pub struct Change {
    row: u32,
    first: u64,
    second: u64,
    difference: i64,
    smaller: u64,
    or_zero: u64,
}

/// Which of so many rows that both columns have are asked about.
pub fn some_of(count: u32, seed: u32) -> Vec<u32> {
    let mut random = Random::for_case(seed.into(), 0);
    let mut some = vec![0, count.wrapping_sub(1)];
    some.extend((0..CHANCES).map(|_| random.below(count as usize) as u32));
    some.retain(|&n| n < count);
    some.sort();
    some.dedup();
    some
}

/// The list of a new index: existence, then all its slices.
fn whole(index: &[u32]) -> Vec<u32> {
    (0..index[2]).collect()
}

/// The library's side.
pub fn by_asking(words: &[u32], q: &Question) -> Result<Vec<Change>, Refusal> {
    let (first, second) = (&q.list, &q.second);
    let difference = measured(|out| zvonurel::signed_difference(words, first, second, out))?;
    let smaller = measured(|out| zvonurel::smaller(words, first, second, out))?;
    let or_zero = measured(|out| zvonurel::difference_or_zero(words, first, second, out))?;
    let change = |n| {
        let row = zvonurel::nth(&difference, 0, n)?;
        Ok(Change {
            row,
            first: zvonurel::value(words, first, row)?,
            second: zvonurel::value(words, second, row)?,
            difference: zvonurel::signed_value(&difference, &whole(&difference), row)?,
            smaller: zvonurel::value(&smaller, &whole(&smaller), row)?,
            or_zero: zvonurel::value(&or_zero, &whole(&or_zero), row)?,
        })
    };
    some_of(zvonurel::count(&difference, 0)?, q.number).into_iter().map(change).collect()
}

/// The reference's side.
pub fn by_numbers(words: &[u32], q: &Question) -> Result<Vec<Change>, reference::Refusal> {
    let both = reference::signed_difference(words, &q.list, &q.second, usize::MAX)?;
    let change = |n| {
        let row = reference::nth(&both, 0, n)?;
        let first = reference::value(words, &q.list, row)?;
        let second = reference::value(words, &q.second, row)?;
        let difference = first as i64 - second as i64;
        Ok(Change { row, first, second, difference, smaller: first.min(second), or_zero: difference.max(0) as u64 })
    };
    some_of(reference::count(&both, 0)?, q.number).into_iter().map(change).collect()
}

#[cfg(test)]
mod tests {
    use super::*;
    use crate::question::Call;

    /// 1, 2, 3 at rows 0 to 2, and 1, 0, 0 at rows 1 to 3: both sides come to what was worked out by hand.
    #[test]
    fn by_hand() {
        let index = zvonurel::index_of(4, &[0x7, 0x5, 0x6, 0xE, 0x2].map(|rows| [0x0002_0000, rows]));
        let [wide, narrow] = [&[0, 1, 2][..], &[3, 4]];
        let due = [(1, 2, 1, 1, 1, 1), (2, 3, 0, 3, 0, 3)];
        let turned = [(1, 1, 2, -1, 1, 0), (2, 0, 3, -3, 0, 0)];
        for (first, second, due) in [(wide, narrow, due), (narrow, wide, turned)] {
            let due = due.map(|(row, first, second, difference, smaller, or_zero)| Change {
                row,
                first,
                second,
                difference,
                smaller,
                or_zero,
            });
            let question = Question::pair(Call::Changes, first, second);
            assert_eq!(by_numbers(&index, &question).expect("nothing is refused"), due);
            assert_eq!(by_asking(&index, &question).expect("nothing is refused"), due);
        }
    }

    #[test]
    fn rows_by_chance() {
        for count in 0..20 {
            let some = some_of(count, 7);
            assert!(some.iter().all(|&n| n < count) && some.is_sorted());
            assert_eq!((some.contains(&0), some.contains(&count.wrapping_sub(1))), (count > 0, count > 0));
        }
    }
}
