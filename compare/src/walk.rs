//! A body walked from piece to piece by its rows.
//!
//! A walk begins at row 0, and goes on behind the piece of each answer up to the end of the rows. The library has to
//! come by just the pieces that the reference lists. What these have of set rows is its count; and as soon as they
//! have more than n so far, the piece is that of its set row n. Each side comes to a `Walk` by a way of its own: the
//! library by its answers on rows, its count and its nth rows, the reference by its list of pieces and a running sum.

use zvonurel::{segments, Refusal, Row, WORD_BITS};

use crate::random::Random;

/// The most pieces that are met one behind the other: each is looked for from the front of the body.
pub const MOST_MET: usize = 300;

/// About the ends of so many pieces nth rows are asked for, and for so many by chance.
const ENDS: usize = 6;
const CHANCES: usize = 3;

#[derive(Debug, Clone, PartialEq, Eq)]
pub struct Walk {
    /// The answers on the rows asked. Where more pieces follow than are met, the last one is that on the last row.
    met: Vec<Row>,
    /// How many rows are set in each piece met.
    set: Vec<u32>,
    count: u32,
    /// Some n, and the first and the last row of the piece that set row n lies in.
    nths: Vec<(u32, u32, u32)>,
}

/// A lone body, or a bitmap of an index, by the library's calls on it.
pub trait Asked {
    /// Right once a call was not refused.
    fn rows(&self) -> u32;
    fn count(&self) -> Result<u32, Refusal>;
    fn row(&self, row: u32) -> Result<Row, Refusal>;
    fn nth(&self, n: u32) -> Result<u32, Refusal>;
    fn expand(&self, out: &mut [u32]) -> Result<usize, Refusal>;
}

/// Plain words, with the number of set rows before each, and before the end.
struct Sums<'a> {
    plain: &'a [u32],
    before: Vec<u32>,
}

impl Sums<'_> {
    fn of(plain: &[u32]) -> Sums<'_> {
        let mut before = vec![0];
        before.extend(running(plain.iter().map(|word| word.count_ones())));
        Sums { plain, before }
    }

    fn has(&self, row: u32) -> bool {
        let (at, bit) = (row as usize / WORD_BITS, row as usize % WORD_BITS);
        self.plain.get(at).is_some_and(|word| (word >> bit) & 1 == 1)
    }

    /// How many rows below this one are set, which may lie past the end.
    fn below(&self, row: usize) -> u32 {
        match self.plain.get(row / WORD_BITS) {
            Some(word) => self.before[row / WORD_BITS] + (word & !(u32::MAX << (row % WORD_BITS))).count_ones(),
            None => self.before[self.plain.len()],
        }
    }

    /// How many of these rows are set. What the library tells may be no piece, so it may end before it begins.
    fn within(&self, first: u32, last: u32) -> u32 {
        self.below(last as usize + 1).saturating_sub(self.below(first as usize))
    }
}

/// The sums of the numbers up to each.
fn running(numbers: impl Iterator<Item = u32>) -> impl Iterator<Item = u32> {
    numbers.scan(0_u32, |sum, number| {
        *sum = sum.saturating_add(number);
        Some(*sum)
    })
}

/// The first set row and the last, some by chance, and those about the ends of some of the pieces met.
fn some_nths(count: u32, set: &[u32], seed: u32) -> Vec<u32> {
    let mut random = Random::for_case(seed.into(), 0);
    let mut nths = vec![0, count.wrapping_sub(1)];
    nths.extend((0..CHANCES).map(|_| random.below(count as usize) as u32));
    let ends: Vec<u32> = running(set.iter().copied()).collect();
    for _ in 0..ENDS.min(ends.len()) {
        let end = random.pick(&ends);
        nths.extend([end.wrapping_sub(1), end]);
    }
    nths.retain(|&n| n < count);
    nths.sort();
    nths.dedup();
    nths
}

// ---- the library's side ----

pub fn by_asking(asked: &impl Asked, seed: u32) -> Result<Walk, Refusal> {
    let count = asked.count()?;
    let mut plain = vec![0; segments(asked.rows())];
    asked.expand(&mut plain)?;
    let met = met(asked)?;
    let sums = Sums::of(&plain);
    let set: Vec<u32> = met.iter().map(|row| sums.within(row.first, row.last)).collect();
    let piece = |n| asked.row(asked.nth(n)?).map(|row| (n, row.first, row.last));
    let nths = some_nths(count, &set, seed).into_iter().map(piece).collect::<Result<_, _>>()?;
    Ok(Walk { met, set, count, nths })
}

/// The walk itself. One that gets no further ends, and is no list of pieces.
fn met(asked: &impl Asked) -> Result<Vec<Row>, Refusal> {
    let (mut met, mut next) = (Vec::new(), 0);
    while next < asked.rows() && met.len() < MOST_MET {
        let row = asked.row(next)?;
        met.push(row);
        if row.last < next {
            break;
        }
        next = row.last.saturating_add(1);
    }
    if next < asked.rows() {
        met.push(asked.row(asked.rows() - 1)?);
    }
    Ok(met)
}

// ---- the reference's side ----

pub fn by_pieces(pieces: &[(u32, u32)], plain: &[u32], seed: u32) -> Walk {
    let sums = Sums::of(plain);
    let row = |asked, first, last| Row { set: sums.has(asked), first, last };
    let within = |&(first, last): &(u32, u32)| sums.within(first, last);
    let mut met: Vec<Row> = pieces.iter().take(MOST_MET).map(|&(first, last)| row(first, first, last)).collect();
    met.extend(pieces[met.len()..].last().map(|&(first, last)| row(last, first, last)));
    let set: Vec<u32> = met.iter().map(|row| within(&(row.first, row.last))).collect();
    let ends: Vec<u32> = running(pieces.iter().map(within)).collect();
    let count = ends.last().copied().unwrap_or(0);
    let piece = |n| {
        let (first, last) = pieces[ends.partition_point(|&end| end <= n)];
        (n, first, last)
    };
    let nths = some_nths(count, &set, seed).into_iter().map(piece).collect();
    Walk { met, set, count, nths }
}

#[cfg(test)]
mod tests {
    use super::*;

    /// 100 rows, of which 40 to 59 and 70 are set, and the pieces that are to be met.
    const PLAIN: [u32; 4] = [0, 0x0FFF_FF00, 0x40, 0];
    const PIECES: [(u32, u32); 3] = [(0, 31), (32, 95), (96, 99)];

    /// A library that tells these pieces, and a count and nth rows that are so much too high.
    struct Told {
        pieces: Vec<(u32, u32)>,
        more: u32,
        later: u32,
    }

    impl Asked for Told {
        fn rows(&self) -> u32 {
            100
        }

        fn count(&self) -> Result<u32, Refusal> {
            Ok(21 + self.more)
        }

        /// The last piece that begins at the row or before it.
        fn row(&self, row: u32) -> Result<Row, Refusal> {
            let (first, last) = *self.pieces.iter().rfind(|piece| piece.0 <= row).expect("a piece from row 0 on");
            Ok(Row { set: Sums::of(&PLAIN).has(row), first, last })
        }

        fn nth(&self, n: u32) -> Result<u32, Refusal> {
            let set = (40..60).chain([70]).chain(71..);
            Ok(set.clone().nth(n as usize).expect("endless") + self.later)
        }

        fn expand(&self, out: &mut [u32]) -> Result<usize, Refusal> {
            out.copy_from_slice(&PLAIN);
            Ok(out.len())
        }
    }

    fn told(pieces: &[(u32, u32)], more: u32, later: u32) -> Walk {
        by_asking(&Told { pieces: pieces.to_vec(), more, later }, 7).expect("nothing is refused")
    }

    #[test]
    fn a_right_walk_is_the_list() {
        let walk = told(&PIECES, 0, 0);
        assert_eq!(walk, by_pieces(&PIECES, &PLAIN, 7));
        assert_eq!((&walk.set[..], walk.count), (&[0, 21, 0][..], 21));
        assert!(walk.nths.contains(&(0, 32, 95)) && walk.nths.contains(&(20, 32, 95)));
    }

    /// Each ends, and is another one: no progress, past the last row, joined, cut, one left out, begun too early.
    #[test]
    fn wrong_pieces_differ() {
        let right = by_pieces(&PIECES, &PLAIN, 7);
        let wrong: [&[(u32, u32)]; 8] = [
            &[(0, 31), (32, 31), (96, 99)],
            &[(0, 31), (32, 0), (96, 99)],
            &[(0, 31), (32, 95), (96, 127)],
            &[(0, 31), (32, u32::MAX)],
            &[(0, 95), (96, 99)],
            &[(0, 31), (32, 63), (64, 95), (96, 99)],
            &[(0, 31), (96, 99)],
            &[(0, 31), (31, 95), (96, 99)],
        ];
        for pieces in wrong {
            assert_ne!(told(pieces, 0, 0), right, "{pieces:?}");
        }
    }

    #[test]
    fn wrong_sums_differ() {
        let right = by_pieces(&PIECES, &PLAIN, 7);
        assert_ne!(told(&PIECES, 1, 0), right);
        // each set row is told in the piece behind its own
        assert_ne!(told(&PIECES, 0, 56), right);
    }

    /// Of more pieces than are met the last one is too, and nth rows lie anywhere.
    #[test]
    fn long_walks() {
        let count = 2 * MOST_MET as u32;
        let pieces: Vec<(u32, u32)> = (0..count).map(|at| (32 * at, 32 * at + 31)).collect();
        let walk = by_pieces(&pieces, &vec![1; pieces.len()], 7);
        assert_eq!((walk.met.len(), walk.set.len(), walk.count), (MOST_MET + 1, MOST_MET + 1, count));
        assert_eq!(walk.met.last(), Some(&Row { set: false, first: 32 * count - 32, last: 32 * count - 1 }));
        assert!(walk.nths.iter().all(|&(n, first, last)| (first, last) == (32 * n, 32 * n + 31)));
        assert_eq!(walk.nths.last(), Some(&(count - 1, 32 * count - 32, 32 * count - 1)));
    }
}
