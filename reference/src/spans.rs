//! A value for each place, kept once for all neighbours that share it. Places are rows, or words of rows.

use std::ops::Range;

use crate::limits::WORD_BITS;

/// Places from 0 on, and what each of them has.
#[derive(Debug, Clone, PartialEq, Eq)]
pub(crate) struct Spans<T> {
    /// The place behind each span, and the value in it. No span is empty, and neighbours differ.
    ends: Vec<(u32, T)>,
}

impl<T: Copy + PartialEq> Spans<T> {
    pub fn none() -> Spans<T> {
        Spans { ends: Vec::new() }
    }

    /// So many places with one value.
    pub fn alike(places: usize, value: T) -> Spans<T> {
        let mut all = Spans::none();
        all.push(places, value);
        all
    }

    /// How many places there are.
    pub fn len(&self) -> usize {
        self.ends.last().map_or(0, |&(end, _)| end as usize)
    }

    /// Adds so many places with this value behind the last.
    pub fn push(&mut self, places: usize, value: T) {
        if places == 0 {
            return;
        }
        let end = u32::try_from(self.len() + places).expect("places that a word can number");
        match self.ends.last_mut() {
            Some(last) if last.1 == value => last.0 = end,
            _ => self.ends.push((end, value)),
        }
    }

    /// Adds all of these behind the last.
    pub fn append(&mut self, more: &Spans<T>) {
        for (places, value) in more.iter() {
            self.push(places.len(), value);
        }
    }

    /// The span with this place; behind the last one if there is none.
    fn span_over(&self, place: usize) -> usize {
        self.ends.partition_point(|&(end, _)| end as usize <= place)
    }

    pub fn get(&self, place: usize) -> Option<T> {
        self.ends.get(self.span_over(place)).map(|&(_, value)| value)
    }

    /// The spans in order: their places, and the value that these have.
    pub fn iter(&self) -> impl DoubleEndedIterator<Item = (Range<usize>, T)> + '_ {
        (0..self.ends.len()).map(|at| {
            let start = if at == 0 { 0 } else { self.ends[at - 1].0 };
            let (end, value) = self.ends[at];
            (start as usize..end as usize, value)
        })
    }

    /// The value that all places have; none if they differ.
    pub fn same(&self) -> Option<T> {
        match self.ends[..] {
            [(_, value)] => Some(value),
            _ => None,
        }
    }

    /// What the rule makes of each place.
    pub fn map<U: Copy + PartialEq>(&self, rule: impl Fn(T) -> U) -> Spans<U> {
        let mut all = Spans::none();
        for (places, value) in self.iter() {
            all.push(places.len(), rule(value));
        }
        all
    }

    /// What the rule makes of each place that both have.
    pub fn with<U, V>(&self, other: &Spans<U>, rule: impl Fn(T, U) -> V) -> Spans<V>
    where
        U: Copy + PartialEq,
        V: Copy + PartialEq,
    {
        let mut all = Spans { ends: Vec::with_capacity(self.ends.len().max(other.ends.len())) };
        let (mut a, mut b, mut start) = (0, 0, 0);
        while let (Some(&(end_a, first)), Some(&(end_b, second))) = (self.ends.get(a), other.ends.get(b)) {
            let end = end_a.min(end_b);
            all.push((end - start) as usize, rule(first, second));
            a += usize::from(end == end_a);
            b += usize::from(end == end_b);
            start = end;
        }
        all
    }

    /// These places alone, as far as there are such, numbered from 0 on.
    pub fn part(&self, places: Range<usize>) -> Spans<T> {
        let mut part = Spans::none();
        let mut start = places.start;
        for &(end, value) in &self.ends[self.span_over(start)..] {
            let end = places.end.min(end as usize);
            if end <= start {
                break;
            }
            part.push(end - start, value);
            start = end;
        }
        part
    }

    /// Takes away the places from this one on.
    pub fn split_off(&mut self, place: usize) -> Spans<T> {
        let rest = self.part(place..self.len());
        while self.len() > place {
            let value = self.ends.pop().map(|(_, value)| value).expect("a span over the last place");
            self.push(place.saturating_sub(self.len()), value);
        }
        rest
    }

    /// Every place by itself.
    pub fn to_vec(&self) -> Vec<T> {
        let mut all = Vec::with_capacity(self.len());
        for (places, value) in self.iter() {
            all.resize(places.end, value);
        }
        all
    }
}

impl<T: Copy + PartialEq> FromIterator<T> for Spans<T> {
    fn from_iter<I: IntoIterator<Item = T>>(values: I) -> Spans<T> {
        let mut all = Spans::none();
        for value in values {
            all.push(1, value);
        }
        all
    }
}

impl Spans<bool> {
    /// Set at these places, which come in order, and nowhere else; it ends with the last.
    pub fn at(places: impl Iterator<Item = usize>) -> Spans<bool> {
        Spans::over(places.map(|place| place..place + 1))
    }

    /// The same for places side by side.
    pub fn over(spans: impl Iterator<Item = Range<usize>>) -> Spans<bool> {
        let mut all = Spans::none();
        for places in spans {
            all.push(places.start - all.len(), false);
            all.push(places.len(), true);
        }
        all
    }

    /// Sets all places that the other has set.
    pub fn unite(&mut self, mut other: Spans<bool>) {
        let longer = self.len().max(other.len());
        self.push(longer - self.len(), false);
        other.push(longer - other.len(), false);
        *self = self.with(&other, |a, b| a || b);
    }

    /// The places of each span that is set.
    pub fn set(&self) -> impl DoubleEndedIterator<Item = Range<usize>> + '_ {
        self.iter().filter(|&(_, set)| set).map(|(places, _)| places)
    }

    pub fn any(&self) -> bool {
        self.set().next().is_some()
    }

    /// How many places are set.
    pub fn count(&self) -> usize {
        self.set().map(|places| places.len()).sum()
    }

    /// The nth place that is set, from 0.
    pub fn nth(&self, n: usize) -> Option<usize> {
        let mut left = n;
        for places in self.set() {
            if left < places.len() {
                return Some(places.start + left);
            }
            left -= places.len();
        }
        None
    }

    /// Adds the low bits of a word, lowest first, a run of equal ones at a time.
    pub fn push_bits(&mut self, word: u32, bits: usize) {
        let mut done = 0;
        while done < bits {
            let rest = word >> done;
            let set = rest & 1 == 1;
            let run = if set { rest.trailing_ones() } else { rest.trailing_zeros() };
            let run = (run as usize).min(bits - done);
            self.push(run, set);
            done += run;
        }
    }

    /// The words that have so many places each, lowest bit first. Bits past the last place are zero.
    pub fn words(&self, width: usize) -> Spans<u32> {
        let mut words = Spans::none();
        // The word that isn't whole yet, and how many places it has.
        let (mut begun, mut bits) = (0, 0);
        for (places, set) in self.iter() {
            let mut left = places.len();
            while left > 0 {
                let taken = left.min(width - bits);
                if set {
                    begun |= low_bits(taken) << bits;
                }
                bits += taken;
                left -= taken;
                if bits == width {
                    words.push(1, begun);
                    (begun, bits) = (0, 0);
                }
                if bits == 0 && left >= width {
                    words.push(left / width, if set { low_bits(width) } else { 0 });
                    left %= width;
                }
            }
        }
        words.push(usize::from(bits > 0), begun);
        words
    }
}

/// A word with so many of its low bits set, one at least.
pub(crate) fn low_bits(bits: usize) -> u32 {
    u32::MAX >> (WORD_BITS - bits)
}

#[cfg(test)]
mod tests {
    use super::*;
    use crate::limits::WAH_ROWS;

    /// Every pattern of so many places.
    fn patterns(places: u32) -> impl Iterator<Item = Vec<bool>> {
        (0..1u32 << places).map(move |code| (0..places).map(|place| code >> place & 1 == 1).collect())
    }

    fn spans(places: &[bool]) -> Spans<bool> {
        places.iter().copied().collect()
    }

    #[test]
    fn like_a_bool_for_each_place() {
        for places in patterns(7) {
            let all = spans(&places);
            assert_eq!((all.len(), all.to_vec()), (7, places.clone()));
            assert!(all.ends.windows(2).all(|pair| pair[0].0 < pair[1].0 && pair[0].1 != pair[1].1));
            let set: Vec<usize> = (0..7).filter(|&place| places[place]).collect();
            assert_eq!((all.count(), all.any()), (set.len(), !set.is_empty()));
            assert_eq!(
                (0..8).map(|n| all.nth(n)).collect::<Vec<_>>(),
                (0..8).map(|n| set.get(n).copied()).collect::<Vec<_>>()
            );
            assert_eq!(
                (0..8).map(|at| all.get(at)).collect::<Vec<_>>(),
                (0..8).map(|at| places.get(at).copied()).collect::<Vec<_>>()
            );
            assert_eq!(all.same(), places.iter().all(|&set| set == places[0]).then_some(places[0]));
        }
    }

    #[test]
    fn parts() {
        for places in patterns(6) {
            for start in 0..7 {
                for end in start..9 {
                    assert_eq!(spans(&places).part(start..end), spans(&places[start.min(6)..end.min(6)]));
                }
                let mut front = spans(&places);
                let rest = front.split_off(start);
                assert_eq!((&front, &rest), (&spans(&places[..start.min(6)]), &spans(&places[start.min(6)..])));
                front.append(&rest);
                assert_eq!(front, spans(&places));
            }
        }
    }

    #[test]
    fn rules() {
        for first in patterns(4) {
            assert_eq!(spans(&first).map(|set| !set).to_vec(), first.iter().map(|set| !set).collect::<Vec<_>>());
            // As far as both go.
            for second in patterns(5) {
                let due: Vec<u8> = first.iter().zip(&second).map(|(&a, &b)| u8::from(a) + u8::from(b)).collect();
                let both = spans(&first).with(&spans(&second), |a, b| u8::from(a) + u8::from(b));
                assert_eq!(both, due.into_iter().collect());
            }
        }
    }

    #[test]
    fn by_places() {
        for first in patterns(4) {
            let set = |places: &[bool]| Spans::at((0..places.len()).filter(|&place| places[place]));
            let end = first.iter().rposition(|&set| set).map_or(0, |last| last + 1);
            assert_eq!(set(&first), spans(&first[..end]));
            for second in patterns(5) {
                let due: Vec<bool> = (0..5).map(|at| second[at] || first.get(at) == Some(&true)).collect();
                let (mut all, mut other) = (spans(&first), spans(&second));
                all.unite(spans(&second));
                other.unite(spans(&first));
                assert_eq!((all, other), (spans(&due), spans(&due)));
            }
        }
    }

    /// All words of three runs of bits, there and back.
    #[test]
    fn words_and_bits() {
        for width in [WAH_ROWS, WORD_BITS] {
            for first in 0..=width {
                for second in first..=width {
                    let word = (0..width).filter(|bit| (first..second).contains(bit)).map(|bit| 1 << bit).sum();
                    for bits in 1..=width {
                        let mut all = Spans::alike(5 * width, true);
                        all.push_bits(word, bits);
                        let last = word & low_bits(bits);
                        let mut due = Spans::alike(5, low_bits(width));
                        due.push(1, last);
                        assert_eq!((all.len(), all.words(width)), (5 * width + bits, due));
                    }
                }
            }
        }
    }
}
