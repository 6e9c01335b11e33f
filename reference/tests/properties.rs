//! What has to hold of any sound index, tried on thrown ones.

mod common;
use common::*;
use reference::limits::{CLEAN_SHIFT, DIRTY_SHIFT, HEAD_WORDS, MOST_BITMAPS, WAH_ROWS, WORD_BITS};
use reference::*;

const ANY: usize = usize::MAX;

/// A sound body, often wasteful, with the plain words it spells.
fn throw_body(dice: &mut Dice, rows: u32, format: Format) -> (Vec<u32>, Vec<u32>) {
    match format {
        Ewah => throw_ewah(dice, rows),
        Wah => throw_wah(dice, rows),
    }
}

fn throw_format(dice: &mut Dice) -> Format {
    Format::ALL[dice.below(2) as usize]
}

fn throw_wah(dice: &mut Dice, rows: u32) -> (Vec<u32>, Vec<u32>) {
    let (mut body, mut bits) = (Vec::new(), Vec::new());
    while bits.len() < rows as usize {
        let left = (rows as usize - bits.len()).div_ceil(WAH_ROWS);
        let value = dice.below(2);
        let thrown: Vec<bool> = match dice.below(3) {
            0 => (0..WAH_ROWS).map(|_| dice.below(2) == 1).collect(),
            _ => vec![value == 1; WAH_ROWS],
        };
        if dice.below(2) == 1 {
            let count = 1 + dice.below(left.min(4) as u32);
            body.push(0x8000_0000 | value << 30 | count);
            bits.extend(vec![value == 1; WAH_ROWS * count as usize]);
        } else {
            let real = &thrown[..WAH_ROWS.min(rows as usize - bits.len())];
            body.extend(words_of(real, WAH_ROWS));
            bits.extend(real);
        }
    }
    // A fill of ones may have covered pads, which are no rows.
    bits.truncate(rows as usize);
    (body, plain(&bits))
}

fn throw_ewah(dice: &mut Dice, rows: u32) -> (Vec<u32>, Vec<u32>) {
    let segments = (rows as usize).div_ceil(WORD_BITS);
    let last_mask = match rows as usize % WORD_BITS {
        0 => u32::MAX,
        used => (1 << used) - 1,
    };
    let mut body = Vec::new();
    let mut plain = Vec::new();
    while plain.len() < segments || dice.below(4) == 0 {
        let left = (segments - plain.len()) as u32;
        let clean = dice.below(left.min(4) + 1);
        let dirty = dice.below((left - clean).min(3) + 1);
        let value = dice.below(2);
        body.push(value | clean << CLEAN_SHIFT | dirty << DIRTY_SHIFT);
        plain.extend(vec![value * u32::MAX; clean as usize]);
        for _ in 0..dirty {
            let mut word = match dice.below(4) {
                0 => 0,
                1 => u32::MAX,
                _ => dice.below(1 << 30) << dice.below(8),
            };
            if plain.len() + 1 == segments {
                word &= last_mask;
            }
            body.push(word);
            plain.push(word);
        }
    }
    // A run of ones may have covered pads, which are no rows.
    if let Some(last) = plain.last_mut() {
        *last &= last_mask;
    }
    (body, plain)
}

fn bit(plain: &[u32], r: u32) -> bool {
    (plain[r as usize / WORD_BITS] >> (r as usize % WORD_BITS)) & 1 == 1
}

#[test]
fn lone_bodies() {
    let mut dice = Dice(1);
    for _ in 0..2000 {
        let (rows, format) = (dice.below(400), throw_format(&mut dice));
        let (body, plain) = throw_body(&mut dice, rows, format);
        assert_eq!(check_body(&body, rows, format), Ok(()));
        assert_eq!(expand(&body, rows, format, plain.len()).as_ref(), Ok(&plain));
        let set: Vec<u32> = (0..rows).filter(|&r| bit(&plain, r)).collect();
        assert_eq!(body_count(&body, rows, format), Ok(set.len() as u32));
        for (n, r) in set.iter().enumerate() {
            assert_eq!(body_nth(&body, rows, format, n as u32), Ok(*r));
            assert_eq!(body_row(&body, rows, format, *r).map(|row| row.set), Ok(true));
        }
        let settled = compress(rows, &plain, format, ANY).unwrap();
        assert!(settled.len() <= body.len());
        assert_eq!(check_body(&settled, rows, format), Ok(()));
        assert_eq!(expand(&settled, rows, format, ANY).as_ref(), Ok(&plain));
    }
}

#[test]
fn lists() {
    let mut dice = Dice(2);
    for _ in 0..600 {
        let (rows, format) = (dice.below(300), throw_format(&mut dice));
        let thrown: Vec<_> = (0..1 + dice.below(6)).map(|_| throw_body(&mut dice, rows, format)).collect();
        let bodies: Vec<&[u32]> = thrown.iter().map(|(body, _)| &body[..]).collect();
        let index = index_in(format, rows, &bodies);
        let n = thrown.len() as u32;
        let list: Vec<u32> = (0..1 + dice.below(7)).map(|_| dice.below(n)).collect();
        let named: usize = list.iter().map(|&k| bodies[k as usize].len()).sum();
        let held = |r: u32| list.iter().filter(|&&k| bit(&thrown[k as usize].1, r)).count();

        let tally = histogram(&index, &list).unwrap();
        assert_eq!(tally.iter().sum::<u32>(), rows);
        for (c, &rows_there) in tally.iter().enumerate() {
            assert_eq!(rows_there as usize, (0..rows).filter(|&r| held(r) == c).count());
        }
        for t in 1..=list.len() {
            let answer = threshold(&index, &list, t as u32, ANY).unwrap();
            assert!(answer.stretches as usize <= named);
            assert!(answer.words.len() <= 2 * answer.stretches as usize);
            assert_eq!(check_body(&answer.words, rows, format), Ok(()));
            for r in 0..rows {
                assert_eq!(body_row(&answer.words, rows, format, r).map(|row| row.set), Ok(held(r) >= t));
            }
            let table: Vec<u32> = (0..=list.len()).map(|c| u32::from(c >= t)).collect();
            assert_eq!(symmetric(&index, &list, &table, ANY).as_ref(), Ok(&answer));
            let need = answer.words.len();
            if need > 0 {
                assert_eq!(threshold(&index, &list, t as u32, need - 1), Err(no(9, 0, need as u64)));
            }
        }
        let (j, k) = (list[0], list[list.len() - 1]);
        pair(&index, j, k);
        let only = |(first, second): (&u32, &u32)| first & !second;
        let due: Vec<u32> = thrown[j as usize].1.iter().zip(&thrown[k as usize].1).map(only).collect();
        assert_eq!(and_not(&index, j, k, ANY), compress(rows, &due, format, ANY));
    }
}

/// Two bitmaps, or one, as a table would have them.
fn pair(index: &[u32], j: u32, k: u32) {
    let same = |table: &[u32]| symmetric(index, &[j, k], table, ANY).unwrap().words;
    assert_eq!(and(index, j, k, ANY), Ok(same(&[0, 0, 1])));
    assert_eq!(or(index, j, k, ANY), Ok(same(&[0, 1, 1])));
    assert_eq!(xor(index, j, k, ANY), Ok(same(&[0, 1, 0])));
    assert_eq!(not(index, k, ANY), Ok(symmetric(index, &[k], &[1, 0], ANY).unwrap().words));
}

/// A rewritten index has the same answers, rewritten.
#[test]
fn both_formats_agree() {
    let mut dice = Dice(6);
    for _ in 0..600 {
        let (rows, format, to) = (dice.below(300), throw_format(&mut dice), throw_format(&mut dice));
        let thrown: Vec<_> = (0..3).map(|_| throw_body(&mut dice, rows, format)).collect();
        let bodies: Vec<&[u32]> = thrown.iter().map(|(body, _)| &body[..]).collect();
        let old = index_in(format, rows, &bodies);
        let new = rewrite_index(&old, to, ANY).unwrap();
        assert_eq!(check(&new), Ok(()));
        assert_eq!(new[..HEAD_WORDS], [to.kind(), rows, 3]);

        let again = |words: Vec<u32>| rewrite(&words, rows, format, to, ANY);
        for (k, (body, plain)) in (0..).zip(&thrown) {
            assert_eq!(rewrite_bitmap(&old, k, to, ANY), compress(rows, plain, to, ANY));
            assert_eq!(rewrite(body, rows, format, to, ANY), compress(rows, plain, to, ANY));
            assert_eq!(expand_bitmap(&new, k, ANY), expand_bitmap(&old, k, ANY));
            assert_eq!(not(&old, k, ANY).and_then(again), not(&new, k, ANY));
        }
        let list = [0, 1, 2];
        for t in list.map(|k| k + 1) {
            let asked = |index: &[u32]| threshold(index, &list, t, ANY).map(|answer| answer.words);
            assert_eq!(asked(&old).and_then(again), asked(&new));
        }
        assert_eq!(histogram(&old, &list), histogram(&new, &list));
        let added = |index: &[u32]| sum(index, &[0, 0], &[1, 1], ANY);
        assert_eq!(added(&old).and_then(|index| rewrite_index(&index, to, ANY)), added(&new));
    }
}

/// A thrown column: existence, then slices, masked by it but for a few.
fn throw_column(dice: &mut Dice, rows: u32) -> Vec<Vec<u32>> {
    let exists = throw_ewah(dice, rows).1;
    let mut column = vec![exists.clone()];
    for _ in 0..1 + dice.below(6) {
        let mut slice = throw_ewah(dice, rows).1;
        if dice.below(30) > 0 {
            slice.iter_mut().zip(&exists).for_each(|(word, mask)| *word &= mask);
        }
        column.push(slice);
    }
    column
}

/// The number a column of plain words spells at a row.
fn spelt(column: &[Vec<u32>], r: u32) -> u64 {
    (1..column.len()).map(|place| u64::from(bit(&column[place], r)) << (place - 1)).sum()
}

/// Refusal 11, if it is due.
fn stray(column: &[Vec<u32>], list: &[u32], rows: u32) -> Option<Refusal> {
    let stray = |place: usize, r: u32| bit(&column[place], r) && !bit(&column[0], r);
    let places = (1..column.len()).flat_map(|place| (0..rows).map(move |r| (place, r)));
    places.into_iter().find(|&(place, r)| stray(place, r)).map(|(place, r)| no(11, list[place], u64::from(r)))
}

#[test]
fn columns() {
    let mut dice = Dice(5);
    for _ in 0..600 {
        let (rows, format) = (dice.below(300), throw_format(&mut dice));
        let (a, b) = (throw_column(&mut dice, rows), throw_column(&mut dice, rows));
        let bodies: Vec<Vec<u32>> =
            a.iter().chain(&b).map(|plain| compress(rows, plain, format, ANY).unwrap()).collect();
        let index = index_in(format, rows, &bodies.iter().map(|body| &body[..]).collect::<Vec<_>>());
        let first: Vec<u32> = (0..a.len() as u32).collect();
        let second: Vec<u32> = (a.len() as u32..bodies.len() as u32).collect();

        let strays = |column: &[Vec<u32>], list: &[u32]| stray(column, list, rows);
        for r in 0..rows {
            let due = strays(&a, &first).map_or(Ok(spelt(&a, r)), Err);
            let due = if bit(&a[0], r) { due } else { Err(no(8, 0, 0)) };
            assert_eq!(value(&index, &first, r), due);
        }
        let total = sum(&index, &first, &second, ANY);
        if let Some(refusal) = strays(&a, &first).or(strays(&b, &second)) {
            assert_eq!(total, Err(refusal));
            continue;
        }
        let total = total.unwrap();
        let list: Vec<u32> = (0..=a.len().max(b.len()) as u32).collect();
        assert_eq!(total[..HEAD_WORDS], [format.kind(), rows, list.len() as u32]);
        for r in 0..rows {
            let exists = bit(&a[0], r) && bit(&b[0], r);
            let due = if exists { Ok(spelt(&a, r) + spelt(&b, r)) } else { Err(no(8, 0, 0)) };
            assert_eq!(value(&total, &list, r), due);
        }
        for &k in &list {
            let body = &total[bitmap(&total, k).unwrap()];
            assert_eq!(compress(rows, &expand(body, rows, format, ANY).unwrap(), format, ANY).as_deref(), Ok(body));
        }
    }
}

fn ask_index(index: &[u32], list: &[u32], t: u32, room: usize) {
    let _ = (check(index), bitmap(index, t), row(index, t, t), count(index, 0));
    let _ = (pieces(index, t), nth(index, 0, t), expand_bitmap(index, 0, room), and(index, 0, 1, room));
    let _ = (or(index, 0, 1, room), xor(index, 1, 0, room), and_not(index, 0, 1, room));
    let _ = (not(index, 1, room), threshold(index, list, t, room), histogram(index, list));
    let _ = symmetric(index, list, &[1, 0, 1][..1 + list.len().min(2)], room);
    let _ = (value(index, &[0, 1], t), value(index, &[0, 0], t), value(index, list, t));
    let _ = (sum(index, &[0, 1], &[1, 0], room), sum(index, list, &[0, 0], room));
    let _ = (rewrite_bitmap(index, t, Ewah, room), rewrite_bitmap(index, 0, Wah, room));
    let _ = (rewrite_index(index, Ewah, room), rewrite_index(index, Wah, ANY));
    let _ = program(&input(t, index));
}

fn ask_body(body: &[u32], rows: u32, format: Format, n: u32, room: usize) {
    let _ = (check_body(body, rows, format), body_row(body, rows, format, n), body_count(body, rows, format));
    let _ = (body_pieces(body, rows, format), body_nth(body, rows, format, n), expand(body, rows, format, room));
    let _ = (compress(rows, body, format, room), rewrite(body, rows, format, Ewah, room));
    let _ = rewrite(body, rows, format, Wah, ANY);
}

/// Turns a bit of the words, every other time.
fn tear(dice: &mut Dice, words: &mut [u32]) {
    if dice.below(2) == 0 && !words.is_empty() {
        let place = dice.below(words.len() as u32) as usize;
        words[place] ^= 1 << dice.below(WORD_BITS as u32);
    }
}

/// Random words must not bring any call down, with or without a mistake.
#[test]
fn nothing_panics() {
    let mut dice = Dice(3);
    for round in 0..8000u32 {
        let (rows, format) = (dice.below(130), throw_format(&mut dice));
        let mut thrown: Vec<_> = (0..dice.below(4)).map(|_| throw_body(&mut dice, rows, format).0).collect();
        let mut index = index_in(format, rows, &thrown.iter().map(|body| &body[..]).collect::<Vec<_>>());
        tear(&mut dice, &mut index);
        if dice.below(6) == 0 {
            index.truncate(dice.below(index.len() as u32) as usize);
        }
        let list: Vec<u32> = (0..dice.below(4)).map(|_| dice.below(4)).collect();
        let (t, room) = (dice.below(5), dice.below(12) as usize);
        let m = Mistake::ALL[round as usize % Mistake::ALL.len()];
        ask_index(&index, &list, t, room);
        with_mistake(m, || ask_index(&index, &list, t, room));

        let mut body = thrown.pop().unwrap_or_default();
        tear(&mut dice, &mut body);
        ask_body(&body, rows, format, t, room);
        with_mistake(m, || ask_body(&body, rows, format, t, room));
    }
}

/// A full index of 100,000 rows stays quick.
#[test]
fn most_bitmaps_by_a_hundred_thousand() {
    let mut dice = Dice(4);
    for format in Format::ALL {
        let thrown: Vec<_> = (0..MOST_BITMAPS).map(|_| throw_body(&mut dice, 100_000, format)).collect();
        let bodies: Vec<&[u32]> = thrown.iter().map(|(body, _)| &body[..]).collect();
        let index = index_in(format, 100_000, &bodies);
        let list: Vec<u32> = (0..MOST_BITMAPS).collect();
        let begun = std::time::Instant::now();
        let answer = threshold(&index, &list, 30, ANY).unwrap();
        let took = begun.elapsed();
        println!("{format:?} {took:?}, {} words, {} stretches", answer.words.len(), answer.stretches);
        assert!(took.as_secs() < 5);
        assert_eq!(histogram(&index, &list).unwrap().iter().sum::<u32>(), 100_000);
    }
}
