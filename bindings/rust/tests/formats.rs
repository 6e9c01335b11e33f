//! Rows by chance in both formats: words against a second writer of them, and what is asked of one against the other.

#[path = "shared/random.rs"]
mod random;

use random::Random;
use zvonurel::*;

/// So many rows in runs, with lengths up to `longest`.
fn some_rows(random: &mut Random, rows: usize, longest: u64) -> Vec<bool> {
    let mut set = Vec::new();
    while set.len() < rows {
        set.extend(vec![random.below(2) == 1; 1 + random.below(longest) as usize]);
    }
    set.truncate(rows);
    set
}

fn numbers(set: &[bool]) -> Vec<u32> {
    (0..set.len() as u32).filter(|row| set[*row as usize]).collect()
}

/// The value of a segment of which all rows have the same.
fn clean(segment: &[bool]) -> Option<bool> {
    segment.iter().all(|row| *row == segment[0]).then_some(segment[0])
}

fn literal(segment: &[bool]) -> u32 {
    segment.iter().rev().fold(0, |word, row| 2 * word + u32::from(*row))
}

fn fill(value: bool, segments: u32) -> u32 {
    0x8000_0000 + 0x4000_0000 * u32::from(value) + segments
}

/// A body in WAH of these rows, where `joined` says of each clean segment whether it goes into the fill before it, and
/// `counted` whether a run of one is a fill.
fn body(set: &[bool], mut joined: impl FnMut() -> bool, mut counted: impl FnMut() -> bool) -> Vec<u32> {
    let mut words = Vec::new();
    let mut segments = set.chunks(31).peekable();
    while let Some(segment) = segments.next() {
        let Some(value) = clean(segment) else {
            words.push(literal(segment));
            continue;
        };
        let mut run = 1;
        while segments.next_if(|next| clean(next) == Some(value) && joined()).is_some() {
            run += 1;
        }
        words.push(if run > 1 || counted() { fill(value, run) } else { literal(segment) });
    }
    words
}

fn canonical(set: &[bool]) -> Vec<u32> {
    body(set, || true, || false)
}

/// The segments of each piece of a body: a fill's or one, a marker's clean ones or one dirty one.
fn piece_segments(format: Format, body: &[u32]) -> Vec<u32> {
    let (mut segments, mut words) = (Vec::new(), body.iter());
    while let Some(word) = words.next() {
        match format {
            Format::Wah => segments.push(if *word >= 0x8000_0000 { word % 0x4000_0000 } else { 1 }),
            Format::Ewah => {
                segments.extend(Some(word / 2 % 0x1_0000).filter(|clean| *clean > 0));
                segments.extend(words.by_ref().take(*word as usize / 0x2_0000).map(|_| 1));
            }
        }
    }
    segments
}

/// Asked at its first and its last row and between, each piece is told as the words say it, with the row's value.
fn rows_agree(format: Format, body: &[u32], set: &[bool]) {
    let (rows, width) = (set.len() as u32, format.segment_rows() as u32);
    let ask = match format {
        Format::Ewah => body_row,
        Format::Wah => wah::body_row,
    };
    let mut first = 0;
    for segments in piece_segments(format, body) {
        let last = (first + width * segments).min(rows) - 1;
        for row in [first, first.midpoint(last), last] {
            assert_eq!(ask(body, rows, row), Ok(Row { set: set[row as usize], first, last }));
        }
        first = last + 1;
    }
    assert_eq!(first, rows);
}

/// What a call writes, into just the room that it says it needs.
fn written(call: impl Fn(&mut [u32]) -> Result<usize, Refusal>) -> Vec<u32> {
    let need = match call(&mut []) {
        Err(Refusal { number: Refusal::NO_ROOM, word, .. }) => word as usize,
        none => none.unwrap(),
    };
    let mut out = vec![0; need];
    assert_eq!(call(&mut out), Ok(need));
    out
}

fn ewah_of(set: &[bool]) -> Vec<u32> {
    let mut builder = IndexBuilder::new(set.len() as u32);
    builder.add_rows(numbers(set)).unwrap();
    bitmap(&builder.build().unwrap(), 0).unwrap().to_vec()
}

/// One body: read, listed, and rewritten from every spelling of it.
fn body_agrees(random: &mut Random, set: &[bool]) {
    let (rows, listed) = (set.len() as u32, numbers(set));
    let (ewah, wah) = (ewah_of(set), canonical(set));
    assert!(wah.len() <= Format::Wah.most_body_words(rows));
    let mut other = Random(random.below(1 << 32) + 1);
    let wasteful = body(set, || random.below(3) > 0, || other.below(2) > 0);
    for body in [&wah, &wasteful] {
        assert_eq!(wah::check_body(body, rows), Ok(()));
        assert_eq!(wah::body_count(body, rows), Ok(listed.len() as u32));
        assert_eq!(written(|out| wah::to_wah(body, rows, out)), wah);
        assert_eq!(written(|out| wah::to_ewah(body, rows, out)), ewah);
        let plain = written(|out| wah::expand(body, rows, out));
        assert_eq!(plain, written(|out| expand(&ewah, rows, out)));
        assert_eq!(written(|out| wah::compress(rows, &plain, out)), wah);

        let all = wah::set_rows(body, rows).unwrap();
        assert_eq!(all.len(), listed.len());
        assert!(all.eq(listed.iter().copied()));
        assert!(wah::spells(body, rows).unwrap().eq(spells(&ewah, rows).unwrap()));
        for (n, row) in listed.iter().enumerate().step_by(1 + listed.len() / 9) {
            assert_eq!(wah::body_nth(body, rows, n as u32), Ok(*row));
        }
        rows_agree(Format::Wah, body, set);
    }
    rows_agree(Format::Ewah, &ewah, set);
    assert_eq!(written(|out| to_wah(&ewah, rows, out)), wah);
    assert_eq!(written(|out| to_ewah(&ewah, rows, out)), ewah);
}

/// Over every remainder of the last segment, in both widths, and runs of many lengths.
#[test]
fn bodies_by_chance() {
    let mut random = Random(20_261_116);
    for rows in (0..200).chain([991, 992, 993, 5_000]) {
        for longest in [1, 3, 70, 400] {
            let set = some_rows(&mut random, rows, longest);
            body_agrees(&mut random, &set);
        }
        body_agrees(&mut random, &vec![true; rows]);
    }
}

/// The same bitmaps in both formats.
fn two_indexes(random: &mut Random, rows: u32) -> (Vec<u32>, Vec<u32>) {
    let (mut ewah, mut wah) = (IndexBuilder::new(rows), IndexBuilder::with_format(rows, Format::Wah));
    for longest in [1, 3, 70, 400] {
        let set = numbers(&some_rows(random, rows as usize, longest));
        assert_eq!(ewah.add_rows(set.iter().copied()), wah.add_rows(set));
    }
    for _ in 0..2 {
        let values: Vec<_> = (0..rows).map(|_| (random.below(4) > 0).then(|| random.below(8) as u32)).collect();
        assert_eq!(ewah.add_column(&values, 3), wah.add_column(&values, 3));
    }
    (ewah.build().unwrap(), wah.build().unwrap())
}

/// The answer of the index in WAH is that of the one in EWAH, rewritten.
fn answer_agrees((ewah, wah): (&[u32], &[u32]), call: impl Fn(&[u32], &mut [u32]) -> Result<usize, Refusal>) {
    let body = written(|out| call(ewah, out));
    assert_eq!(written(|out| call(wah, out)), written(|out| to_wah(&body, ewah[1], out)));
}

/// Two indexes of the same bitmaps are rewritten to each other, and have the same answers.
#[test]
fn indexes_by_chance() {
    let mut random = Random(31);
    for rows in (0..130).chain([991, 992, 993, 3_000]) {
        let (ewah, wah) = two_indexes(&mut random, rows);
        assert_eq!(written(|out| index_to_wah(&ewah, out)), wah);
        assert_eq!(written(|out| index_to_ewah(&wah, out)), ewah);
        assert_eq!(written(|out| index_to_wah(&wah, out)), wah);
        assert!(wah.len() <= Format::Wah.most_new_index_words(rows, wah[2] as usize));

        let both = (&ewah[..], &wah[..]);
        for call in [and, or, xor, and_not] {
            answer_agrees(both, |index, out| call(index, 1, 2, out));
        }
        answer_agrees(both, |index, out| not(index, 3, out));
        answer_agrees(both, |index, out| Ok(threshold(index, &[0, 1, 2, 3, 3], 3, out)?.words));
        answer_agrees(both, |index, out| Ok(symmetric(index, &[0, 1, 2], &[1, 0, 1, 0], out)?.words));
        assert_eq!(histogram(&wah, &[0, 1, 2, 3, 3]), histogram(&ewah, &[0, 1, 2, 3, 3]));

        let (first, second) = ([4, 5, 6, 7], [8, 9, 10, 11]);
        for call in [sum, signed_difference, smaller, difference_or_zero] {
            let made = [&ewah, &wah].map(|index| written(|out| call(index, &first, &second, out)));
            assert_eq!(written(|out| index_to_wah(&made[0], out)), made[1]);
        }
        let existing = count(&ewah, first[0]).unwrap();
        for call in [largest, smallest] {
            for k in [0, existing / 3, existing] {
                answer_agrees(both, |index, out| call(index, &first, k, out));
            }
        }
        for row in (0..rows).step_by(1 + rows as usize / 19) {
            assert_eq!(value(&wah, &first, row), value(&ewah, &first, row));
            assert_eq!(signed_value(&wah, &first, row), signed_value(&ewah, &first, row));
        }
        for k in 0..ewah[2] {
            let (body, other) = (bitmap(&wah, k).unwrap(), bitmap(&ewah, k).unwrap());
            assert_eq!(written(|out| bitmap_to_ewah(&wah, k, out)), other);
            assert_eq!(written(|out| bitmap_to_wah(&ewah, k, out)), body);
            assert!(wah::set_rows(body, rows).unwrap().eq(set_rows(other, rows).unwrap()));
        }
    }
}

/// The longest body of its rows, in which each segment is mixed, and runs of as many segments as there can be.
#[test]
fn long_bodies() {
    let rows = 1_048_576;
    let mut out = vec![0; Format::Wah.most_body_words(rows)];
    assert_eq!(wah::compress(rows, &vec![0x5555_5555; 32_768], &mut out), Ok(33_826));
    assert!(out.len() == 33_826 && out.len() > most_body_words(rows));
    let ewah = written(|back| wah::to_ewah(&out, rows, back));
    assert_eq!(written(|back| to_wah(&ewah, rows, back)), out);

    // all of the rows but the last two, in 34,636,832 segments, one that lacks its last row, and one of one row
    let most = [0xC000_0000 + 34_636_832, 0x3FFF_FFFF, 0x0];
    assert_eq!(wah::body_count(&most, MOST_ROWS), Ok(MOST_ROWS - 2));
    let ewah = written(|out| wah::to_ewah(&most, MOST_ROWS, out));
    assert_eq!(ewah, [&[0x1FFFF; 512][..], &[0x203FF, 0x3FFF_FFFF]].concat());
    assert_eq!(written(|out| to_wah(&ewah, MOST_ROWS, out)), most);
    let mut spells = wah::spells(&most, MOST_ROWS).unwrap();
    assert_eq!((spells.next(), spells.next()), (Some(Spell { first: 0, length: MOST_ROWS - 2 }), None));
}
