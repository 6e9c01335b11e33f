//! What stands beside the calls: listings, sizes and the builder, against a bool for each row.

use zvonurel::*;

/// Bits by a small generator, the same in each run.
struct Bits(u64);

impl Bits {
    fn next(&mut self) -> u64 {
        self.0 ^= self.0 << 13;
        self.0 ^= self.0 >> 7;
        self.0 ^= self.0 << 17;
        self.0
    }

    /// So many rows in runs, with lengths about `longest`.
    fn rows(&mut self, rows: usize, longest: u64) -> Vec<bool> {
        let mut set = Vec::new();
        while set.len() < rows {
            let value = self.next() % 2 == 1;
            let length = 1 + self.next() % longest;
            set.extend((0..length).map(|_| value));
        }
        set.truncate(rows);
        set
    }
}

fn numbers(set: &[bool]) -> Vec<u32> {
    (0..set.len() as u32).filter(|r| set[*r as usize]).collect()
}

/// The longest runs of set rows, by looking at each row and the one before it.
fn runs(set: &[bool]) -> Vec<(u32, u32)> {
    let mut found: Vec<(u32, u32)> = Vec::new();
    for (row, _) in set.iter().enumerate().filter(|(_, s)| **s) {
        match found.last_mut() {
            Some((first, length)) if (*first + *length) as usize == row => *length += 1,
            _ => found.push((row as u32, 1)),
        }
    }
    found
}

/// Rows in, rows and spells out, over every remainder of the last segment and runs of many lengths.
#[test]
fn listings() {
    let mut bits = Bits(2026);
    for rows in (0..200).chain([1_023, 1_024, 5_000]) {
        for longest in [1, 3, 70, 4_000] {
            let set = bits.rows(rows, longest);
            let mut builder = IndexBuilder::new(rows as u32);
            assert_eq!(builder.add_rows(numbers(&set).into_iter().rev()), Ok(0));
            let index = builder.build().unwrap();
            let body = bitmap(&index, 0).unwrap();
            let listed = set_rows(body, rows as u32).unwrap();
            assert_eq!(listed.len(), numbers(&set).len());
            assert_eq!(listed.collect::<Vec<_>>(), numbers(&set));
            let told: Vec<_> = spells(body, rows as u32).unwrap().map(|s| (s.first, s.length)).collect();
            assert_eq!(told, runs(&set));
        }
    }
}

/// A listing and the nth set row agree, and a listing that is over stays so.
#[test]
fn listing_and_nth() {
    let body = [0x0006_0000, 0x20, 0, 1];
    let mut listed = set_rows(&body, 96).unwrap();
    assert_eq!((listed.size_hint(), listed.clone().count()), ((2, Some(2)), 2));
    assert_eq!(listed.next(), body_nth(&body, 96, 0).ok());
    assert_eq!(listed.next(), body_nth(&body, 96, 1).ok());
    assert_eq!((listed.len(), listed.next(), listed.next()), (0, None, None));
    // all rows, where the last segment has pad bits too
    for rows in [64, 40] {
        let mut all = spells(&[0x5], rows).unwrap();
        assert_eq!(all.next(), Some(Spell { first: 0, length: rows }));
        assert_eq!((all.next(), all.next()), (None, None));
        assert!(set_rows(&[0x5], rows).unwrap().eq(0..rows));
    }
}

/// In WAH the same rows and spells are listed, also over the ends of its segments.
#[test]
fn wah_listings() {
    let body = [0x20, 0, 0x4, 0];
    let mut listed = wah::set_rows(&body, 96).unwrap();
    assert_eq!((listed.size_hint(), listed.clone().count()), ((2, Some(2)), 2));
    assert_eq!((listed.next(), listed.next()), (Some(5), Some(64)));
    assert_eq!((listed.len(), listed.next(), listed.next()), (0, None, None));
    let mut told = wah::spells(&[0x4000_0000, 0xC000_0001, 0x3], 93).unwrap();
    assert_eq!(told.next(), Some(Spell { first: 30, length: 34 }));
    assert_eq!((told.next(), told.next()), (None, None));
    for rows in [62, 40, 32] {
        let mut all = wah::spells(&[0xC000_0002], rows).unwrap();
        assert_eq!((all.next(), all.next()), (Some(Spell { first: 0, length: rows }), None));
        assert!(wah::set_rows(&[0xC000_0002], rows).unwrap().eq(0..rows));
    }
}

/// A wrong body, or too many rows, are refused as by the calls.
#[test]
fn listings_refuse() {
    assert_eq!(set_rows(&[0x20003, 0x100], 40).unwrap_err().numbers(), (Refusal::PAD_BIT, 0, 1));
    assert_eq!(spells(&[0x2], 40).unwrap_err().numbers(), (Refusal::BAD_COUNT, 0, 1));
    assert_eq!(set_rows(&[], u32::MAX).unwrap_err().numbers(), (Refusal::TOO_LARGE, 0, 1));
    assert_eq!(wah::set_rows(&[0x1, 0x8000_0000], 40).unwrap_err().numbers(), (Refusal::NO_SEGMENTS, 0, 1));
    assert_eq!(wah::spells(&[0x1], 40).unwrap_err().numbers(), (Refusal::BAD_COUNT, 0, 1));
    assert_eq!(wah::set_rows(&[], u32::MAX).unwrap_err().numbers(), (Refusal::TOO_LARGE, 0, 1));
}

#[test]
fn sizes() {
    let sizes = |rows| (segments(rows), most_body_words(rows));
    assert_eq!(sizes(0), (0, 1));
    assert_eq!(sizes(1), (1, 2));
    assert_eq!(sizes(32), (1, 2));
    assert_eq!(sizes(33), (2, 3));
    assert_eq!(sizes(1_048_544), (32_767, 32_769));
    assert_eq!(sizes(1_048_576), (32_768, 32_770));
    assert_eq!(sizes(16_777_216), (524_288, 524_305));
    assert_eq!(sizes(MOST_ROWS), (33_554_432, 33_555_457));
    assert_eq!(sizes(u32::MAX), (134_217_728, 134_221_825));
    let sums = |rows| (most_sum_words(rows, LEAST_COLUMN - 1), most_sum_words(rows, MOST_COLUMN - 1));
    assert_eq!(sums(0), (12, 105));
    assert_eq!(sums(1), (15, 139));
    assert_eq!(sums(33), (18, 173));
    assert_eq!(sums(1_048_576), (98_319, 1_114_251));
    assert_eq!(sums(16_777_216), (1_572_924, 17_826_441));
    // the most rows of which any sum keeps within an index, and no size above that
    assert_eq!(sums(63_159_264), (5_921_373, MOST_INDEX_WORDS - 1));
    assert_eq!(sums(63_159_265), (5_921_376, MOST_INDEX_WORDS));
    for rows in [MOST_ROWS, u32::MAX] {
        assert_eq!(sums(rows), (MOST_INDEX_WORDS, MOST_INDEX_WORDS));
        assert_eq!(most_sum_words(rows, usize::MAX), MOST_INDEX_WORDS);
    }
    // a body that needs them all: rows 0, 32, 64 and so on
    let mut body = vec![0; most_body_words(1_048_576)];
    assert_eq!(compress(1_048_576, &vec![1; 32_768], &mut body), Ok(32_770));
}

/// Those of EWAH are the ones without a format.
#[test]
fn sizes_by_format() {
    for rows in [0, 1, 31, 32, 33, 62, 63, 1_048_544, 1_048_576, MOST_ROWS, u32::MAX] {
        assert_eq!(Format::Ewah.segments(rows), segments(rows));
        assert_eq!(Format::Ewah.most_body_words(rows), most_body_words(rows));
        assert_eq!(Format::Ewah.most_sum_words(rows, 7), most_sum_words(rows, 7));
        assert_eq!(Format::Ewah.most_new_index_words(rows, 9), most_sum_words(rows, 7));
        assert_eq!(Format::Wah.segments(rows), Format::Wah.most_body_words(rows));
        assert_eq!(Format::Wah.most_new_index_words(rows, 34), Format::Wah.most_sum_words(rows, MOST_COLUMN - 1));
    }
    let sizes = |rows| {
        let sums = [LEAST_COLUMN, MOST_COLUMN].map(|numbers| Format::Wah.most_sum_words(rows, numbers - 1));
        (Format::Wah.most_body_words(rows), sums)
    };
    assert_eq!(sizes(0), (0, [9, 71]));
    assert_eq!(sizes(1), (1, [12, 105]));
    assert_eq!(sizes(31), (1, [12, 105]));
    assert_eq!(sizes(32), (2, [15, 139]));
    assert_eq!(sizes(62), (2, [15, 139]));
    assert_eq!(sizes(63), (3, [18, 173]));
    assert_eq!(sizes(1_048_544), (33_824, [101_481, 1_150_087]));
    assert_eq!(sizes(1_048_576), (33_826, [101_487, 1_150_155]));
    assert_eq!(sizes(16_777_216), (541_201, [1_623_612, 18_400_905]));
    assert_eq!(sizes(61_187_428), (1_973_788, [5_921_373, MOST_INDEX_WORDS - 1]));
    assert_eq!(sizes(61_187_429), (1_973_789, [5_921_376, MOST_INDEX_WORDS]));
    assert_eq!(sizes(MOST_ROWS), (34_636_834, [MOST_INDEX_WORDS; 2]));
    assert_eq!(sizes(u32::MAX), (138_547_333, [MOST_INDEX_WORDS; 2]));
    let words = [Format::Ewah, Format::Wah].map(|format| (format.index_kind(), format.segment_rows()));
    assert_eq!(words, [(1, 32), (2, 31)]);
}

/// What the C header defines a name as.
fn defined(name: &str) -> &'static str {
    let header = include_str!("../../../include/zvonurel.h");
    let line = header.lines().find_map(|line| line.strip_prefix(&format!("#define ZV_{name} ")));
    line.unwrap_or_else(|| panic!("ZV_{name} is not there"))
}

fn same_in_header(numbers: &[(&str, usize)]) {
    for (name, value) in numbers {
        assert_eq!(defined(name), format!("{value}u"), "ZV_{name}");
    }
}

/// The C header has the same version and the same limits.
#[test]
fn header() {
    assert_eq!(defined("VERSION"), format!("{:?}", env!("CARGO_PKG_VERSION")));
    let version = ["MAJOR", "MINOR", "PATCH"].map(|part| defined(&format!("VERSION_{part}")));
    assert_eq!(version.join("."), env!("CARGO_PKG_VERSION"));
    same_in_header(&[
        ("MOST_ROWS", MOST_ROWS as usize),
        ("MOST_BITMAPS", MOST_BITMAPS as usize),
        ("MOST_INDEX_WORDS", MOST_INDEX_WORDS),
        ("MOST_NAMED", MOST_NAMED),
        ("LEAST_COLUMN", LEAST_COLUMN),
        ("MOST_COLUMN", MOST_COLUMN),
        ("MOST_VALUE_COLUMN", MOST_VALUE_COLUMN),
        ("INDEX_KIND", INDEX_KIND as usize),
        ("WAH_INDEX_KIND", WAH_INDEX_KIND as usize),
        ("HEAD_WORDS", HEAD_WORDS),
        ("ENTRY_WORDS", ENTRY_WORDS),
        ("MOST_CLEAN", MOST_CLEAN),
        ("MOST_DIRTY", MOST_DIRTY),
        ("CLEAN_SHIFT", CLEAN_SHIFT as usize),
        ("DIRTY_SHIFT", DIRTY_SHIFT as usize),
        ("WORD_BITS", WORD_BITS),
        ("WAH_SEGMENT_ROWS", WAH_SEGMENT_ROWS),
        ("WAH_FILL_SHIFT", WAH_FILL_SHIFT as usize),
        ("WAH_VALUE_SHIFT", WAH_VALUE_SHIFT as usize),
        ("WAH_MOST_FILL", WAH_MOST_FILL),
    ]);
}

/// And the same numbers of refusal.
#[test]
fn header_refusals() {
    same_in_header(&[
        ("TOO_SHORT", Refusal::TOO_SHORT as usize),
        ("NOT_AN_INDEX", Refusal::NOT_AN_INDEX as usize),
        ("TOO_LARGE", Refusal::TOO_LARGE as usize),
        ("BAD_CONTENTS", Refusal::BAD_CONTENTS as usize),
        ("DIRTY_PAST_END", Refusal::DIRTY_PAST_END as usize),
        ("BAD_COUNT", Refusal::BAD_COUNT as usize),
        ("PAD_BIT", Refusal::PAD_BIT as usize),
        ("BAD_ARGUMENT", Refusal::BAD_ARGUMENT as usize),
        ("NO_ROOM", Refusal::NO_ROOM as usize),
        ("NO_SEGMENTS", Refusal::NO_SEGMENTS as usize),
        ("STRAY_ROW", Refusal::STRAY_ROW as usize),
        ("STATE_MISMATCH", Refusal::STATE_MISMATCH as usize),
    ]);
}

#[test]
fn builder() {
    let mut builder = IndexBuilder::new(40);
    assert_eq!(builder.add_body(&[0x40000, 0x1, 0x80]), Ok(0));
    assert_eq!(builder.add_plain(&[!0, 0xFF]), Ok(1));
    assert_eq!(builder.add_rows([39, 0, 39]), Ok(2));
    // what is refused adds nothing
    assert_eq!(builder.add_body(&[0x20003, 0x180]).unwrap_err().numbers(), (Refusal::PAD_BIT, 0, 1));
    assert_eq!(builder.add_plain(&[0, 0x100]).unwrap_err().numbers(), (Refusal::PAD_BIT, 0, 1));
    assert_eq!(builder.add_plain(&[0]).unwrap_err().numbers(), (Refusal::BAD_ARGUMENT, 0, 0));
    let refusal = builder.add_rows([0, 40]).unwrap_err();
    assert_eq!(refusal.argument, Some(BadArgument::Row { row: 40, rows: 40 }));
    assert_eq!(refusal.numbers(), (Refusal::BAD_ARGUMENT, 0, 0));
    let index = builder.build().unwrap();
    let want = [1, 40, 3, 9, 3, 12, 1, 13, 3, 0x40000, 0x1, 0x80, 0x5, 0x40000, 0x1, 0x80];
    assert_eq!(index, want);
}

#[test]
fn wah_builder() {
    let mut builder = IndexBuilder::with_format(40, Format::Wah);
    assert_eq!(builder.add_body(&[0x8000_0001, 0x0]), Ok(0)); // wasteful, and kept so
    assert_eq!(builder.add_plain(&[!0, 0xFF]), Ok(1));
    assert_eq!(builder.add_rows([39, 0, 39]), Ok(2));
    // what is refused adds nothing
    assert_eq!(builder.add_body(&[0x8000_0000]).unwrap_err().numbers(), (Refusal::NO_SEGMENTS, 0, 0));
    assert_eq!(builder.add_body(&[0x1, 0x200]).unwrap_err().numbers(), (Refusal::PAD_BIT, 0, 1));
    assert_eq!(builder.add_body(&[0x40000, 0x1, 0x80]).unwrap_err().numbers(), (Refusal::BAD_COUNT, 0, 2));
    assert_eq!(builder.add_plain(&[0, 0x100]).unwrap_err().numbers(), (Refusal::PAD_BIT, 0, 1));
    assert_eq!(builder.add_plain(&[0]).unwrap_err().numbers(), (Refusal::BAD_ARGUMENT, 0, 0));
    let refusal = builder.add_rows([0, 40]).unwrap_err();
    assert_eq!(refusal.argument, Some(BadArgument::Row { row: 40, rows: 40 }));
    let index = builder.build().unwrap();
    assert_eq!(index, [2, 40, 3, 9, 2, 11, 1, 12, 2, 0x8000_0001, 0x0, 0xC000_0002, 0x1, 0x100]);
    assert_eq!(wah::index_of(40, &[&index[9..11], &index[11..12], &index[12..]]), index);

    let mut columns = IndexBuilder::with_format(3, Format::Wah);
    assert_eq!(columns.add_column(&[Some(3), None, Some(2)], 2), Ok(vec![0, 1, 2]));
    assert_eq!(columns.build(), Ok(vec![2, 3, 3, 9, 1, 10, 1, 11, 1, 0b101, 0b001, 0b101]));
    assert_eq!(IndexBuilder::with_format(7, Format::Wah).build(), Ok(vec![2, 7, 0]));
    let mut long = IndexBuilder::with_format(MOST_ROWS + 1, Format::Wah);
    assert_eq!(long.add_rows([]).unwrap_err().numbers(), (Refusal::TOO_LARGE, 0, 1));
}

#[test]
fn builder_limits() {
    assert_eq!(IndexBuilder::new(7).build(), Ok(vec![1, 7, 0]));
    let mut long = IndexBuilder::new(MOST_ROWS + 1);
    assert_eq!(long.add_rows([]).unwrap_err().numbers(), (Refusal::TOO_LARGE, 0, 1));
    assert_eq!(long.add_plain(&[]).unwrap_err().numbers(), (Refusal::TOO_LARGE, 0, 1));
    assert_eq!(long.add_body(&[]).unwrap_err().numbers(), (Refusal::TOO_LARGE, 0, 1));
    assert_eq!(long.build().unwrap_err().numbers(), (Refusal::TOO_LARGE, 0, 1));
    let mut full = IndexBuilder::new(0);
    for k in 0..MOST_BITMAPS {
        assert_eq!(full.add_body(&[]), Ok(k));
    }
    // one more is refused, and nothing is lost
    let before = full.build().unwrap();
    assert_eq!(full.add_body(&[]).unwrap_err().numbers(), (Refusal::TOO_LARGE, 0, 2));
    assert_eq!(full.add_plain(&[]).unwrap_err().numbers(), (Refusal::TOO_LARGE, 0, 2));
    assert_eq!(full.add_rows([]).unwrap_err().numbers(), (Refusal::TOO_LARGE, 0, 2));
    assert_eq!((before[2], full.build()), (MOST_BITMAPS, Ok(before.clone())));
    // bodies may be wasteful, so that two of them pass the words of an index
    let idle = vec![0; MOST_INDEX_WORDS / 2];
    let mut long = IndexBuilder::new(0);
    assert_eq!((long.add_body(&idle), long.add_body(&idle)), (Ok(0), Ok(1)));
    assert_eq!(long.build().unwrap_err().numbers(), (Refusal::TOO_LARGE, 0, 0));
}

/// A column's bitmaps are behind those that were there: the rows that exist, and for each digit those that have it.
#[test]
fn builder_columns() {
    let mut bits = Bits(1_116);
    for rows in (0..70).chain([1_023, 1_024]) {
        for slices in [1, 2, 7, 31, 32] {
            let most = u32::MAX >> (32 - slices);
            let values: Vec<_> = (0..rows).map(|_| (bits.next() % 4 != 0).then(|| bits.next() as u32 & most)).collect();
            let mut builder = IndexBuilder::new(rows);
            assert_eq!(builder.add_rows([]), Ok(0));
            let column = builder.add_column(&values, slices).unwrap();
            assert!(column.iter().copied().eq(1..slices as u32 + 2));
            let index = builder.build().unwrap();
            let listed = |k: usize| set_rows(bitmap(&index, column[k]).unwrap(), rows).unwrap();
            assert!(listed(0).eq((0..rows).filter(|r| values[*r as usize].is_some())));
            for i in 0..slices {
                let set = |r: &u32| values[*r as usize].is_some_and(|value| value / (1 << i) % 2 == 1);
                assert!(listed(1 + i).eq((0..rows).filter(set)));
            }
        }
    }
}

#[test]
fn builder_refuses_columns() {
    let mut builder = IndexBuilder::new(3);
    let values = [Some(3), None, Some(4)];
    let refused = |values: &[Option<u32>], slices| {
        let refusal = builder.clone().add_column(values, slices).unwrap_err();
        assert_eq!(refusal.numbers(), (Refusal::BAD_ARGUMENT, 0, 0));
        (refusal.argument.unwrap(), refusal.argument.unwrap().to_string())
    };
    let few = "there are 2 values, and 3 rows need as many".to_string();
    assert_eq!(refused(&values[..2], 3), (BadArgument::Values { values: 2, rows: 3 }, few));
    let none = "a column of 0 slices was asked for, and it can have 1 to 32".to_string();
    assert_eq!(refused(&values, 0), (BadArgument::Slices { slices: 0 }, none));
    assert_eq!(refused(&values, 33).0, BadArgument::Slices { slices: 33 });
    let wide = "the value of row 2 is 4, and the slices hold at most 3".to_string();
    assert_eq!(refused(&values, 2), (BadArgument::WideValue { row: 2, value: 4, most: 3 }, wide));
    let widest = [Some(u32::MAX), None, Some(4)];
    assert_eq!(refused(&widest, 31).0, BadArgument::WideValue { row: 0, value: u32::MAX, most: u32::MAX / 2 });

    // what is refused adds nothing, not even the bitmaps that there is room for
    assert!(builder.add_column(&values, 2).is_err());
    assert_eq!(builder.build(), Ok(vec![1, 3, 0]));
    // seven of the widest, and one of 24 slices, are as many bitmaps as an index has
    for k in 1..=7 {
        assert_eq!(builder.add_column(&widest, 32).unwrap().last(), Some(&(33 * k - 1)));
    }
    let before = builder.build();
    for slices in [25, usize::MAX] {
        assert_eq!(builder.add_column(&widest, slices).unwrap_err().numbers(), (Refusal::TOO_LARGE, 0, 2));
        assert_eq!(builder.build(), before);
    }
    assert_eq!(builder.add_column(&values, 24).unwrap().last(), Some(&(MOST_BITMAPS - 1)));
    let mut long = IndexBuilder::new(MOST_ROWS + 1);
    assert_eq!(long.add_column(&[], 1).unwrap_err().numbers(), (Refusal::TOO_LARGE, 0, 1));
}
