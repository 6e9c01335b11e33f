//! Words of other makers: what is imported has exactly the rows that the words set, and anything else is not imported.

#[path = "shared/random.rs"]
mod random;

use random::Random;
use zvonurel::{check_body, import, import_java, set_rows, NotImported, MOST_ROWS};

fn some_segment(random: &mut Random) -> u32 {
    match random.below(4) {
        0 => 0,
        1 => u32::MAX,
        2 => 1 << random.below(32),
        _ => random.below(1 << 32) as u32,
    }
}

/// The words read a second time: each segment, and whether a run said it. None where they are not markers and words.
fn said(words: &[u32]) -> Option<Vec<(u32, bool)>> {
    let mut segments = Vec::new();
    let mut words = words.iter();
    while let Some(marker) = words.next() {
        let clean = marker % 131_072 / 2;
        segments.extend((0..clean).map(|_| (if marker % 2 == 1 { u32::MAX } else { 0 }, true)));
        for _ in 0..marker / 131_072 {
            segments.push((*words.next()?, false));
        }
    }
    Some(segments)
}

/// The rows that the words set, by a second reading. None where they can't be had, or not within so many rows.
fn rows_of(words: &[u32], bits: u64, rows: u32) -> Option<Vec<u32>> {
    let segments = said(words)?;
    if segments.len() as u64 != bits.div_ceil(32) {
        return None;
    }
    let mut set = Vec::new();
    for (s, (word, run)) in segments.into_iter().enumerate() {
        for row in (0..32).filter(|b| word & 1 << b != 0).map(|b| 32 * s as u64 + b) {
            match (row < bits, row < u64::from(rows)) {
                (true, true) => set.push(row as u32),
                (false, _) if run => {}
                _ => return None,
            }
        }
    }
    Some(set)
}

fn agrees(words: &[u32], bits: u64, rows: u32) -> bool {
    let (told, want) = (import(words, bits, rows), rows_of(words, bits, rows));
    match (&told, &want) {
        (Ok(body), Some(set)) => {
            assert_eq!(check_body(body, rows), Ok(()), "{words:x?} of {bits} bits, {rows} rows");
            assert!(set_rows(body, rows).unwrap().eq(set.iter().copied()), "{words:x?} of {bits} bits, {rows} rows");
        }
        (Err(_), None) => {}
        _ => panic!("{words:x?} of {bits} bits, {rows} rows: {told:?}, and not {want:?}"),
    }
    told.is_ok()
}

/// Words of one to five markers, some idle, with clean segments as dirty words now and then.
fn some_words(random: &mut Random) -> (Vec<u32>, u64) {
    let mut words = Vec::new();
    let mut segments = 0;
    for _ in 0..random.below(6) {
        let (value, clean, dirty) = (random.below(2), random.below(4), random.below(4));
        words.push((value + 2 * clean + 131_072 * dirty) as u32);
        words.extend((0..dirty).map(|_| some_segment(random)));
        segments += clean + dirty;
    }
    (words, segments)
}

/// Sound words, words that are too long or too short for the bits or the rows, and spoiled words.
#[test]
fn rows_are_exactly_those() {
    let mut random = Random(20_261_116);
    let (mut imported, mut not) = (0, 0);
    for _ in 0..200_000 {
        let (mut words, segments) = some_words(&mut random);
        let most = 32 * segments;
        let bits = match random.below(4) {
            0 => most,
            1 => random.below(most + 40),
            _ => most.saturating_sub(random.below(32)),
        };
        let rows = match random.below(3) {
            0 => bits,
            1 => bits + random.below(100),
            _ => random.below(bits + 1),
        };
        if random.below(4) == 0 && !words.is_empty() {
            let at = random.below(words.len() as u64) as usize;
            words[at] ^= 1 << random.below(32);
        }
        match agrees(&words, bits, rows as u32) {
            true => imported += 1,
            false => not += 1,
        }
    }
    assert!(imported > 20_000 && not > 20_000, "{imported} imported, {not} not");
}

/// Each way not to be imported, with its place.
#[test]
fn reasons() {
    use NotImported::*;
    assert_eq!(import(&[], 0, MOST_ROWS + 1), Err(TooManyRows { rows: MOST_ROWS + 1 }));
    assert_eq!(import(&[0x2, 0x40000, 1], 96, 96), Err(DirtyPastEnd { word: 1 }));
    assert_eq!(import(&[0x2, 0x20002, 1], 64, 64), Err(TooManySegments { word: 1 }));
    assert_eq!(import(&[0x2], 33, 33), Err(SegmentsMissing { said: 1, segments: 2 }));
    assert_eq!(import(&[], 1, 1), Err(SegmentsMissing { said: 0, segments: 1 }));
    assert_eq!(import(&[0x20002, 0x100], 40, 96), Err(BitBehindEnd { word: 1 }));
    assert_eq!(import(&[0x20003, u32::MAX], 40, 96), Err(BitBehindEnd { word: 1 }));
    assert_eq!(import(&[0x40002, 1, 0x100], 72, 96), Err(BitBehindEnd { word: 2 }));
    assert_eq!(import(&[0x7], 96, 40), Err(RowNotWanted { row: 40, rows: 40 }));
    assert_eq!(import(&[0x20004, 0x10], 96, 40), Err(RowNotWanted { row: 68, rows: 40 }));
    let text = import(&[0x7], 96, 40).unwrap_err().to_string();
    assert_eq!(text, "row 40 is set, and 40 rows are wanted");
}

/// A file's head and trailer.
#[test]
fn files() {
    use NotImported::*;
    let file = |numbers: &[u32]| numbers.iter().flat_map(|n| n.to_be_bytes()).collect::<Vec<u8>>();
    assert_eq!(import_java(&file(&[0, 1, 0, 0]), 64), Ok(vec![0x4]));
    assert_eq!(import_java(&file(&[0, 0, 0]), 64), Ok(vec![0x4]));
    assert_eq!(import_java(&file(&[36, 3, 0x20000, 8, 3, 2]), 40), Ok(vec![0x40000, 8, 0xF]));
    assert_eq!(import_java(&file(&[40, 3, 0x40000, 1, 0x80, 0]), 40), Ok(vec![0x40000, 1, 0x80]));
    assert_eq!(import_java(&file(&[36, 3, 0x20000, 8, 3, 0]), 40), Err(LastMarker { stated: 0, found: 2 }));
    assert_eq!(import_java(&file(&[36, 3, 0x20000, 8, 3]), 40), Err(FileLength { bytes: 20, needed: 24 }));
    assert_eq!(import_java(&file(&[36, 3, 0x20000, 8, 3, 2, 0]), 40), Err(FileLength { bytes: 28, needed: 24 }));
    assert_eq!(import_java(&[], 40), Err(FileLength { bytes: 0, needed: 12 }));
    assert_eq!(import_java(&[0; 13], 40), Err(FileLength { bytes: 13, needed: 12 }));
    assert_eq!(import_java(&file(&[u32::MAX, u32::MAX]), 40), Err(FileLength { bytes: 8, needed: 17_179_869_192 }));
}

/// Long ends: zeros past 65,535 segments need several markers, and bits far past the rows are no burden.
#[test]
fn long_ends() {
    assert_eq!(import(&[0x5], 40, MOST_ROWS).unwrap()[..3], [0x20003, 0xFF, 0x1FFFE]);
    assert!(agrees(&[0x5], 40, 16_777_216));
    let zeros = vec![0x1FFFE; 1_000];
    assert_eq!(import(&zeros, 32 * 65_535_000, 64), Ok(vec![0x4]));
    assert_eq!(import(&[0], 0, 64), Ok(vec![0x4]));
    assert_eq!(import(&[], 0, 0), Ok(vec![]));
}
