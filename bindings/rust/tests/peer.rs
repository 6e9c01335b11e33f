//! Files that another library wrote (`tests/peer`, made by `Peer.java` there) give exactly the rows that were meant, or
//! are not imported. And bodies for that library to read.

use std::fs;
use std::path::PathBuf;

use zvonurel::{bitmap, import_java, set_rows, IndexBuilder, NotImported};

/// A line of `rows.txt`: a file's name, the bits that it says, the rows that were meant, and the rows that are set, as
/// ranges; none of these where it must not be imported.
struct Case {
    name: String,
    bits: u32,
    rows: u32,
    set: Option<Vec<u32>>,
}

fn folder() -> PathBuf {
    PathBuf::from(env!("CARGO_MANIFEST_DIR")).join("../../tests/peer")
}

fn cases() -> Vec<Case> {
    let text = fs::read_to_string(folder().join("rows.txt")).unwrap();
    text.lines().filter(|line| !line.starts_with('#')).map(case).collect()
}

fn case(line: &str) -> Case {
    let fields: Vec<&str> = line.split(' ').collect();
    let [name, bits, rows, ranges] = fields[..] else { panic!("{line}") };
    let set = match ranges {
        "refuse" => None,
        "-" => Some(Vec::new()),
        ranges => Some(ranges.split(',').flat_map(range).collect()),
    };
    Case { name: name.to_string(), bits: bits.parse().unwrap(), rows: rows.parse().unwrap(), set }
}

fn range(text: &str) -> std::ops::RangeInclusive<u32> {
    let (first, last) = text.split_once('-').unwrap_or((text, text));
    first.parse().unwrap()..=last.parse().unwrap()
}

fn file(case: &Case) -> Vec<u8> {
    fs::read(folder().join("files").join(format!("{}.ewah", case.name))).unwrap()
}

/// The rows meant, more of them, and fewer: only where none of the set ones would be left out.
#[test]
fn rows_come_back() {
    let cases = cases();
    assert!(cases.len() >= 40);
    for case in &cases {
        let file = file(case);
        assert_eq!(file[..4], case.bits.to_be_bytes(), "{}", case.name);
        let Some(set) = &case.set else {
            assert!(import_java(&file, case.rows).is_err(), "{}", case.name);
            continue;
        };
        let least = set.last().map_or(0, |last| last + 1);
        for rows in [case.rows, case.bits, case.bits + 1, case.bits + 56, case.bits + 3_000_000, least] {
            let body = import_java(&file, rows).unwrap_or_else(|why| panic!("{}, {rows} rows: {why}", case.name));
            assert!(set_rows(&body, rows).unwrap().eq(set.iter().copied()), "{}, {rows} rows", case.name);
        }
        if let Some(rows) = least.checked_sub(1) {
            let why = import_java(&file, rows).unwrap_err();
            assert_eq!(why, NotImported::RowNotWanted { row: rows.into(), rows }, "{}", case.name);
        }
    }
}

/// A spoiled file is not imported, or its rows are those of another sound file: never a panic, never a body that is not
/// sound. Every byte is changed once, and every file is cut at every length.
#[test]
fn spoiled_files() {
    let mut not = 0;
    for case in cases() {
        let file = file(&case);
        for at in 0..file.len().min(400) {
            let mut spoiled = file.clone();
            spoiled[at] ^= 1 << (at % 8);
            match import_java(&spoiled, case.rows) {
                Ok(body) => assert!(set_rows(&body, case.rows).is_ok()),
                Err(_) => not += 1,
            }
            assert!(import_java(&file[..at], case.rows).is_err(), "{} cut at {at}", case.name);
        }
    }
    assert!(not > 1_000, "{not} not imported");
}

/// Writes canonical bodies of many sizes to `target/peer`, for `Peer read` there: rows, words and the words, each four
/// bytes, the highest first, and beside them the set rows.
#[test]
#[ignore = "writes files for the other library to read"]
fn write_bodies() {
    let out = PathBuf::from(env!("CARGO_MANIFEST_DIR")).join("../../target/peer");
    fs::create_dir_all(&out).unwrap();
    let mut random = 20_261_116_u64;
    let mut below = |n: u64| {
        random = random.wrapping_mul(6_364_136_223_846_793_005).wrapping_add(1_442_695_040_888_963_407);
        (random >> 33) % n
    };
    for i in 0..1_000 {
        let rows = [40, 300, 5_000, 200_000, 4_000_000][i % 5] + below(64);
        let longest = [1, 10, 100, 10_000, 3_000_000][below(5) as usize];
        let mut set = Vec::new();
        let mut ranges = Vec::new();
        let mut row = below(longest + 1);
        while row < rows {
            let end = (row + 1 + below(longest)).min(rows);
            set.extend(row as u32..end as u32);
            ranges.push(format!("{row}-{}", end - 1));
            row = end + 1 + below(longest + 60);
        }
        let text = if ranges.is_empty() { "-".to_string() } else { ranges.join(",") };
        let mut builder = IndexBuilder::new(rows as u32);
        builder.add_rows(set).unwrap();
        let index = builder.build().unwrap();
        let body = bitmap(&index, 0).unwrap();
        let head = [rows as u32, body.len() as u32];
        let bytes: Vec<u8> = head.iter().chain(body).flat_map(|word| word.to_be_bytes()).collect();
        fs::write(out.join(format!("{i:03}.body")), bytes).unwrap();
        fs::write(out.join(format!("{i:03}.rows")), text + "\n").unwrap();
    }
}
