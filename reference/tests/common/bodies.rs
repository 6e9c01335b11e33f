//! Bodies of given rows, written out here a second time for a few segments.

use super::{words_of, Format, Wah};
use reference::limits::{CLEAN_SHIFT, DIRTY_SHIFT};

pub fn marker(value: bool, clean: usize, dirty: usize) -> u32 {
    u32::from(value) | (clean as u32) << CLEAN_SHIFT | (dirty as u32) << DIRTY_SHIFT
}

pub fn fill(value: bool, segments: usize) -> u32 {
    (if value { 0xC000_0000 } else { 0x8000_0000 }) + segments as u32
}

/// The value of a clean segment: all its rows have it.
pub fn clean(rows: &[bool]) -> Option<bool> {
    rows.iter().all(|&set| set == rows[0]).then_some(rows[0])
}

/// The settled body of these rows.
pub fn settled(rows: &[bool], format: Format) -> Vec<u32> {
    let words = words_of(rows, format.width());
    let kinds: Vec<Option<bool>> = rows.chunks(format.width()).map(clean).collect();
    let (mut body, mut at) = (Vec::new(), 0);
    while at < kinds.len() {
        let kind = kinds[at];
        let run = kind.map_or(0, |_| kinds[at..].iter().take_while(|&&other| other == kind).count());
        if format == Wah {
            body.push(if run > 1 { fill(kind == Some(true), run) } else { words[at] });
            at += run.max(1);
            continue;
        }
        // A marker at the front and wherever a run begins.
        let dirty = kinds[at + run..].iter().take_while(|kind| kind.is_none()).count();
        body.push(marker(kind == Some(true), run, dirty));
        body.extend(&words[at + run..at + run + dirty]);
        at += run + dirty;
    }
    body
}

/// Each segment by itself: a run if it is clean and `runs` says so, else a dirty word or a literal.
pub fn spelt(rows: &[bool], format: Format, runs: impl Fn(usize) -> bool) -> Vec<u32> {
    let segment = |(at, rows): (usize, &[bool])| match clean(rows) {
        Some(value) if runs(at) && format == Wah => vec![fill(value, 1)],
        Some(value) if runs(at) => vec![marker(value, 1, 0)],
        _ if format == Wah => words_of(rows, format.width()),
        _ => [vec![marker(false, 0, 1)], words_of(rows, format.width())].concat(),
    };
    rows.chunks(format.width()).enumerate().flat_map(segment).collect()
}

/// Rows whose last segment, and those before it, have none, all, or all but one of them.
pub fn rows_to_try(count: usize, format: Format) -> Vec<Vec<bool>> {
    let width = format.width();
    let last = (count - 1) / width * width;
    let mut all = Vec::new();
    for front in 0..3 {
        for tail in 0..3 {
            let kind = |row: usize| if row < last { front } else { tail };
            let set = |row: usize| kind(row) == 1 || kind(row) == 2 && !row.is_multiple_of(width);
            all.push((0..count).map(set).collect());
        }
    }
    all.dedup();
    all
}

/// Every way of spelling these rows that is tried; in EWAH one with idle markers too.
pub fn bodies(rows: &[bool], format: Format) -> Vec<Vec<u32>> {
    let last = (rows.len() - 1) / format.width();
    let mut all = vec![
        settled(rows, format),
        spelt(rows, format, |_| true),
        spelt(rows, format, |_| false),
        spelt(rows, format, |at| at < last),
        spelt(rows, format, |at| at == last),
    ];
    if format != Wah {
        all.push([&[1, 0], &spelt(rows, format, |_| true)[..], &[0, 1]].concat());
    }
    all
}
