//! What the demo should draw of a log, by a second program, beside the demo's.

// each file of tests uses a part of it
#![allow(dead_code)]

use crate::days::Day;

/// What was read. `whole` has the half hours and the one behind the last, with their years.
pub fn first_line(tanks: usize, whole: &[(String, String)]) -> String {
    let s = if tanks == 1 { "" } else { "s" };
    let rows = whole.len() - 1;
    let ((first, first_time), (last, last_time)) = (&whole[0], &whole[rows]);
    format!("Read: {tanks} tank{s}, {} from {first} {first_time} to {last} {last_time}.", half_hours(rows))
}

/// `1 half hour`, `336 half hours`, `17,568 half hours`.
pub fn half_hours(rows: usize) -> String {
    let s = if rows == 1 { "" } else { "s" };
    let shown = if rows < 1000 { rows.to_string() } else { format!("{},{:03}", rows / 1000, rows % 1000) };
    format!("{shown} half hour{s}")
}

/// The lines of the days: of each two hours a sign, and of each day what stands beside it. Half hours that are not in
/// the log are none.
pub fn days<T: Copy>(
    from: &str,
    half_hours: &[T],
    with_year: bool,
    heading: &str,
    sign: impl Fn(&[Option<T>]) -> char,
    beside: impl Fn(&[Option<T>]) -> String,
) -> String {
    let (date, time) = from.split_once(' ').expect("date and time");
    let before: usize = time[..2].parse::<usize>().expect("an hour") * 2 + usize::from(time.ends_with("30"));
    let mut padded: Vec<Option<T>> = vec![None; before];
    padded.extend(half_hours.iter().map(|half_hour| Some(*half_hour)));
    padded.resize(padded.len().div_ceil(48) * 48, None);
    let mut day = Day::of(date);
    let mut text = format!("            0  6  12 18 24{heading}\n");
    if with_year {
        text.insert_str(0, "     ");
    }
    for line in padded.chunks(48) {
        let signs: String = line.chunks(4).map(&sign).collect();
        text += &format!("{} |{signs}|{}\n", day.shown(with_year, true), beside(line));
        day = day.next();
    }
    text
}

/// Whether a sign is blank.
pub fn has_blank(days: &str) -> bool {
    days.lines().filter_map(|line| line.split('|').nth(1)).any(|signs| signs.contains(' '))
}
