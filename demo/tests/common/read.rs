//! What the demo drew, read back into half hours.

// each file of tests uses a part of it
#![allow(dead_code)]

/// Whether each half hour lies in one of the spells that the demo listed. `half_hours` has their dates and times, and
/// the one behind the last.
pub fn spells(out: &str, half_hours: &[(String, String)]) -> Vec<bool> {
    let place = |date: &str, clock: &str| {
        half_hours.iter().position(|(d, c)| d == date && c == clock).unwrap_or_else(|| panic!("no {date} {clock}"))
    };
    let mut set = vec![false; half_hours.len() - 1];
    let mut behind = 0;
    for line in out.lines().filter(|line| line.starts_with("  ") && line.contains(" to ")) {
        let (from, rest) = line.trim().split_once(" to ").expect("a spell");
        let (to, length) = rest.split_once(", ").expect("its length");
        let (date, clock) = from.rsplit_once(' ').expect("date and time");
        let first = place(date, clock);
        let end = to.rsplit_once(' ').map_or_else(|| place(date, to), |(date, clock)| place(date, clock));
        assert!(first < end && (first > behind || behind == 0), "{line}: spells stand apart and in order");
        assert_eq!(half_hours_of(length), end - first, "{line}");
        set[first..end].fill(true);
        behind = end;
    }
    set
}

/// `10 h 30 min`, `4 h`, `30 min`.
fn half_hours_of(length: &str) -> usize {
    let words: Vec<&str> = length.split(' ').collect();
    let hours = |text: &str| text.replace(',', "").parse::<usize>().expect("hours");
    match words.as_slice() {
        ["30", "min"] => 1,
        [h, "h"] => 2 * hours(h),
        [h, "h", "30", "min"] => 2 * hours(h) + 1,
        _ => panic!("{length}"),
    }
}

/// The last sentence: how many half hours, in how many spells.
pub fn sum(out: &str) -> (usize, usize) {
    if out.ends_with("\n\nAt no time.\n") {
        return (0, 0);
    }
    let line = out.lines().last().expect("a line");
    let (length, spells) = line.strip_prefix("In all ").and_then(|rest| rest.split_once(" in ")).expect(line);
    let spells = spells.strip_suffix(" spell.").or(spells.strip_suffix(" spells.")).expect(line);
    (half_hours_of(length), spells.replace(',', "").parse().expect(line))
}

/// The lines below a heading: a number of tanks, the half hours of just so many, and those of so many or more.
pub fn histogram(lines: &str) -> Vec<[usize; 3]> {
    let read = |line: &str| {
        let cells: Vec<&str> = line.split("  ").map(str::trim).filter(|cell| !cell.is_empty()).collect();
        let [tanks, just, or_more] = cells[..] else { panic!("{line}") };
        [tanks.parse().expect("a number of tanks"), half_hours_of(just), half_hours_of(or_more)]
    };
    lines.lines().map(read).collect()
}

/// How many half hours are set, and in how many spells.
pub fn counted(set: &[bool]) -> (usize, usize) {
    let starts = (0..set.len()).filter(|row| set[*row] && (*row == 0 || !set[*row - 1])).count();
    (set.iter().filter(|held| **held).count(), starts)
}
