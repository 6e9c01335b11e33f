//! Sound logs of readings: what is listed, drawn, summed and counted is what going through them one by one gives.

mod common;
#[path = "common/days.rs"]
mod days;
#[path = "common/drawn.rs"]
mod drawn;
#[path = "common/numbers.rs"]
mod numbers;
#[path = "common/read.rs"]
mod read;

use std::ffi::OsStr;
use std::fs;
use std::path::Path;

use common::{ammonia, readings_text, repository, Folder, Reading};
use numbers::{Numbers, BEGINNINGS};

/// A question: a half hour and two tanks of a log, whose lines have so many readings.
struct Case<'a> {
    from: &'a str,
    tanks: &'a [Vec<Reading>],
    line: usize,
    row: usize,
    pair: [usize; 2],
}

/// `0.21`, `1,310.70` or `none`.
fn shown(reading: Reading) -> String {
    reading.map_or("none".to_string(), |n| match format!("{}.{:02}", n / 100, n % 100) {
        text if text.len() > "999.99".len() => format!("{},{}", &text[..text.len() - 6], &text[text.len() - 6..]),
        text => text,
    })
}

fn asked(log: &Path, words: &[&str]) -> String {
    ammonia(&[&[log.as_os_str()], &words.iter().map(OsStr::new).collect::<Vec<_>>()[..]].concat()).answered()
}

impl Case<'_> {
    fn rows(&self) -> usize {
        self.tanks[0].len()
    }

    fn sums(&self) -> Vec<Reading> {
        let [first, second] = self.pair.map(|tank| &self.tanks[tank]);
        (0..self.rows()).map(|row| first[row].and_then(|n| second[row].map(|m| n + m))).collect()
    }

    fn names(&self) -> [String; 2] {
        self.pair.map(|tank| format!("tank {}", tank + 1))
    }

    /// Runs the demo and holds all that it says to the adding.
    fn verify(&self) {
        let folder = Folder::new();
        let log = folder.write("log", readings_text(self.from, self.tanks, self.line));
        let (date, time) = days::asked(self.from, self.rows()).swap_remove(self.row);
        let [first, second] = self.names();
        let out = asked(&log, &[&date, &time, &first, &second]);
        let whole = days::half_hours(self.from, self.rows(), true);
        let with_year = !whole[self.rows()].0.ends_with(&self.from[..4]);
        let head = self.head(&whole) + &self.picture(with_year) + "Both had a reading:\n\n";
        assert!(out.starts_with(&head), "{out}\n{head}");
        let held: Vec<bool> = self.sums().iter().map(|sum| sum.is_some()).collect();
        let plain = match read::counted(&held).0 {
            0 => "Plain addition of the log's readings gives no sum either.\n".to_string(),
            1 => "Plain addition of the log's readings gives the same 1 sum.\n".to_string(),
            n if n < 1000 => format!("Plain addition of the log's readings gives the same {n} sums.\n"),
            n => format!("Plain addition of the log's readings gives the same {},{:03} sums.\n", n / 1000, n % 1000),
        };
        let (out, histogram) = out.split_once("\nHow many of the ").unwrap_or_else(|| panic!("{out}"));
        self.verify_histogram(histogram);
        let out = out.strip_suffix(&plain).unwrap_or_else(|| panic!("{out}\n{plain}"));
        assert_eq!(read::spells(out, &days::half_hours(self.from, self.rows(), with_year)), held, "{out}");
        assert_eq!(read::sum(out), read::counted(&held), "{out}");
    }

    /// The numbers of tanks that had a reading at once, the most first, as far as there is a half hour of so many.
    fn verify_histogram(&self, text: &str) {
        let (tanks, half_hours) = (self.tanks.len(), drawn::half_hours(self.rows()));
        let heading = format!("{tanks} tanks had a reading at once, and how long:\n\n");
        let closing = format!("\nPlain counting of the log's readings gives the same {half_hours}.\n");
        let lines = text.strip_prefix(&heading).and_then(|rest| rest.strip_suffix(&closing));
        let (columns, lines) = lines.and_then(|lines| lines.split_once('\n')).unwrap_or_else(|| panic!("{text}"));
        assert_eq!(columns.split_whitespace().collect::<Vec<_>>().join(" "), "just so many so many or more");
        let at_once = |row: usize| self.tanks.iter().filter(|readings| readings[row].is_some()).count();
        let at_once: Vec<usize> = (0..self.rows()).map(at_once).collect();
        let rows = |wanted: &dyn Fn(usize) -> bool| at_once.iter().filter(|there| wanted(**there)).count();
        let counted = (0..=tanks).rev().map(|n| [n, rows(&|there| there == n), rows(&|there| there >= n)]);
        assert_eq!(read::histogram(lines), counted.filter(|[_, just, _]| *just > 0).collect::<Vec<_>>(), "{text}");
    }

    /// What was read and added, and the readings at the time.
    fn head(&self, whole: &[(String, String)]) -> String {
        let [first, second] = self.names();
        let tanks = self.tanks.iter().zip(1..).map(|(readings, n)| (format!("tank {n}"), shown(readings[self.row])));
        let mut lines: Vec<(String, String)> = tanks.collect();
        lines.push((format!("{first} + {second}"), shown(self.sums()[self.row])));
        let left = lines.iter().map(|(name, _)| name.len()).max().expect("a line");
        let right = lines.iter().map(|(_, value)| value.len()).max().expect("a line");
        let lines: String = lines.iter().map(|(name, value)| format!("  {name:left$}  {value:>right$}\n")).collect();
        let (read, (date, clock)) = (drawn::first_line(self.tanks.len(), whole), &whole[self.row]);
        format!(
            "{read}\nAdded: {first} and {second}, whose sum is the load of a biofilter that they share; in \
             milligrams.\n\n{date} {clock}:\n\n{lines}\n"
        )
    }

    /// The lines of the days, sign by sign, unless there is no sum.
    fn picture(&self, with_year: bool) -> String {
        let sums = self.sums();
        let Some(top) = sums.iter().flatten().max().copied() else { return String::new() };
        let clocks = days::half_hours(self.from, self.rows(), false);
        let highest = |part: &[Option<usize>]| part.iter().flatten().filter_map(|row| sums[*row]).max();
        let sign = |two_hours: &[Option<usize>]| match highest(two_hours) {
            None => ' ',
            Some(sum) if sum > top / 2 => '#',
            Some(sum) if sum > top / 4 => '+',
            Some(_) => '.',
        };
        let beside = |day: &[Option<usize>]| {
            let (sum, width) = (highest(day), shown(Some(top)).len());
            let first = day.iter().flatten().find(|row| sum.is_some() && sums[**row] == sum);
            let at = first.map_or(String::new(), |row| format!(" at {}", clocks[*row].1));
            format!("   {:>width$}{at}", shown(sum))
        };
        let rows: Vec<usize> = (0..self.rows()).collect();
        let text = drawn::days(self.from, &rows, with_year, "  highest sum", sign, beside);
        let (top, blank) = (shown(Some(top)), if drawn::has_blank(&text) { ", blank no sum" } else { "" });
        format!("Two hours at their highest: # over half of {top}, + over a quarter, . less{blank}\n\n{text}\n")
    }
}

/// Readings that drift, leap, and are missing for a while.
fn readings(numbers: &mut Numbers, rows: usize) -> Vec<Reading> {
    let (mut level, mut missing) = (numbers.below(400), 0);
    let mut readings = Vec::new();
    for _ in 0..rows {
        match numbers.below(40) {
            0 => level = numbers.below(65_536),
            1 => level = numbers.below(100),
            2 => missing = numbers.below(12),
            _ => level = (level + numbers.below(9)).saturating_sub(4).min(65_535),
        }
        readings.push((missing == 0).then_some(level as u32));
        missing = missing.saturating_sub(1);
    }
    readings
}

fn tanks_of(numbers: &mut Numbers, tanks: usize, rows: usize) -> Vec<Vec<Reading>> {
    (0..tanks).map(|_| readings(numbers, rows)).collect()
}

#[test]
fn random_logs() {
    let mut numbers = Numbers(20);
    for i in 0..120 {
        let (tanks, rows) = (2 + numbers.below(14), 1 + numbers.below(400));
        let tanks = &tanks_of(&mut numbers, tanks, rows)[..];
        let (line, row, first) = (1 + numbers.below(60), numbers.below(rows), numbers.below(tanks.len()));
        let pair = [first, (first + 1 + numbers.below(tanks.len() - 1)) % tanks.len()];
        Case { from: BEGINNINGS[i % BEGINNINGS.len()], tanks, line, row, pair }.verify();
    }
}

#[test]
fn every_length_around_the_segments_of_32() {
    let mut numbers = Numbers(21);
    for rows in 1..=98 {
        let tanks = &tanks_of(&mut numbers, 2, rows)[..];
        Case { from: "2026-03-09 07:30", tanks, line: 12, row: rows - 1, pair: [0, 1] }.verify();
    }
}

/// The lowest and the highest reading, and none, each beside each.
#[test]
fn all_and_none_of_the_half_hours() {
    let each = [Some(0), Some(1), Some(65_535), None];
    for rows in [1, 31, 32, 33, 48, 64, 336] {
        for (first, second) in each.into_iter().flat_map(|first| each.map(|second| (first, second))) {
            let tanks = &[vec![first; rows], vec![second; rows]];
            Case { from: "2026-03-09 00:00", tanks, line: 12, row: rows / 2, pair: [0, 1] }.verify();
        }
    }
}

/// As many tanks and half hours as a log can have.
#[test]
fn a_year_of_fifteen_tanks() {
    let mut numbers = Numbers(22);
    let tanks = &tanks_of(&mut numbers, 15, 366 * 48)[..];
    Case { from: "2027-09-01 12:30", tanks, line: 48, row: 10_000, pair: [14, 0] }.verify();
}

/// The week of the example: its last half hour and its first two tanks are asked where none are named.
#[test]
fn the_week_of_twelve_tanks() {
    let week = repository("example/ammonia.txt");
    let expected = fs::read_to_string(repository("example/ammonia-1-2.txt")).expect("the expected answer");
    assert_eq!(asked(&week, &[]), expected);
    assert_eq!(asked(&week, &["2026-03-15", "23:30"]), expected);
    assert_eq!(asked(&week, &["2026-03-15", "23:30", "tank 1", "tank 2"]), expected);
}

/// The evening of the pump: Thursday 22:00.
#[test]
fn the_worst_half_hour_is_the_highest_sum() {
    let out = asked(&repository("example/ammonia.txt"), &["2026-03-12", "22:00"]);
    let sum = out.lines().find_map(|line| line.strip_prefix("  tank 1 + tank 2  ")).expect("a sum");
    assert!(out.contains(&format!("\nThu 12 Mar |.........###|   {sum} at 22:00\n")), "{out}");
    assert!(out.contains(&format!(": # over half of {sum}, ")), "{out}");
}

#[test]
fn tanks_are_named_however_they_are_written() {
    let week = repository("example/ammonia.txt");
    let out = asked(&week, &["2026-03-12", "22:00", "tank 12", "tank 2"]);
    assert!(out.contains("\nAdded: tank 12 and tank 2, "), "{out}");
    assert_eq!(asked(&week, &["2026-03-12", "22:00", "Tank012", " TANK\t2"]), out);
}

#[test]
fn singular_and_none() {
    let folder = Folder::new();
    let log = folder.write("log", "tanks 2\nfrom 2026-03-09 23:30\npond: 12.00\nbig pond: -\n");
    let expected = "Read: 2 tanks, 1 half hour from Mon 9 Mar 2026 23:30 to Tue 10 Mar 2026 00:00.\n\
                    Added: pond and big pond, whose sum is the load of a biofilter that they share; in milligrams.\n\n\
                    Mon 9 Mar 2026 23:30:\n\n  pond             12.00\n  big pond          none\n\
                    \x20 pond + big pond   none\n\nBoth had a reading:\n\nAt no time.\n\
                    Plain addition of the log's readings gives no sum either.\n\n\
                    How many of the 2 tanks had a reading at once, and how long:\n\n\
                    \x20    just so many  so many or more\n  1  30 min        30 min\n\n\
                    Plain counting of the log's readings gives the same 1 half hour.\n";
    assert_eq!(asked(&log, &[]), expected);
}

/// Readings may be broken into lines anywhere; a byte order mark, carriage returns, white space, remarks and empty
/// lines change nothing.
#[test]
fn what_is_passed_over() {
    let folder = Folder::new();
    let plain =
        folder.write("plain", "tanks 2\nfrom 2026-03-09 00:00\ntank 1: 0.21 - 0.23 0.24\ntank 2: - 1.00 1.10 0.00");
    let text = "\u{feff}# a remark\r\n\r\n  tanks \t 2  \r\nfrom  2026-03-09  00:00 \r\n\t\r\n# tank 9: -\r\n\
                tank  1:\t0.21 \r\n\r\n  -   0.23\t\r\n# 0.25\r\n0.24\r\n tank 2 :\r\n-\r\n1.00\r\n1.10\r\n0.00";
    let other = folder.write("other", text);
    assert_eq!(asked(&other, &[]), asked(&plain, &[]));
}
