//! How much a tank's readings rose since the day before: what is told is what reading the log anew and subtracting one
//! by one gives, and what is wrong is refused.

mod common;
#[path = "common/days.rs"]
mod days;
#[path = "common/drawn.rs"]
mod drawn;
#[path = "common/numbers.rs"]
mod numbers;

use std::ffi::OsStr;
use std::fs;
use std::os::unix::ffi::OsStrExt;
use std::path::Path;

use common::{log_text, readings_text, repository, rise, Folder, Reading, Told};
use numbers::{Numbers, BEGINNINGS};

const LEGEND: &str =
    "Two hours by their greatest rise: # over 0.20, + over 0.02, . about the same, - all fell by over \
                      0.02, blank not compared\n\n";

fn asked(log: &Path, words: &[&str]) -> Told {
    rise(&[&[log.as_os_str()], &words.iter().map(OsStr::new).collect::<Vec<_>>()[..]].concat())
}

/// A tank of a log, read straight from the text.
struct Plain {
    from: String,
    tanks: usize,
    name: String,
    readings: Vec<Option<i64>>,
    with_year: bool,
}

impl Plain {
    /// What begins with # is passed over, and so are the head lines, but for when the log begins.
    fn new(text: &str, tank: usize) -> Plain {
        let mut from = String::new();
        let mut tanks: Vec<(String, Vec<Option<i64>>)> = Vec::new();
        for line in text.lines().filter(|line| !line.starts_with('#') && !line.starts_with("tanks ")) {
            if let Some(time) = line.strip_prefix("from ") {
                from = time.to_string();
                continue;
            }
            let (name, words) = line.split_once(':').map_or((None, line), |(name, words)| (Some(name), words));
            tanks.extend(name.map(|name| (name.to_string(), Vec::new())));
            let read = |word: &str| (word != "-").then(|| word.replace('.', "").parse().expect("a reading"));
            if let Some((_, readings)) = tanks.last_mut() {
                readings.extend(words.split_whitespace().map(read));
            }
        }
        let many = tanks.len();
        let (name, readings) = tanks.swap_remove(tank);
        let with_year = !days::half_hours(&from, readings.len(), true)[readings.len()].0.ends_with(&from[..4]);
        Plain { from, tanks: many, name, readings, with_year }
    }

    /// How much higher a half hour's reading is than that of 48 half hours before.
    fn change(&self, row: usize) -> Option<i64> {
        let before = if row < 48 { None } else { self.readings[row - 48] };
        self.readings[row].zip(before).map(|(reading, before)| reading - before)
    }

    fn changes(&self) -> Vec<i64> {
        (0..self.readings.len()).filter_map(|row| self.change(row)).collect()
    }

    /// The first of the half hours of which the key is the highest.
    fn first(&self, key: impl Fn(usize) -> Option<i64>, rows: &[usize]) -> Option<(i64, usize)> {
        let mut best: Option<(i64, usize)> = None;
        for row in rows {
            if let Some(value) = key(*row).filter(|value| best.is_none_or(|(most, _)| *value > most)) {
                best = Some((value, *row));
            }
        }
        best
    }

    fn readings_at(&self, row: usize) -> String {
        let [before, reading] = [row - 48, row].map(|row| self.readings[row].expect("a reading"));
        format!("from {} to {}", signed(before).replace('+', ""), signed(reading).replace('+', ""))
    }

    /// The lines of the days, sign by sign.
    fn picture(&self) -> String {
        let rows: Vec<usize> = (0..self.readings.len()).collect();
        let clocks = days::half_hours(&self.from, rows.len(), false);
        let width = signed(self.changes().into_iter().fold(0, i64::max)).len();
        let most = |part: &[Option<usize>]| {
            self.first(|row| self.change(row), &part.iter().copied().flatten().collect::<Vec<_>>())
        };
        let sign = |two_hours: &[Option<usize>]| match most(two_hours) {
            None => ' ',
            Some((21.., _)) => '#',
            Some((3..=20, _)) => '+',
            Some((-2..=2, _)) => '.',
            Some((..=-3, _)) => '-',
        };
        let beside = |day: &[Option<usize>]| match most(day) {
            None => format!("   {:>width$}", "none"),
            Some((..=0, _)) => format!("   {:>width$}", "0.00"),
            Some((by, row)) => format!("   {:>width$} at {}, {}", signed(by), clocks[row].1, self.readings_at(row)),
        };
        drawn::days(&self.from, &rows, self.with_year, "  greatest rise", sign, beside)
    }

    /// The greatest rise and fall, and the highest of the lower readings.
    fn most(&self) -> String {
        let rows: Vec<usize> = (0..self.readings.len()).collect();
        let half_hours = days::half_hours(&self.from, rows.len(), self.with_year);
        let lower = |row: usize| self.change(row).and(self.readings[row].min(self.readings[row.saturating_sub(48)]));
        let rise = self.first(|row| self.change(row).filter(|by| *by > 0), &rows);
        let fall = self.first(|row| self.change(row).filter(|by| *by < 0).map(|by| -by), &rows);
        let lower = self.first(lower, &rows);
        let shown = |most: Option<(i64, usize)>, weight: i64| signed(weight * most.map_or(0, |(by, _)| by));
        let lines = [
            ("greatest rise       ", rise, shown(rise, 1)),
            ("greatest fall       ", fall, shown(fall, -1)),
            ("highest on both days", lower, shown(lower, 1).replace('+', "")),
        ];
        let width = lines.iter().map(|(_, _, value)| value.len()).max().expect("a line");
        let line = |(label, most, value): &(&str, Option<(i64, usize)>, String)| {
            let place = most.map_or(String::new(), |(_, row)| {
                format!(", {} {}, {}", half_hours[row].0, half_hours[row].1, self.readings_at(row))
            });
            format!("  {label}  {value:>width$}{place}\n")
        };
        lines.iter().map(line).collect()
    }

    /// The whole answer.
    fn answer(&self) -> String {
        let (rows, changes) = (self.readings.len(), self.changes());
        let read = drawn::first_line(self.tanks, &days::half_hours(&self.from, rows, true));
        let (drawn, plain) = match changes.len() {
            0 => (
                "No half hour has both its reading and that of the day before.\n\n".to_string(),
                "has none to compare either".to_string(),
            ),
            n => (
                format!("{LEGEND}{}\nOf all days:\n\n{}\n", self.picture(), self.most()),
                format!("gives the same {} change{}", grouped(n), if n == 1 { "" } else { "s" }),
            ),
        };
        let lasted = |wanted: fn(&&i64) -> bool| hours(changes.iter().filter(wanted).count());
        let (rose, fell, same) = (lasted(|by| **by > 0), lasted(|by| **by < 0), lasted(|by| **by == 0));
        format!(
            "{read}\nCompared: {}, each reading with that of the day before at the same time; in milligrams.\n\n{drawn}\
             How long, beside the day before:\n\n  it rose          {rose}\n  it fell          {fell}\n\
             \x20 it was the same  {same}\n  not compared     {}, with no reading then or the day before\n\n\
             Plain subtraction of the log's readings {plain}.\n",
            self.name,
            hours(rows - changes.len())
        )
    }
}

/// `+0.13`, `-0.05`, `0.00`.
fn signed(hundredths: i64) -> String {
    let digits = format!("{}.{:02}", hundredths.abs() / 100, hundredths.abs() % 100);
    match hundredths {
        0 => digits,
        _ if hundredths > 0 => format!("+{digits}"),
        _ => format!("-{digits}"),
    }
}

fn grouped(n: usize) -> String {
    if n < 1000 {
        n.to_string()
    } else {
        format!("{},{:03}", n / 1000, n % 1000)
    }
}

fn hours(half_hours: usize) -> String {
    match (half_hours / 2, half_hours % 2) {
        (0, 1) => "30 min".to_string(),
        (h, 0) => format!("{} h", grouped(h)),
        (h, _) => format!("{} h 30 min", grouped(h)),
    }
}

/// Asks the demo for a tank of a log and holds all that it says to the subtracting.
fn verify(from: &str, tanks: &[Vec<Reading>], line: usize, tank: usize) {
    let folder = Folder::new();
    let text = readings_text(from, tanks, line);
    let log = folder.write("log", &text);
    assert_eq!(asked(&log, &[&format!("tank {}", tank + 1)]).answered(), Plain::new(&text, tank).answer());
}

/// A first day that drifts; then for a while the same as the day before, or a little more or less, or something else,
/// or nothing.
fn readings(numbers: &mut Numbers, rows: usize) -> Vec<Reading> {
    let mut readings: Vec<Reading> = Vec::new();
    let (mut kind, mut left, mut by) = (0, 0, 0);
    for row in 0..rows {
        if left == 0 {
            (kind, left, by) = (numbers.below(8), 1 + numbers.below(30), numbers.below(24));
        }
        left -= 1;
        let before = if row < 48 { readings.last() } else { readings.get(row - 48) };
        let before = before.copied().flatten().unwrap_or(30);
        readings.push(match kind {
            0 | 1 => Some(before),
            2 => Some((before + by as u32).min(65_535)),
            3 => Some(before.saturating_sub(by as u32)),
            4 => Some((before + numbers.below(7) as u32).saturating_sub(3).min(65_535)),
            5 => Some(numbers.below(65_536) as u32),
            6 => Some(numbers.below(50) as u32),
            _ => None,
        });
    }
    readings
}

#[test]
fn random_logs() {
    let mut numbers = Numbers(70);
    for i in 0..120 {
        let (many, rows) = (1 + numbers.below(4), 49 + numbers.below(400));
        let tanks: Vec<Vec<Reading>> = (0..many).map(|_| readings(&mut numbers, rows)).collect();
        let (line, tank) = (1 + numbers.below(60), numbers.below(many));
        verify(BEGINNINGS[i % BEGINNINGS.len()], &tanks, line, tank);
    }
}

/// Among them exactly two days, and three.
#[test]
fn every_length_around_the_segments_of_32() {
    let mut numbers = Numbers(71);
    for rows in 49..=146 {
        verify("2026-03-09 07:30", &[readings(&mut numbers, rows)], 12, 0);
    }
}

/// The lowest and the highest reading, those beside them, and none, each a day before each.
#[test]
fn all_and_none_of_the_half_hours() {
    let each = [Some(0), Some(1), Some(65_534), Some(65_535), None];
    for rows in [49, 80, 96] {
        for (first, second) in each.into_iter().flat_map(|first| each.map(|second| (first, second))) {
            let readings = [vec![first; 48], vec![second; rows - 48]].concat();
            verify("2026-03-09 00:00", &[readings], 12, 0);
        }
    }
}

/// A change of 1, -1 and 0 in one half hour, beside which nothing is compared.
#[test]
fn one_hundredth_more_and_less() {
    let place = "Tue 10 Mar 03:30, from 0.20 to";
    for (second, rise, fall) in [
        (21, format!("+0.01, {place} 0.21"), " 0.00".to_string()),
        (19, " 0.00".to_string(), format!("-0.01, {place} 0.19")),
        (20, "0.00".to_string(), "0.00".to_string()),
    ] {
        let mut readings = vec![None; 96];
        (readings[7], readings[55]) = (Some(20), Some(second));
        let folder = Folder::new();
        let text = readings_text("2026-03-09 00:00", &[readings], 12);
        let out = asked(&folder.write("log", &text), &[]).answered();
        assert_eq!(out, Plain::new(&text, 0).answer());
        let lines = format!("\n  greatest rise         {rise}\n  greatest fall         {fall}\n");
        assert!(out.contains(&lines), "{out}{lines}");
    }
}

/// As many half hours as a log can have.
#[test]
fn a_year() {
    let mut numbers = Numbers(72);
    verify("2027-09-01 12:30", &[readings(&mut numbers, 366 * 48)], 48, 0);
}

/// Every tank of the week of the example, of which the first is asked where none is named.
#[test]
fn the_week_of_twelve_tanks() {
    let week = repository("example/ammonia.txt");
    let text = fs::read_to_string(&week).expect("the week");
    for tank in 0..12 {
        let plain = Plain::new(&text, tank);
        assert_eq!(plain.name, format!("tank {}", tank + 1));
        assert_eq!(asked(&week, &[&plain.name]).answered(), plain.answer());
    }
    assert_eq!(asked(&week, &[]).answered(), Plain::new(&text, 0).answer());
    let expected = fs::read_to_string(repository("example/rise-tank-2.txt")).expect("the expected answer");
    assert_eq!(asked(&week, &["tank 2"]).answered(), expected);
    assert_eq!(asked(&week, &["TANK-02"]).answered(), expected);
}

/// The evening of the pump, and the one behind it.
#[test]
fn the_pump_that_stood_still_is_the_greatest_rise_and_then_the_greatest_fall() {
    let out = asked(&repository("example/ammonia.txt"), &["tank 1"]).answered();
    assert!(out.contains("\nThu 12 Mar |....-----###|   +1.25 at 22:00, from 0.31 to 1.56\n"), "{out}");
    assert!(out.contains("\n  greatest rise         +1.25, Thu 12 Mar 22:00, from 0.31 to 1.56\n"), "{out}");
    assert!(out.contains("\n  greatest fall         -1.21, Fri 13 Mar 22:00, from 1.56 to 0.35\n"), "{out}");
}

#[test]
fn nothing_to_compare() {
    let folder = Folder::new();
    let mut readings = vec![Some(20); 96];
    readings[48..].fill(None);
    let log = folder.write("log", readings_text("2026-03-09 00:00", &[readings], 12));
    let expected = "Read: 1 tank, 96 half hours from Mon 9 Mar 2026 00:00 to Wed 11 Mar 2026 00:00.\n\
                    Compared: tank 1, each reading with that of the day before at the same time; in milligrams.\n\n\
                    No half hour has both its reading and that of the day before.\n\n\
                    How long, beside the day before:\n\n  it rose          0 h\n  it fell          0 h\n\
                    \x20 it was the same  0 h\n  not compared     48 h, with no reading then or the day before\n\n\
                    Plain subtraction of the log's readings has none to compare either.\n";
    assert_eq!(asked(&log, &[]).answered(), expected);
}

/// A log of a day or less is refused, whatever its readings; one half hour more is compared.
#[test]
fn no_day_before() {
    let folder = Folder::new();
    let log = |rows: usize| folder.write("log", readings_text("2026-03-09 13:30", &[vec![Some(20); rows]], 12));
    let ask = "and none has a day before it: ask a log of 49 half hours or more.";
    asked(&log(1), &[]).refused(&format!("The log has 1 half hour, {ask}"));
    for rows in [2, 47, 48] {
        asked(&log(rows), &["tank 1"]).refused(&format!("The log has {rows} half hours, {ask}"));
    }
    let out = asked(&log(49), &[]).answered();
    assert!(out.ends_with("\nPlain subtraction of the log's readings gives the same 1 change.\n"), "{out}");
}

#[test]
fn a_tank_that_there_is_not() {
    let folder = Folder::new();
    let log = folder.write("log", readings_text("2026-03-09 00:00", &[vec![None; 48], vec![None; 48]], 12));
    // it is judged before the number of half hours
    for name in ["tank 3", "tank", "2", "", "tank 1:", "t\u{430}nk 1"] {
        asked(&log, &[name]).refused(&format!("There is no tank `{name}`: the log has tank 1 and tank 2."));
    }
    let bytes = OsStr::from_bytes(b"\xff\x1b");
    let words = "There is no tank `\u{fffd}\\u{1b}`: the log has tank 1 and tank 2.";
    rise(&[log.as_os_str(), bytes]).refused(words);
}

#[test]
fn a_log_that_can_not_be_read() {
    let folder = Folder::new();
    let none = folder.path("none.txt");
    let words = format!("{}: there is no such file: mend its name or its folder.", none.display());
    asked(&none, &["tank 1"]).refused(&words);
    asked(&folder.0, &[]).refused(&format!("{}: this is a folder: name a log in it.", folder.0.display()));
    let log = folder.write("log.txt", log_text("2026-03-02 00:00", &["gga"]));
    asked(&log, &["tank 7"]).refused(&format!(
        "{}, line 3: in `tank 1` reading 1 of this line is `gga`: write milligrams with two decimals, as 0.21, or - \
         where there is none.",
        log.display()
    ));
    let log = folder.write("log.txt", readings_text("2026-03-09 00:00", &[vec![Some(65_536); 49]], 49));
    asked(&log, &[]).refused(&format!(
        "{}, line 3: in `tank 1` reading 1 of this line is `655.36`: 655.35 is the most that can be asked: mend it, or \
         write - where there is none.",
        log.display()
    ));
}

#[test]
fn arguments_that_are_no_question() {
    let usage = "Usage: rise LOG [TANK].";
    rise::<&str>(&[]).refused(usage);
    rise(&["log", "tank 1", "tank 2"]).refused(usage);
}
