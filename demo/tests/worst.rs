//! A tank's worst half hours, and its calmest: what is listed is what going through its readings value by value gives,
//! and what is wrong is refused.

mod common;
#[path = "common/days.rs"]
mod days;
#[path = "common/drawn.rs"]
mod drawn;
#[path = "common/numbers.rs"]
mod numbers;

use std::ffi::OsStr;
use std::fs;
use std::os::unix::ffi::OsStrExt;
use std::path::Path;

use common::{log_text, readings_text, repository, worst, Folder, Reading, Told};
use numbers::{Numbers, BEGINNINGS};

const FLAG: &str = "--calmest";

fn asked(calmest: bool, log: &Path, words: &[&str]) -> Told {
    let flag = [OsStr::new(FLAG)];
    let words: Vec<&OsStr> = words.iter().map(OsStr::new).collect();
    worst(&[&flag[..usize::from(calmest)], &[log.as_os_str()], &words].concat())
}

/// A question on a tank of a log.
#[derive(Clone, Copy)]
struct Case<'a> {
    from: &'a str,
    tanks: &'a [Vec<Reading>],
    tank: usize,
    k: usize,
    calmest: bool,
}

/// Half hours one behind the other, with their readings, and the line on those for which there was no room.
struct Taken {
    listed: Vec<(u32, usize)>,
    tie: String,
}

impl Case<'_> {
    fn readings(&self) -> &[Reading] {
        &self.tanks[self.tank]
    }

    fn with_year(&self) -> bool {
        let rows = self.readings().len();
        !days::half_hours(self.from, rows, true)[rows].0.ends_with(&self.from[..4])
    }

    /// The half hours of each value, from one end to the other, until there is no more room.
    fn taken(&self) -> Taken {
        let mut values: Vec<u32> = self.readings().iter().flatten().copied().collect();
        values.sort();
        values.dedup();
        if !self.calmest {
            values.reverse();
        }
        let mut taken = Taken { listed: Vec::new(), tie: String::new() };
        for value in values {
            let rows: Vec<usize> =
                (0..self.readings().len()).filter(|row| self.readings()[*row] == Some(value)).collect();
            let room = self.k - taken.listed.len();
            if room > 0 && room < rows.len() {
                taken.tie = self.tie(value, &rows, room);
            }
            taken.listed.extend(rows.into_iter().take(room).map(|row| (value, row)));
        }
        taken
    }

    fn tie(&self, value: u32, rows: &[usize], room: usize) -> String {
        let (date, clock) =
            days::half_hours(self.from, self.readings().len(), self.with_year()).swap_remove(rows[room]);
        let earliest = match room {
            1 => "the earliest is listed".to_string(),
            n => format!("the {} earliest are listed", grouped(n)),
        };
        let other = match rows.len() - room {
            1 => format!("the other, {date} {clock}, is not"),
            n => format!("the other {}, from {date} {clock} on, are not", grouped(n)),
        };
        format!("Of the {} half hours with {} {earliest}; {other}.\n", grouped(rows.len()), shown(value))
    }

    /// The whole answer.
    fn answer(&self) -> String {
        let (rows, there) = (self.readings().len(), self.readings().iter().flatten().count());
        let read = drawn::first_line(self.tanks.len(), &days::half_hours(self.from, rows, true));
        let first = if self.calmest { "lowest" } else { "highest" };
        let many = if self.k == 1 { String::new() } else { grouped(self.k) + " " };
        let (all, s) = (grouped(there), if there == 1 { "" } else { "s" });
        let Taken { listed, tie } = self.taken();
        let half_hours = days::half_hours(self.from, rows, self.with_year());
        let width = listed.iter().map(|(value, _)| shown(*value).len()).max().expect("a half hour");
        let line = |(value, row): &(u32, usize)| {
            let (date, clock) = &half_hours[*row];
            // the days of a month one below the other
            let date = if date.as_bytes()[5] == b' ' { date.replacen(' ', "  ", 1) } else { date.clone() };
            format!("  {:>width$}  {date} {clock}\n", shown(*value))
        };
        let lines: String = listed.iter().map(line).collect();
        format!(
            "{read}\nAsked: tank {}, the {many}{first} of its {all} reading{s}, the {first} first; in milligrams.\n\n\
             {lines}\n{tie}Plain sorting of the log's readings gives the same {}.\n",
            self.tank + 1,
            drawn::half_hours(self.k)
        )
    }

    /// Asks the demo and holds all that it says to the readings.
    fn verify(&self, line: usize) {
        let folder = Folder::new();
        let log = folder.write("log", readings_text(self.from, self.tanks, line));
        let words = [format!("tank {}", self.tank + 1), self.k.to_string()];
        assert_eq!(asked(self.calmest, &log, &words.each_ref().map(String::as_str)).answered(), self.answer());
    }

    /// The same in both orders.
    fn verify_both(self) {
        for calmest in [false, true] {
            Case { calmest, ..self }.verify(12);
        }
    }
}

fn grouped(n: usize) -> String {
    if n < 1000 {
        n.to_string()
    } else {
        format!("{},{:03}", n / 1000, n % 1000)
    }
}

fn shown(hundredths: u32) -> String {
    format!("{}.{:02}", hundredths / 100, hundredths % 100)
}

/// Readings of so many values, the highest that there is among them, and none now and then.
fn readings(numbers: &mut Numbers, rows: usize, values: usize) -> Vec<Reading> {
    let step = 65_535 / values;
    let mut one = || match numbers.below(8) {
        0 => None,
        1 => Some(65_535),
        _ => Some((step * numbers.below(values)) as u32),
    };
    (0..rows).map(|_| one()).collect()
}

fn there(readings: &[Reading]) -> usize {
    readings.iter().flatten().count()
}

#[test]
fn random_logs() {
    let mut numbers = Numbers(80);
    for i in 0..150 {
        let (many, rows) = (1 + numbers.below(4), 4 + numbers.below(400));
        let values = [1, 2, 5, 40, 65_535][i % 5];
        let mut tanks: Vec<Vec<Reading>> = (0..many).map(|_| readings(&mut numbers, rows, values)).collect();
        let tank = numbers.below(many);
        tanks[tank][rows / 2] = Some(7);
        let k = 1 + numbers.below(there(&tanks[tank]));
        let case = Case { from: BEGINNINGS[i % BEGINNINGS.len()], tanks: &tanks, tank, k, calmest: i % 2 == 1 };
        case.verify(1 + numbers.below(60));
    }
}

/// From one half hour to all, so that a cut falls before, into and behind each tie.
#[test]
fn every_number_of_half_hours() {
    let tanks = [readings(&mut Numbers(81), 70, 6)];
    for k in 1..=there(&tanks[0]) {
        Case { from: "2026-03-09 00:00", tanks: &tanks, tank: 0, k, calmest: false }.verify_both();
    }
}

#[test]
fn every_length_around_the_segments_of_32() {
    let mut numbers = Numbers(82);
    for rows in 1..=97 {
        let mut tanks = [readings(&mut numbers, rows, 9)];
        tanks[0][rows - 1] = Some(3);
        let k = 1 + numbers.below(there(&tanks[0]));
        Case { from: "2026-03-09 07:30", tanks: &tanks, tank: 0, k, calmest: false }.verify_both();
    }
}

/// Where all are equal the earliest are taken, whatever their value.
#[test]
fn equal_readings() {
    for value in [0, 1, 32_767, 65_535] {
        let mut tanks = [vec![Some(value); 100]];
        tanks[0][..3].fill(None);
        for k in [1, 31, 96, 97] {
            Case { from: "2025-12-31 00:00", tanks: &tanks, tank: 0, k, calmest: false }.verify_both();
        }
    }
}

/// As many half hours as a log can have, and of those as many as exist.
#[test]
fn a_year() {
    let tanks = [readings(&mut Numbers(83), 366 * 48, 300)];
    for k in [1, 1_000, there(&tanks[0])] {
        Case { from: "2027-09-01 12:30", tanks: &tanks, tank: 0, k, calmest: k == 1_000 }.verify(48);
    }
}

/// The tanks of the example, read straight from its text: all words with a point or a dash, behind the name above them.
fn week() -> Vec<Vec<Reading>> {
    let text = fs::read_to_string(repository("example/ammonia.txt")).expect("the week");
    let lines: Vec<&str> = text.lines().filter(|line| !line.starts_with('#')).collect();
    let tanks = lines.split(|line| line.starts_with("tank ")).skip(1);
    let read = |word: &str| (word != "-").then(|| word.replace('.', "").parse().expect("a reading"));
    tanks.map(|lines| lines.iter().flat_map(|line| line.split_whitespace()).map(read).collect()).collect()
}

/// Ten of each tank, in both orders, and those of the expected answer, which another program wrote.
#[test]
fn the_week_of_twelve_tanks() {
    let (week, log) = (week(), repository("example/ammonia.txt"));
    for tank in 0..12 {
        let case = Case { from: "2026-03-09 00:00", tanks: &week, tank, k: 10, calmest: false };
        let name = format!("tank {}", tank + 1);
        assert_eq!(asked(false, &log, &[&name]).answered(), case.answer());
        assert_eq!(asked(true, &log, &[&name, "10"]).answered(), Case { calmest: true, ..case }.answer());
    }
    let expected = fs::read_to_string(repository("example/worst-tank-10.txt")).expect("the expected answer");
    assert_eq!(asked(false, &log, &["tank 10"]).answered(), expected);
    assert_eq!(asked(false, &log, &["TANK-010", "10"]).answered(), expected);
    assert_eq!(asked(false, &log, &[]).answered(), asked(false, &log, &["tank 1", "10"]).answered());
}

/// Of five equal ones one is left out; with one more asked for none is, and with one fewer two are.
#[test]
fn the_line_on_a_tie() {
    let log = repository("example/ammonia.txt");
    let out = |k: &str| asked(false, &log, &["tank 10", k]).answered();
    let all = "Of the 5 half hours with 0.49 the";
    let line = format!("\n\n{all} 4 earliest are listed; the other, Sat 14 Mar 09:30, is not.\nPlain sorting ");
    assert!(out("10").contains(&line), "{}", out("10"));
    let line = format!("\n\n{all} 3 earliest are listed; the other 2, from Sat 14 Mar 09:00 on, are not.\nPlain ");
    assert!(out("9").contains(&line), "{}", out("9"));
    let line = format!("\n\n{all} earliest is listed; the other 4, from Fri 13 Mar 20:00 on, are not.\nPlain ");
    assert!(out("7").contains(&line), "{}", out("7"));
    for k in ["6", "11"] {
        assert!(!out(k).contains("Of the "), "{}", out(k));
    }
}

/// All readings are listed, and one half hour more is the library's refusal 8.
#[test]
fn more_than_have_a_reading() {
    let folder = Folder::new();
    let log = |there: usize| {
        let readings = [vec![Some(20); there], vec![None; 50 - there]].concat();
        folder.write("log", readings_text("2026-03-09 13:30", &[readings], 12))
    };
    for calmest in [false, true] {
        for there in [1, 2, 32, 50] {
            let (log, k) = (log(there), there.to_string());
            let out = asked(calmest, &log, &["tank 1", &k]).answered();
            assert!(out.contains(&format!("of its {there} reading")) && !out.contains("Of the "), "{out}");
        }
        let refused = |log: &Path, k: &str, why: &str| asked(calmest, log, &["tank 1", k]).refused(why);
        let since = "The library refused, since tank 1 has";
        refused(
            &log(32),
            "33",
            &format!("{since} 32 readings and 33 half hours were asked for (refusal 8): ask for 1 to 32."),
        );
        let why = format!("{since} 50 readings and 17,568 half hours were asked for (refusal 8): ask for 1 to 50.");
        refused(&log(50), "17568", &why);
        refused(&log(1), "2", &format!("{since} 1 reading and 2 half hours were asked for (refusal 8): ask for 1."));
        let ask = "asked for (refusal 8): ask another tank, or another log.";
        refused(&log(0), "1", &format!("{since} 0 readings and 1 half hour was {ask}"));
        // ten are asked for where no number is named
        asked(calmest, &log(0), &[]).refused(&format!("{since} 0 readings and 10 half hours were {ask}"));
    }
    let words =
        "The library refused, since tank 8 has 209 readings and 210 half hours were asked for (refusal 8): ask for 1 \
                 to 209.";
    asked(false, &repository("example/ammonia.txt"), &["tank 8", "210"]).refused(words);
}

/// A number that no log can have is told before the log is read.
#[test]
fn a_number_that_is_none() {
    let folder = Folder::new();
    let log = folder.path("none.txt");
    let words =
        ["", "0", "00", "010", "17569", "99999", "99999999999999999999", "-1", "+5", "5 ", "5.0", "1,000", "ten"];
    for k in words.iter().chain(&["\u{662}", "5\n"]) {
        let why = "No log has more than 17,568 half hours, so ask for 1 to 17,568.";
        asked(false, &log, &["tank 1", k]).refused(why);
        asked(true, &log, &["tank 1", k]).refused(why);
    }
    let log = log.as_os_str();
    worst(&[log, OsStr::new("tank 1"), OsStr::from_bytes(b"\xff")])
        .refused("No log has more than 17,568 half hours, so ask for 1 to 17,568.");
}

#[test]
fn a_tank_that_there_is_not() {
    let folder = Folder::new();
    let log = folder.write("log", readings_text("2026-03-09 00:00", &[vec![None; 48], vec![None; 48]], 12));
    // it is judged before the number of readings, and a flag behind the log is none
    for name in ["tank 3", "tank", "2", "", "tank 1:", FLAG] {
        asked(false, &log, &[name, "49"])
            .refused(&format!("There is no tank `{name}`: the log has tank 1 and tank 2."));
    }
    let words = "There is no tank `\u{fffd}\\u{1b}`: the log has tank 1 and tank 2.";
    worst(&[log.as_os_str(), OsStr::from_bytes(b"\xff\x1b")]).refused(words);
}

#[test]
fn a_log_that_can_not_be_read() {
    let folder = Folder::new();
    let none = folder.path("none.txt");
    let words = format!("{}: there is no such file: mend its name or its folder.", none.display());
    asked(false, &none, &["tank 1", "5"]).refused(&words);
    asked(true, &folder.0, &[]).refused(&format!("{}: this is a folder: name a log in it.", folder.0.display()));
    let log = folder.write("log.txt", log_text("2026-03-02 00:00", &["gga"]));
    asked(false, &log, &["tank 7"]).refused(&format!(
        "{}, line 3: in `tank 1` reading 1 of this line is `gga`: write milligrams with two decimals, as 0.21, or - \
         where there is none.",
        log.display()
    ));
}

#[test]
fn arguments_that_are_no_question() {
    let usage = "Usage: worst [--calmest] LOG [TANK [K]].";
    worst::<&str>(&[]).refused(usage);
    worst(&[FLAG]).refused(usage);
    worst(&["log", "tank 1", "10", "more"]).refused(usage);
    worst(&[FLAG, "log", "tank 1", "10", "more"]).refused(usage);
    worst(&["log", "tank 1", "10", FLAG]).refused(usage);
}
