//! One half hour of a tank: what is told of it is what reading letter by letter gives, and what is wrong is refused.

mod common;
#[path = "common/days.rs"]
mod days;
#[path = "common/drawn.rs"]
mod drawn;
#[path = "common/numbers.rs"]
mod numbers;

use std::ffi::OsStr;
use std::fs;
use std::os::unix::ffi::OsStrExt;
use std::path::{Path, PathBuf};

use common::{log_text, made, moment, repository, Folder, Told};
use numbers::{Numbers, BEGINNINGS};

const COLOURS: [&str; 3] = ["green", "amber", "red"];

const CLOSING: &str = "
Where it is written does not tell how long it was so. In a run all half hours are alike, and those beside it may be like
them; in a mixed word they differ. The spell tells it: it was found half hour by half hour, as far as the log goes.
";

fn asked(log: &Path, words: &[&str]) -> Told {
    moment(&[&[log.as_os_str()], &words.iter().map(OsStr::new).collect::<Vec<_>>()[..]].concat())
}

/// A question on one tank of a log.
struct Case<'a> {
    from: &'a str,
    letters: &'a [String],
    tank: usize,
    row: usize,
}

/// Where the piece of a canonical body lies that has the row, over segments of so many rows: a mixed segment, or clean
/// ones of one value as far as they go.
fn piece(set: &[bool], row: usize, width: usize) -> [usize; 2] {
    let alike = |segment: &[bool]| segment.iter().all(|held| *held == set[row]);
    let segments: Vec<bool> = set.chunks(width).map(alike).collect();
    let (mut first, mut last) = (row / width, row / width);
    if segments[first] {
        while first > 0 && segments[first - 1] {
            first -= 1;
        }
        while last + 1 < segments.len() && segments[last + 1] {
            last += 1;
        }
    }
    [first * width, ((last + 1) * width).min(set.len()) - 1]
}

/// The half hours one by one to both sides.
fn spell(set: &[bool], row: usize) -> [usize; 2] {
    let (mut first, mut last) = (row, row);
    while first > 0 && set[first - 1] == set[row] {
        first -= 1;
    }
    while last + 1 < set.len() && set[last + 1] == set[row] {
        last += 1;
    }
    [first, last]
}

fn count(n: usize) -> String {
    format!("{n} half hour{}", if n == 1 { "" } else { "s" })
}

fn hours(n: usize) -> String {
    match (n / 2, n % 2) {
        (0, _) => "30 min".to_string(),
        (h, 0) => format!("{h} h"),
        (h, _) => format!("{h} h 30 min"),
    }
}

impl Case<'_> {
    fn rows(&self) -> usize {
        self.letters[0].len()
    }

    /// Runs the demo, with the archive of the log and without, and holds all that it says to the letters.
    fn verify(&self) {
        let folder = Folder::new();
        let log = folder.write("log", log_text(self.from, self.letters));
        let (date, time) = days::asked(self.from, self.rows()).swap_remove(self.row);
        let name = format!("tank {}", self.tank + 1);
        let whole = days::half_hours(self.from, self.rows(), true);
        let (read, (day, clock)) = (drawn::first_line(self.letters.len(), &whole), &whole[self.row]);
        let head = format!(
            "{read}\nAsked: {name} in the half hour {day} {clock}. A half hour is named by when it begins.\n\n"
        );
        let table = self.table(&COLOURS, &[("written (EWAH)", 32)]);
        assert_eq!(asked(&log, &[&name, &date, &time]).answered(), format!("{head}{table}{CLOSING}"));
        let path = made(&folder, &log);
        let words = fs::metadata(&path).expect("an archive").len() / 4;
        let (bitmaps, rows) = (3 * self.letters.len(), count(self.rows()));
        let sound = format!(
            "Archive: {bitmaps} bitmaps of {rows} in WAH, {words} words; it is sound, and is asked as it is.\n"
        );
        let table = self.table(&["red", "green"], &[("written (EWAH)", 32), ("archived (WAH)", 31)]);
        let path = path.to_str().expect("text");
        let out = asked(&log, &[&name, &date, &time, "red+green", path]).answered();
        assert_eq!(out, format!("{sound}{head}{table}{CLOSING}"));
    }

    /// The lines of each colour, in columns.
    fn table(&self, colours: &[&str], formats: &[(&str, usize)]) -> String {
        let mut lines = vec![(String::new(), ["first half hour", "last half hour"].map(str::to_string))];
        let with_year = !days::half_hours(self.from, self.rows(), true)[self.rows()].0.ends_with(&self.from[..4]);
        let half_hours = days::half_hours(self.from, self.rows(), with_year);
        let shown = |row: usize| format!("{} {}", half_hours[row].0, half_hours[row].1);
        for colour in colours {
            let set: Vec<bool> = self.letters[self.tank].bytes().map(|letter| letter == colour.as_bytes()[0]).collect();
            let (yes, how_many, not) = if set[self.row] { ("yes", "all", "") } else { ("no", "none", "not ") };
            lines.push((format!("{colour}: {yes}"), Default::default()));
            for (whose, width) in formats {
                let [first, last] = piece(&set, self.row, *width);
                let rows = last - first + 1;
                let text = match set[first..=last].iter().all(|held| *held == set[self.row]) {
                    false => format!("a mixed word of {}", count(rows)),
                    true if rows > *width => format!("one run of {}, {how_many} {colour}", count(rows)),
                    true => format!("one segment of {}, {how_many} {colour}", count(rows)),
                };
                lines.push((format!("  {whose} in {text}"), [first, last].map(shown)));
            }
            let [first, last] = spell(&set, self.row);
            lines.push((format!("  spell: {not}{colour} for {}", hours(last + 1 - first)), [first, last].map(shown)));
        }
        let left = lines.iter().map(|(text, _)| text.len()).max().expect("a line");
        let middle = lines.iter().map(|(_, [first, _])| first.len()).max().expect("a line");
        let line = |(text, [first, last]): &(String, [String; 2])| format!("{text:left$}  {first:middle$}  {last}");
        lines.iter().map(|cells| format!("{}\n", line(cells).trim_end())).collect()
    }
}

/// Letters that stay for a while, some of them for several segments.
fn letters(numbers: &mut Numbers, rows: usize) -> String {
    let mut letters = String::new();
    while letters.len() < rows {
        let most = [3, 40, 120][numbers.below(3)];
        letters += &["g", "a", "r"][numbers.below(3)].repeat(1 + numbers.below(most));
    }
    letters.truncate(rows);
    letters
}

#[test]
fn random_logs() {
    let mut numbers = Numbers(30);
    for i in 0..120 {
        let (tanks, rows) = (1 + numbers.below(21), 1 + numbers.below(400));
        let letters: Vec<String> = (0..tanks).map(|_| letters(&mut numbers, rows)).collect();
        let (tank, row) = (numbers.below(tanks), numbers.below(rows));
        Case { from: BEGINNINGS[i % BEGINNINGS.len()], letters: &letters, tank, row }.verify();
    }
}

/// The last half hour, whose piece ends with the log.
#[test]
fn every_length_around_the_segments_of_32_and_31() {
    let mut numbers = Numbers(31);
    for rows in 1..=98 {
        let letters = [letters(&mut numbers, rows), "r".repeat(rows)];
        for tank in [0, 1] {
            Case { from: "2026-03-02 07:30", letters: &letters, tank, row: rows - 1 }.verify();
        }
    }
}

/// Each half hour of one log, at each end of each piece.
#[test]
fn every_half_hour() {
    let letters = ["g", "a", "g", "r", "g"].iter().zip([40, 70, 10, 6, 20]).map(|(letter, n)| letter.repeat(n));
    let letters = [letters.collect::<String>()];
    for row in 0..146 {
        Case { from: "2025-12-30 00:00", letters: &letters, tank: 0, row }.verify();
    }
}

/// The same text with one blank between words.
fn squeezed(out: &str) -> String {
    out.split_whitespace().collect::<Vec<_>>().join(" ")
}

/// A run is cut where a marker is full, and the spell is not.
#[test]
fn a_run_of_more_segments_than_a_marker_counts() {
    let folder = Folder::new();
    let log = folder.write("log", log_text("2026-03-02 00:00", &["g".repeat(32 * 65_536)]));
    let spell = "spell: green for 1,048,576 h Mon 2 Mar 2026 00:00 Thu 14 Oct 2145 15:30";
    for (date, time, piece) in [
        (
            "2145-10-13",
            "23:30",
            "one run of 2,097,120 half hours, all green Mon 2 Mar 2026 00:00 Wed 13 Oct 2145 23:30",
        ),
        ("2145-10-14", "00:00", "one segment of 32 half hours, all green Thu 14 Oct 2145 00:00 Thu 14 Oct 2145 15:30"),
    ] {
        let out = squeezed(&asked(&log, &["tank 1", date, time, "green"]).answered());
        assert!(out.contains(&format!(" green: yes written (EWAH) in {piece} {spell} ")), "{out}");
    }
}

/// The half hour of the example.
#[test]
fn the_week_of_twelve_tanks() {
    let week = repository("example/week.txt");
    let archive = repository("example/archive.wah");
    let expected = fs::read_to_string(repository("example/moment-tank-10.txt")).expect("the expected answer");
    let archive = archive.to_str().expect("text");
    let out = asked(&week, &["tank 10", "2026-03-04", "03:00", "green+amber+red", archive]).answered();
    assert_eq!(out, expected);
    assert_eq!(asked(&week, &["Tank010", "2026-03-04", "03:00", "green+amber+red", archive]).answered(), expected);
    let plain = asked(&week, &["tank 10", "2026-03-04", "03:00"]).answered();
    let lines = expected.lines().filter(|line| !line.starts_with("Archive") && !line.contains("archived (WAH)"));
    assert_eq!(plain, lines.map(|line| format!("{line}\n")).collect::<String>());
}

/// One tank of 70 half hours, which in WAH are three segments, the last one of 8: red but for half hour 40, which is
/// green; and its archive with these bodies for amber and red.
fn small(folder: &Folder, amber: &[u32], red: &[u32]) -> (PathBuf, PathBuf) {
    let letters = format!("{}g{}", "r".repeat(40), "r".repeat(29));
    let log = folder.write("log.txt", log_text("2026-03-02 00:00", &[letters]));
    let [ambers, reds] = [amber, red].map(|body| body.len() as u32);
    let contents = [2, 70, 3, 9, 3, 12, ambers, 12 + ambers, reds, 0, 1 << 9, 0];
    let bytes: Vec<u8> = contents.iter().chain(amber).chain(red).flat_map(|word| word.to_le_bytes()).collect();
    (log, folder.write("old.wah", bytes))
}

const AMBER: [u32; 1] = [0x8000_0003];
const RED: [u32; 3] = [0x7FFF_FFFF, 0x7FFF_FDFF, 0xFF];

/// The pieces are those of its own words, whether or not the library would write it so. What is clean may be a fill of
/// one or a literal, which the answer does not tell apart, and a run may be cut.
#[test]
fn an_archive_is_asked_as_it_is_written() {
    let told = |amber: &[u32], red: &[u32], date: &str, time: &str, colour: &str| {
        let folder = Folder::new();
        let (log, path) = small(&folder, amber, red);
        let out = asked(&log, &["tank 1", date, time, colour, path.to_str().expect("text")]).answered();
        let out = squeezed(&out);
        out.split_once("archived (WAH) in ")
            .and_then(|(_, rest)| rest.split_once(" Where "))
            .expect("a piece")
            .0
            .to_string()
    };
    for red in [RED, [0xC000_0001, 0x7FFF_FDFF, 0xFF], [0x7FFF_FFFF, 0x7FFF_FDFF, 0xC000_0001]] {
        let first = "one segment of 31 half hours, all red Mon 2 Mar 00:00 Mon 2 Mar 15:00 spell: red for 20 h";
        assert!(told(&AMBER, &red, "2026-03-02", "15:00", "red").starts_with(first));
        let mixed = "a mixed word of 31 half hours Mon 2 Mar 15:30 Tue 3 Mar 06:30 spell: red for 20 h";
        assert!(told(&AMBER, &red, "2026-03-02", "15:30", "red").starts_with(mixed));
        let last = "one segment of 8 half hours, all red Tue 3 Mar 07:00 Tue 3 Mar 10:30 spell: red for 14 h 30 min";
        assert!(told(&AMBER, &red, "2026-03-03", "10:30", "red").starts_with(last));
    }
    let spell = "spell: not amber for 35 h Mon 2 Mar 00:00 Tue 3 Mar 10:30";
    for (amber, piece) in [
        (&AMBER[..], "one run of 70 half hours, none amber Mon 2 Mar 00:00 Tue 3 Mar 10:30"),
        (&[0, 0x8000_0002], "one run of 39 half hours, none amber Mon 2 Mar 15:30 Tue 3 Mar 10:30"),
        (&[0x8000_0002, 0], "one run of 62 half hours, none amber Mon 2 Mar 00:00 Tue 3 Mar 06:30"),
        (&[0, 0, 0], "one segment of 31 half hours, none amber Mon 2 Mar 15:30 Tue 3 Mar 06:30"),
    ] {
        assert_eq!(told(amber, &RED, "2026-03-02", "15:30", "amber"), format!("{piece} {spell}"));
    }
}

/// The small log's question with these words in their places, which are refused so.
fn refused(words: &[&str], why: &str) {
    let folder = Folder::new();
    let (log, _) = small(&folder, &AMBER, &RED);
    asked(&log, words).refused(why);
}

#[test]
fn a_tank_that_there_is_not() {
    for name in ["tank 2", "tank", "1", "", "tank 1:", "t\u{430}nk 1"] {
        refused(&[name, "2026-03-02", "00:00"], &format!("There is no tank `{name}`: the log has tank 1."));
    }
}

#[test]
fn a_time_that_is_not_in_the_log() {
    let within = "is not in the log: ask for one from Mon 2 Mar 2026 00:00 to Tue 3 Mar 2026 10:30.";
    for (date, time, shown) in [
        ("2026-03-01", "23:30", "Sun 1 Mar 2026 23:30"),
        ("2026-03-03", "11:00", "Tue 3 Mar 2026 11:00"),
        ("2025-03-02", "00:00", "Sun 2 Mar 2025 00:00"),
    ] {
        refused(&["tank 1", date, time], &format!("{shown} {within}"));
        refused(&["Tank-01", date, time, "red"], &format!("{shown} {within}"));
    }
}

#[test]
fn a_date_or_a_time_that_there_is_not() {
    let ask = "ask for one as 2026-03-12 22:00.";
    for date in ["2026-02-30", "2026-3-2", "02.03.2026", "Mon", ""] {
        refused(&["tank 1", date, "noon"], &format!("`{date}` is no date: {ask}"));
    }
    for time in ["00:15", "00:01", "24:00", "7:30", "00.30", "noon", ""] {
        let words = format!("`{time}` is none of the times 00:00, 00:30 and so on to 23:30: {ask}");
        refused(&["tank 1", "2026-03-02", time], &words);
    }
    // they are judged before all else
    moment(&["none.txt", "pond", "x", "x", "blue", "none.wah"]).refused(&format!("`x` is no date: {ask}"));
}

#[test]
fn colours_that_can_not_be_asked() {
    for colour in ["ambr", "Amber", "blue", "amber red", "g"] {
        let words = format!("`{colour}` is no colour: ask for green, amber or red, or for several, as amber+red.");
        refused(&["tank 1", "2026-03-02", "00:00", colour], &words);
    }
    refused(&["tank 1", "2026-03-02", "00:00", "red+red"], "`red` is named twice: name each colour once.");
    let words = "A colour is missing in ``: join green, amber and red by +, as amber+red.";
    refused(&["tank 1", "2026-03-02", "00:00", ""], words);
}

#[test]
fn a_file_that_can_not_be_asked() {
    let folder = Folder::new();
    let (log, _) = small(&folder, &AMBER, &RED);
    let none = folder.path("none");
    let missing = format!("{}: there is no such file: mend its name or its folder.", none.display());
    let words = ["tank 9", "2026-03-02", "00:00", "red", none.to_str().expect("text")];
    asked(&none, &words[..3]).refused(&missing);
    asked(&log, &words).refused(&missing);
    // it counts nothing
    let (log, path) = small(&folder, &[0x8000_0000], &RED);
    let words = ["tank 1", "2026-03-02", "00:00", "red", path.to_str().expect("text")];
    asked(&log, &words).refused(&format!(
        "{}: refused, number 10, bitmap 1 (tank 1, amber), word 12: here a count of half hours without a change is 0. \
         Fetch the archive again, or ask who keeps it.",
        path.display()
    ));
}

/// Another archive of as many tanks and half hours. What is not asked for is not held to the log.
#[test]
fn an_archive_of_another_log() {
    let folder = Folder::new();
    let (log, path) = small(&folder, &AMBER, &[0x7FFF_FFFF, 0x7FFF_FFFF, 0xFF]);
    let path = path.to_str().expect("text");
    let words = |colours: &'static str| ["tank 1", "2026-03-02", "00:00", colours, path];
    let which = "Mon 2 Mar 2026 20:00: the archive lists this half hour, and the log does not";
    asked(&log, &words("green+red")).refused(&format!("tank 1, red, {which}: name its own log."));
    asked(&log, &words("green+amber")).answered();
}

#[test]
fn arguments_that_are_no_question() {
    let usage = "Usage: moment LOG TANK DATE TIME [COLOURS [ARCHIVE]].";
    moment::<&str>(&[]).refused(usage);
    for arguments in ["log", "log tank1", "log tank1 2026-03-02", "a b c d e f g"] {
        moment(&arguments.split(' ').collect::<Vec<_>>()).refused(usage);
    }
    let bytes = OsStr::from_bytes(b"\xff\x1b");
    let folder = Folder::new();
    let (log, _) = small(&folder, &AMBER, &RED);
    let words = "There is no tank `\u{fffd}\\u{1b}`: the log has tank 1.";
    moment(&[log.as_os_str(), bytes, "2026-03-02".as_ref(), "00:00".as_ref()]).refused(words);
}
