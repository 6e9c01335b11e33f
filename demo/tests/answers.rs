//! Sound logs: what is drawn, listed and summed is what counting letter by letter gives.

mod common;
#[path = "common/days.rs"]
mod days;
#[path = "common/drawn.rs"]
mod drawn;
#[path = "common/numbers.rs"]
mod numbers;
#[path = "common/read.rs"]
mod read;

use common::{log_text, repository, tanks, Folder};
use numbers::{Numbers, BEGINNINGS};

/// A question, and what counting says.
struct Case {
    from: String,
    letters: Vec<String>,
    colours: String,
    t: usize,
}

impl Case {
    fn new(from: &str, letters: Vec<String>, colours: &str, t: usize) -> Case {
        Case { from: from.to_string(), letters, colours: colours.to_string(), t }
    }

    fn rows(&self) -> usize {
        self.letters[0].len()
    }

    fn counted(&self) -> Vec<bool> {
        let asked: Vec<u8> = self.colours.split('+').map(|colour| colour.as_bytes()[0]).collect();
        let holders = |row| self.letters.iter().filter(|letters| asked.contains(&letters.as_bytes()[row])).count();
        (0..self.rows()).map(|row| holders(row) >= self.t).collect()
    }

    /// Runs the demo and holds all that it says to the counting.
    fn verify(&self) {
        let folder = Folder::new();
        let log = folder.write("log", log_text(&self.from, &self.letters));
        let out = tanks(&[log.as_os_str(), self.colours.as_ref(), self.t.to_string().as_ref()]).answered();
        let whole = days::half_hours(&self.from, self.rows(), true);
        assert_eq!(out.lines().next(), Some(drawn::first_line(self.letters.len(), &whole).as_str()));
        let with_year = !whole[self.rows()].0.ends_with(&self.from[..4]);
        let set = self.counted();
        assert_eq!(read::spells(&out, &days::half_hours(&self.from, self.rows(), with_year)), set, "{out}");
        assert_eq!(read::sum(&out), read::counted(&set), "{out}");
        let picture = self.picture(&set, with_year);
        assert!(out.contains(&picture), "{out}\n{picture}");
    }

    /// The lines of the days, sign by sign.
    fn picture(&self, set: &[bool], with_year: bool) -> String {
        let text = drawn::days(&self.from, set, with_year, "", sign, |_| String::new());
        let blank = if drawn::has_blank(&text) { ", blank not in the log" } else { "" };
        format!("# all of two hours, + part, . none{blank}\n\n{text}\n")
    }
}

fn sign(two_hours: &[Option<bool>]) -> char {
    if two_hours.iter().all(|held| held.is_none()) {
        ' '
    } else if two_hours.iter().all(|held| *held == Some(true)) {
        '#'
    } else if two_hours.contains(&Some(true)) {
        '+'
    } else {
        '.'
    }
}

/// Letters that mostly stay as they are.
fn letters(numbers: &mut Numbers, rows: usize) -> String {
    let mut letter = 'g';
    let mut letters = String::new();
    for _ in 0..rows {
        if numbers.below(6) == 0 {
            letter = ['g', 'a', 'r'][numbers.below(3)];
        }
        letters.push(letter);
    }
    letters
}

fn tanks_of(numbers: &mut Numbers, tanks: usize, rows: usize) -> Vec<String> {
    (0..tanks).map(|_| letters(numbers, rows)).collect()
}

const COLOURS: [&str; 8] =
    ["green", "amber", "red", "amber+red", "red+amber", "green+red", "green+amber+red", "red+green+amber"];

#[test]
fn random_logs() {
    let mut numbers = Numbers(10);
    for i in 0..160 {
        let (tank_count, rows) = (1 + numbers.below(85), 1 + numbers.below(400));
        let letters = tanks_of(&mut numbers, tank_count, rows);
        let colours = COLOURS[numbers.below(COLOURS.len())];
        Case::new(BEGINNINGS[i % BEGINNINGS.len()], letters, colours, 1 + numbers.below(tank_count)).verify();
    }
}

#[test]
fn every_length_around_the_segments_of_32() {
    let mut numbers = Numbers(11);
    for rows in 1..=98 {
        let letters = tanks_of(&mut numbers, 3, rows);
        Case::new("2026-03-02 07:30", letters, "amber+red", 2).verify();
    }
}

#[test]
fn all_and_none_of_the_half_hours() {
    for rows in [1, 31, 32, 33, 48, 64, 96, 336] {
        for letter in ["g", "a", "r"] {
            for colours in ["green", "amber+red", "green+amber+red"] {
                Case::new("2026-03-02 00:00", vec![letter.repeat(rows); 2], colours, 2).verify();
            }
        }
    }
}

#[test]
fn one_tank_and_one_half_hour() {
    for from in BEGINNINGS {
        for letter in ["g", "a", "r"] {
            Case::new(from, vec![letter.to_string()], "amber+red", 1).verify();
        }
    }
}

#[test]
fn as_many_tanks_as_there_can_be() {
    let mut numbers = Numbers(12);
    let letters = tanks_of(&mut numbers, 85, 336);
    for colours in COLOURS {
        for t in [1, 2, 28, 43, 84, 85] {
            Case::new("2026-03-02 00:00", letters.clone(), colours, t).verify();
        }
    }
}

#[test]
fn four_hundred_days_and_several_years() {
    let mut numbers = Numbers(13);
    for (from, days) in [("2023-12-30 23:30", 400), ("2026-03-02 00:00", 400), ("2099-02-27 12:00", 1100)] {
        let letters = tanks_of(&mut numbers, 3, days * 48);
        Case::new(from, letters, "amber+red", 2).verify();
    }
}

#[test]
fn singular_and_plural() {
    let folder = Folder::new();
    let one = folder.write("one", log_text("2026-03-02 23:30", &["a"]));
    let out = tanks(&[one.as_os_str(), "amber+red".as_ref(), "1".as_ref()]).answered();
    let expected = "Read: 1 tank, 1 half hour from Mon 2 Mar 2026 23:30 to Tue 3 Mar 2026 00:00.\n\
                    Counted: whether the 1 tank was amber or red in a half hour; shown: when it was.\n\n\
                    # all of two hours, + part, . none, blank not in the log\n\n\
                    \x20           0  6  12 18 24\nMon  2 Mar |           +|\n\n\
                    \x20 Mon 2 Mar 23:30 to Tue 3 Mar 00:00, 30 min\n\nIn all 30 min in 1 spell.\n";
    assert_eq!(out, expected);
    let none = tanks(&[one.as_os_str(), "red".as_ref(), "1".as_ref()]).answered();
    assert!(none.ends_with("|           .|\n\nAt no time.\n"), "{none}");
}

/// The week of the example, without the program's line.
#[test]
fn the_week_of_twelve_tanks() {
    let week = repository("example/week.txt");
    let out = tanks(&[week.as_os_str(), "amber+red".as_ref(), "5".as_ref()]).answered();
    let expected = std::fs::read_to_string(repository("example/amber-red-5.txt")).expect("the expected answer");
    assert_eq!(out, expected.replace("The program lists the same 95 half hours.\n", ""));
    assert!(
        out.contains("Counted: how many of the 12 tanks were amber or red in the same half hour; shown: at least 5.\n")
    );
}

/// Thursday 04:00 to 05:00: at least five tanks are amber or worse, but not five are amber.
#[test]
fn the_worst_hour_is_in_a_spell() {
    let week = repository("example/week.txt");
    let half_hours = days::half_hours("2026-03-02 00:00", 336, false);
    let worst: Vec<usize> = ["04:00", "04:30"]
        .iter()
        .map(|clock| half_hours.iter().position(|(d, c)| d == "Thu 5 Mar" && c == clock).expect("a half hour"))
        .collect();
    for (colours, held) in [("amber+red", true), ("amber", false)] {
        let out = tanks(&[week.as_os_str(), colours.as_ref(), "5".as_ref()]).answered();
        let set = read::spells(&out, &half_hours);
        assert!(worst.iter().all(|row| set[*row] == held), "{out}");
    }
}

/// A byte order mark, carriage returns, white space at line ends, remarks and empty lines change nothing.
#[test]
fn what_is_passed_over() {
    let folder = Folder::new();
    let plain = folder.write("plain", log_text("2026-03-02 00:00", &["gaar", "grra", "gggr"]));
    let text = "\u{feff}# a remark\r\n\r\n  tanks \t 3  \r\nfrom  2026-03-02  00:00 \r\n\t\r\n# tank 9: gggg\r\n\
                tank  1:\tgaar \r\n  tank 2 :   grra\t\r\ntank\t3:gggr";
    let other = folder.write("other", text);
    let asked = |log: &std::path::Path| tanks(&[log.as_os_str(), "amber+red".as_ref(), "2".as_ref()]).answered();
    assert_eq!(asked(&other), asked(&plain));
}
