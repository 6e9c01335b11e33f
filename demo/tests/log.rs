//! A log that grows: what is told of each delivery is what its letters give, and what is wrong is refused.

mod common;
#[path = "common/days.rs"]
mod days;
#[path = "common/drawn.rs"]
mod drawn;
#[path = "common/numbers.rs"]
mod numbers;

use std::fs;
use std::path::Path;

use common::{log, repository, Folder, Told};
use numbers::{Numbers, BEGINNINGS};

const COLOURS: [(&str, &str, &str); 4] = [
    ("amber", "a", "amber"),
    ("red", "r", "red"),
    ("amber+red", "ar", "amber or red"),
    ("red+green+amber", "rga", "red, green or amber"),
];

fn asked(log_: &Path, colours: Option<&str>) -> Told {
    let arguments = [Some(log_.as_os_str()), colours.map(|colours| colours.as_ref())];
    log(&arguments.into_iter().flatten().collect::<Vec<_>>())
}

/// A log of these deliveries.
fn text_of(from: &str, deliveries: &[String]) -> String {
    let line = |letters: &String| if letters.is_empty() { "-\n".to_string() } else { format!("{letters}\n") };
    format!("from {from}\n{}", deliveries.iter().map(line).collect::<String>())
}

fn grouped(n: usize) -> String {
    if n < 1000 {
        n.to_string()
    } else {
        format!("{},{:03}", n / 1000, n % 1000)
    }
}

/// How many words the half hours take, 32 by 32: those that are mixed take one, and those that are alike one for a whole
/// run; and mixed ones at the very beginning have a marker before them.
fn words(letters: &str, held: &str) -> usize {
    let held: Vec<bool> = letters.chars().map(|letter| held.contains(letter)).collect();
    let alike = |part: &[bool]| part.iter().all(|held| *held == part[0]).then_some(part[0]);
    let parts: Vec<Option<bool>> = held.chunks(32).map(alike).collect();
    let more = parts.windows(2).filter(|pair| pair[1].is_none() || pair[0] != pair[1]).count();
    match parts.first() {
        None => 0,
        Some(None) => 2 + more,
        Some(Some(_)) => 1 + more,
    }
}

/// The last spell, found from the last letter on.
fn last_spell(letters: &str, held: &str, half_hours: &[(String, String)]) -> String {
    let Some(last) = letters.rfind(|letter| held.contains(letter)) else { return "none".to_string() };
    let first = letters[..last].rfind(|letter| !held.contains(letter)).map_or(0, |row| row + 1);
    let ((date, time), (end_date, end_time)) = (&half_hours[first], &half_hours[last + 1]);
    let end = if date == end_date { end_time.clone() } else { format!("{end_date} {end_time}") };
    let length = match last + 1 - first {
        1 => "30 min".to_string(),
        n if n % 2 == 0 => format!("{} h", grouped(n / 2)),
        n => format!("{} h 30 min", grouped(n / 2)),
    };
    let so_far = if last + 1 == letters.len() { " so far" } else { "" };
    format!("{date} {time} to {end}, {length}{so_far}")
}

/// The whole answer.
fn answer(from: &str, deliveries: &[String], (_, held, any): (&str, &str, &str)) -> String {
    let all = deliveries.concat();
    let years = days::half_hours(from, all.len(), true);
    let with_year = !years[all.len()].0.ends_with(&from[..4]);
    let half_hours = days::half_hours(from, all.len(), with_year);
    let mut cells = vec![["came", "up to", "in all", "words", &format!("last spell of {any}")].map(str::to_string)];
    let (mut so_far, mut room, mut moves) = (String::new(), 4, 0);
    for letters in deliveries {
        so_far += letters;
        let words = words(&so_far, held);
        if words > room {
            (room, moves) = (words.max(2 * room), moves + 1);
        }
        let (date, time) = &half_hours[so_far.len()];
        let spell = last_spell(&so_far, held, &half_hours);
        let used = format!("{} of {}", grouped(words), grouped(room));
        cells.push([grouped(letters.len()), format!("{date} {time}"), grouped(so_far.len()), used, spell]);
    }
    let [a, b, c, d] = [0, 1, 2, 3].map(|k| cells.iter().map(|line| line[k].len()).max().expect("a line"));
    let line = |line: &[String; 5]| {
        let [came, to, all, words, spell] = line;
        format!("  {came:>a$}  {to:<b$}  {all:>c$}  {words:>d$}  {spell}\n")
    };
    let table: String = cells.iter().map(line).collect();
    let (came, s) = (grouped(deliveries.len()), if deliveries.len() == 1 { "y" } else { "ies" });
    let ((first, first_time), (last, last_time)) = (&years[0], &years[all.len()]);
    let rows = drawn::half_hours(all.len());
    let moves = match moves {
        0 => String::new(),
        1 | 2 => format!("{} the buffer was too short", ["Once", "Twice"][moves - 1]),
        n => format!("{n} times the buffer was too short"),
    };
    let behind = " (refusal 9), and the body went on in a longer one.\n";
    let moves = if moves.is_empty() { moves } else { moves + behind };
    let n = words(&all, held);
    let damaged = match n {
        0 => String::new(),
        _ => format!(
            "\nA damaged copy, in which word 0 is 00000000, takes no half hour more:\n  number 12: these words are not \
             the body of {rows} as it was left.\n"
        ),
    };
    format!(
        "Read: {came} deliver{s}, {rows} from {first} {first_time} to {last} {last_time}.\nKept: when the tank was \
         {any}, as a body to which each delivery is appended.\n\n{table}\n{moves}All {rows} at once make the same {} \
         word{}.\n{damaged}",
        grouped(n),
        if n == 1 { "" } else { "s" }
    )
}

/// Asks the demo and holds all that it says to the letters.
fn verify(from: &str, deliveries: &[String], colours: (&str, &str, &str)) {
    let folder = Folder::new();
    let log = folder.write("log", text_of(from, deliveries));
    assert_eq!(asked(&log, Some(colours.0)).answered(), answer(from, deliveries, colours));
}

/// Deliveries of up to so many letters, which stay the same for up to so many.
fn some(numbers: &mut Numbers, deliveries: usize, most: usize, longest: usize) -> Vec<String> {
    let lengths: Vec<usize> = (0..deliveries).map(|_| numbers.below(most + 1)).collect();
    let (mut letter, mut left) = ('g', 0);
    let mut next = || {
        if left == 0 {
            (letter, left) = (['g', 'a', 'r'][numbers.below(3)], 1 + numbers.below(longest));
        }
        left -= 1;
        letter
    };
    lengths.into_iter().map(|length| (0..length).map(|_| next()).collect()).collect()
}

#[test]
fn random_deliveries() {
    let mut numbers = Numbers(90);
    for i in 0..120 {
        let (deliveries, most) = (1 + numbers.below(20), [1, 5, 50, 150][i % 4]);
        let came = some(&mut numbers, deliveries, most, [2, 20, 200][i % 3]);
        verify(BEGINNINGS[i % BEGINNINGS.len()], &came, COLOURS[i / 3 % 4]);
    }
}

#[test]
fn one_by_one() {
    let came = some(&mut Numbers(91), 1_500, 1, 30);
    verify("2025-12-25 07:30", &came, COLOURS[0]);
}

/// No half hour, and many of one colour.
#[test]
fn quiet_logs() {
    verify("2026-03-02 00:00", &["".to_string()], COLOURS[0]);
    verify("2026-03-02 00:00", &["".to_string(), "a".to_string(), "".to_string()], COLOURS[0]);
    verify("2026-03-02 00:00", &["g".repeat(17_520), "a".repeat(48)], COLOURS[0]);
    verify("2026-03-02 00:00", &["a".repeat(31), "a".to_string(), "a".repeat(9)], COLOURS[2]);
}

/// The log has the letters of tank 10 of the week, and its expected answer was written by another program.
#[test]
fn the_log_of_tank_10() {
    let log = repository("example/log.txt");
    let text = fs::read_to_string(&log).expect("the log");
    let lines: Vec<&str> = text.lines().filter(|line| !line.starts_with('#')).collect();
    assert_eq!(lines[0], "from 2026-03-02 00:00");
    let came: Vec<String> = lines[1..].iter().map(|line| line.replace('-', "")).collect();
    let week = fs::read_to_string(repository("example/week.txt")).expect("the week");
    assert!(week.contains(&format!("\ntank 10: {}\n", came.concat())));
    for colours in COLOURS {
        assert_eq!(asked(&log, Some(colours.0)).answered(), answer("2026-03-02 00:00", &came, colours));
    }
    let expected = fs::read_to_string(repository("example/log-amber.txt")).expect("the expected answer");
    assert_eq!(asked(&log, None).answered(), expected);
    assert_eq!(asked(&log, Some("amber")).answered(), expected);
}

#[test]
fn a_log_that_is_wrong() {
    let folder = Folder::new();
    let refused = |text: &str, why: &str| {
        let log = folder.write("log.txt", text);
        asked(&log, None).refused(&format!("{}{why}", log.display()));
    };
    refused("", ": no line says when the first half hour begins: add one at the top, as `from 2026-03-02 00:00`.");
    let what = "in `delivery 2` letter 3 is `b`: write g, a or r for each half hour.";
    refused("from 2026-03-02 00:00\ngg\n\nggb\n", &format!(", line 4: {what}"));
    let log = folder.write("log.txt", b"from 2026-03-02 00:00\n\xFF\n");
    asked(&log, None)
        .refused(&format!("{}, line 2: this is no text in UTF-8: save the log as such, as plain text.", log.display()));
    let none = folder.path("none.txt");
    let words = format!("{}: there is no such file: mend its name or its folder.", none.display());
    asked(&none, Some("red")).refused(&words);
    // the colours are judged first
    asked(&none, Some("blue"))
        .refused("`blue` is no colour: ask for green, amber or red, or for several, as amber+red.");
}

#[test]
fn arguments_that_are_no_question() {
    let usage = "Usage: log LOG [COLOURS].";
    log::<&str>(&[]).refused(usage);
    log(&["log.txt", "amber", "5"]).refused(usage);
}
