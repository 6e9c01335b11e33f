//! A station's log, taken only if all of it is right.
//!
//! ```text
//! # what begins with # is passed over, and so is an empty line
//! tanks 2
//! from 2026-03-02 00:00
//! tank 1: gggaaaarrg
//! tank 2: ggggggaagg
//! ```
//!
//! First the number of tanks and the date and time of the first half hour, each once; then a line for each tank: its
//! name, a colon, and an entry for each half hour. Entries are letters, as one word, or readings with white space
//! between them, which may go on in the lines below. White space at a line's ends is passed over, as is a byte order
//! mark before the first line. Every tank has another name, and times are those of a clock that is never put forward or
//! back.

use std::ops::RangeInclusive;

use crate::calendar::{Moment, Span};
use crate::name::Name;
use crate::number::{count, from_one_to, grouped};
use crate::text::printable;

/// A year before or behind these was typed wrongly.
const YEARS: RangeInclusive<usize> = 1900..=2199;

/// What a log says of a tank in a half hour.
pub trait Entry: Sized {
    /// What one is called, and several with an s.
    const NAME: &'static str;
    /// Some, as a line has them.
    const EXAMPLE: &'static str;
    /// One for a half hour, or what stands for none.
    const EACH: &'static str;
    /// A number of tanks for an example.
    const TANKS: usize;
    const MOST_TANKS: usize;
    /// The most half hours.
    const MOST_ROWS: usize;
    /// The most bytes that one takes, with what parts it from the next.
    const MOST_BYTES: usize;
    /// Whether a line without a colon goes on with the entries of the tank above it.
    const GOES_ON: bool;

    /// The entries of a tank that stand in a line, or what is wrong with one.
    fn read(tank: &str, text: &str) -> Result<Vec<Self>, String>;
}

/// When the log begins, and its tanks: one or more, all with as many entries, one or more.
pub struct Log<E> {
    from: Moment,
    pub tanks: Vec<Tank<E>>,
}

pub struct Tank<E> {
    pub name: Name,
    /// The line of the log that its name stands on.
    line: usize,
    pub entries: Vec<E>,
}

/// What is wrong and what to do, and the line where there is one.
#[derive(Debug, PartialEq, Eq)]
pub struct Fault {
    pub line: Option<usize>,
    pub what: String,
}

impl<E: Entry> Log<E> {
    pub fn read(text: &str) -> Result<Log<E>, Fault> {
        let mut draft = Draft { count: None, from: None, tanks: Vec::new() };
        let text = text.strip_prefix('\u{feff}').unwrap_or(text);
        for (line, number) in text.lines().zip(1..) {
            draft.take(number, line)?;
        }
        draft.finish()
    }

    /// Its half hours.
    pub fn span(&self) -> Span {
        Span { from: self.from, rows: self.tanks[0].entries.len() }
    }
}

/// What a head line says, and its number.
#[derive(Clone, Copy)]
pub struct Head<T> {
    pub line: usize,
    pub said: T,
}

/// What was taken of a log's lines so far.
struct Draft<E> {
    count: Option<Head<usize>>,
    from: Option<Head<Moment>>,
    tanks: Vec<Tank<E>>,
}

impl<E: Entry> Draft<E> {
    /// A tank has all its entries once a line comes that does not go on with them.
    fn take(&mut self, line: usize, text: &str) -> Result<(), Fault> {
        let words: Vec<&str> = text.split_whitespace().collect();
        let taken = match words.as_slice() {
            [] => Ok(()),
            [first, ..] if first.starts_with('#') => Ok(()),
            [first, ..] if self.goes_on(first, text) => self.take_more(text),
            words => {
                self.check_last()?;
                match words {
                    ["tanks", rest @ ..] => self.take_count(line, &rest.join(" ")),
                    ["from", rest @ ..] => self.take_from(line, rest),
                    _ => self.take_tank(line, text),
                }
            }
        };
        taken.map_err(|what| Fault { line: Some(line), what })
    }

    /// Whether a line has more entries of the last tank: it is no head line, and has no colon.
    fn goes_on(&self, first: &str, text: &str) -> bool {
        E::GOES_ON && !self.tanks.is_empty() && !["tanks", "from"].contains(&first) && !text.contains(':')
    }

    fn take_count(&mut self, line: usize, text: &str) -> Result<(), String> {
        once("tanks", &self.count)?;
        let said = from_one_to(E::MOST_TANKS, text).ok_or_else(|| {
            let (text, most, tanks) = (printable(text), E::MOST_TANKS, E::TANKS);
            format!(
                "`{text}` is no number of tanks from 1 to {most}: write it as `tanks {tanks}`, and share more tanks \
                 among several logs."
            )
        })?;
        self.count = Some(Head { line, said });
        Ok(())
    }

    fn take_from(&mut self, line: usize, words: &[&str]) -> Result<(), String> {
        self.from = Some(beginning(&self.from, line, words)?);
        Ok(())
    }

    /// No tank is taken before both head lines are there.
    fn take_tank(&mut self, line: usize, text: &str) -> Result<(), String> {
        let (count, _) = self.heads()?;
        let (name, entries) = text.split_once(':').ok_or_else(|| {
            let (entry, example) = (E::NAME, E::EXAMPLE);
            format!("this line has no colon: write a tank's name, a colon and its {entry}s, as `tank 1: {example}`.")
        })?;
        let name = Name::read(name)?;
        if self.tanks.len() == count.said {
            let (extra, Head { line, said }) = (count.said + 1, count);
            return Err(format!(
                "this is tank {extra}, and line {line} says `tanks {said}`: take out what is too many, or mend the \
                 number."
            ));
        }
        if let Some(Tank { name: Name { text, .. }, line, .. }) = self.tanks.iter().find(|tank| tank.name.same(&name)) {
            let otherwise = if *text == name.text { String::new() } else { format!(", as `{text}`") };
            return Err(format!(
                "`{}` stands on line {line} already{otherwise}: mend the name, or take one of the two out.",
                name.text
            ));
        }
        let entries = E::read(&name.text, entries)?;
        self.tanks.push(Tank { name, line, entries });
        Ok(())
    }

    fn take_more(&mut self, text: &str) -> Result<(), String> {
        if let Some(Tank { name, entries, .. }) = self.tanks.last_mut() {
            entries.extend(E::read(&name.text, text)?);
        }
        Ok(())
    }

    /// The last tank has entries, no more of them than can be asked, and as many as the first.
    fn check_last(&self) -> Result<(), Fault> {
        let Some((last, first)) = self.tanks.last().zip(self.tanks.first()) else { return Ok(()) };
        let (name, length) = (&last.name.text, last.entries.len());
        let (entry, shown) = (E::NAME, count(length, E::NAME));
        let what = match length {
            0 => format!(
                "`{name}` has no {entry}s: write one for each half hour behind the colon, as `{name}: {}`.",
                E::EXAMPLE
            ),
            _ if length > E::MOST_ROWS => format!(
                "`{name}` has {shown}, and {} are the most that can be asked: split the log by time.",
                grouped(E::MOST_ROWS)
            ),
            _ if length != first.entries.len() => format!(
                "`{name}` has {shown}, and `{}` on line {} has {}: give each tank {} for every half hour.",
                first.name.text,
                first.line,
                grouped(first.entries.len()),
                E::EACH
            ),
            _ => return Ok(()),
        };
        Err(Fault { line: Some(last.line), what })
    }

    fn heads(&self) -> Result<(Head<usize>, Head<Moment>), String> {
        let count = self.count.ok_or_else(|| {
            format!("no line says how many tanks there are: add one at the top, as `tanks {}`.", E::TANKS)
        })?;
        Ok((count, self.from.ok_or(NO_BEGINNING)?))
    }

    fn finish(self) -> Result<Log<E>, Fault> {
        self.check_last()?;
        let (Head { line, said }, from) = self.heads().map_err(|what| Fault { line: None, what })?;
        if self.tanks.len() < said {
            let there = count(self.tanks.len(), "tank");
            let what = format!(
                "this says `tanks {said}`, and the log has {there}: add the lines that are missing, or mend the number."
            );
            return Err(Fault { line: Some(line), what });
        }
        Ok(Log { from: from.said, tanks: self.tanks })
    }
}

/// Where no line has told it.
pub const NO_BEGINNING: &str =
    "no line says when the first half hour begins: add one at the top, as `from 2026-03-02 00:00`.";

/// What a line says of when the first half hour begins, the words behind `from`, unless one said it before.
pub fn beginning(before: &Option<Head<Moment>>, line: usize, words: &[&str]) -> Result<Head<Moment>, String> {
    const FORM: &str = "write it as `from 2026-03-02 00:00`";
    once("from", before)?;
    let [date, time] = words else { return Err(format!("`from` takes a date and a time: {FORM}.")) };
    let said = Moment::read(date, time).map_err(|what| format!("{what}: {FORM}."))?;
    if !YEARS.contains(&said.date().year) {
        let (first, last) = (YEARS.start(), YEARS.end());
        return Err(format!("the year of `{date}` is not one from {first} to {last}: {FORM}."));
    }
    Ok(Head { line, said })
}

fn once<T>(word: &str, before: &Option<Head<T>>) -> Result<(), String> {
    match before {
        Some(Head { line, .. }) => Err(format!("`{word}` stands on line {line} already: keep one of the two.")),
        None => Ok(()),
    }
}

#[cfg(test)]
mod tests {
    use super::*;
    use crate::colour::Colour;

    type Letters = Log<Colour>;

    const HEAD: &str = "tanks 2\nfrom 2026-03-02 23:30\n";

    fn log(tanks: &str) -> Result<Letters, Fault> {
        Log::read(&format!("{HEAD}{tanks}"))
    }

    /// A refusal at this line that begins so.
    fn refused(text: &str, line: Option<usize>, begins: &str) {
        let fault = Letters::read(text).err().unwrap_or_else(|| panic!("{text:?} was taken"));
        assert_eq!(fault.line, line, "{text:?}: {}", fault.what);
        assert!(fault.what.starts_with(begins), "{text:?}: {}", fault.what);
        assert!(fault.what.ends_with('.'), "{text:?}: {}", fault.what);
    }

    #[test]
    fn names_letters_and_times_are_read() {
        let log = log("tank 1: gar\n# a remark\n\n tank\t2\u{a0} : rrg \r\n").expect("a log");
        assert_eq!((log.span().rows, log.tanks.len()), (3, 2));
        assert_eq!(log.tanks[0].entries, Colour::ALL);
        assert_eq!((log.tanks[1].name.text.as_str(), log.tanks[1].line), ("tank 2", 6));
        assert_eq!(log.from.shown(true), "Mon 2 Mar 2026 23:30");
        assert_eq!(log.span().end().shown(true), "Tue 3 Mar 2026 01:00");
    }

    #[test]
    fn head_lines_may_stand_in_either_order_and_behind_a_mark() {
        let log = Letters::read("\u{feff}# remark\r\nfrom 2026-03-02 00:00\r\n  tanks   1\r\npond:g").expect("a log");
        assert_eq!((log.span().rows, log.tanks[0].name.text.as_str()), (1, "pond"));
        refused("tanks 1\n\u{feff}from 2026-03-02 00:00\npond: g\n", Some(2), "no line says when");
    }

    #[test]
    fn head_lines_are_needed_once() {
        refused("", None, "no line says how many tanks");
        refused("tanks 1\n", None, "no line says when");
        refused("from 2026-03-02 00:00\npond: g\ntanks 1\n", Some(2), "no line says how many tanks");
        refused("tanks 1\npond: g\nfrom 2026-03-02 00:00\n", Some(2), "no line says when");
        refused("tanks 1\n\ntanks 1\n", Some(3), "`tanks` stands on line 1 already");
        refused(&format!("{HEAD}from 2026-03-02 23:30"), Some(3), "`from` stands on line 2 already");
        refused(&format!("{HEAD}pond 1: g\npond 2: g\ntanks 2"), Some(5), "`tanks` stands on line 1 already");
    }

    #[test]
    fn head_lines_say_what_there_is() {
        for text in ["0", "86", "-1", "+1", "01", "1.5", "x", "1 1", "4294967297"] {
            let begins = format!("`{text}` is no number of tanks from 1 to 85");
            refused(&format!("tanks {text}"), Some(1), &begins);
        }
        refused("tanks", Some(1), "`` is no number of tanks");
        for text in ["", " Mon", " 2026-03-02", " 2026-03-02 00:00 h"] {
            refused(&format!("from{text}"), Some(1), "`from` takes a date and a time: write it as `from 2026-03-02");
        }
        refused("from 2026-02-30 00:00", Some(1), "`2026-02-30` is no date: write it as `from 2026-03-02");
        for year in ["0026", "1899", "2200"] {
            let begins = format!("the year of `{year}-03-02` is not one from 1900 to 2199");
            refused(&format!("from {year}-03-02 00:00"), Some(1), &begins);
        }
        refused("from 2026-02-03 00:15", Some(1), "`00:15` is none of the times");
        refused("from 2026-02-03 24:00", Some(1), "`24:00` is none of the times");
    }

    #[test]
    fn as_many_tanks_as_said_are_taken() {
        refused(HEAD, Some(1), "this says `tanks 2`, and the log has 0 tanks");
        refused(&format!("{HEAD}t1: g\n"), Some(1), "this says `tanks 2`, and the log has 1 tank:");
        refused(&format!("{HEAD}t1: g\nt2: g\n\nt3: g\n"), Some(6), "this is tank 3, and line 1 says `tanks 2`");
    }

    #[test]
    fn a_name_is_there_and_stands_once() {
        refused(&format!("{HEAD}tank  1: g\ntank 1\t: g\n"), Some(4), "`tank 1` stands on line 3 already: mend");
        refused(&format!("{HEAD}Tank 1: g\ntank01: g\n"), Some(4), "`tank01` stands on line 3 already, as `Tank 1`:");
        refused(&format!("{HEAD}: ggar\n"), Some(3), "this tank has no name");
        refused(&format!("{HEAD}tank 1\u{200b}: g\n"), Some(3), "the name has `\\u{200b}`");
        refused(&format!("{HEAD}tank 1 ggar\n"), Some(3), "this line has no colon: write a tank's name");
    }

    #[test]
    fn every_tank_has_as_many_letters() {
        let what = "`t2` has 2 letters, and `t1` on line 3 has 3: give each tank";
        refused(&format!("{HEAD}t1: ggg\nt2: gg"), Some(4), what);
        refused(&format!("{HEAD}t1: gg\nt2: g"), Some(4), "`t2` has 1 letter, and `t1` on line 3 has 2");
        refused(&format!("{HEAD}t1: gg\nt2: ggg"), Some(4), "`t2` has 3 letters, and `t1` on line 3 has 2");
    }

    #[test]
    fn every_tank_has_letters() {
        for line in ["tank1:", "tank1 : "] {
            refused(&format!("{HEAD}{line}\n"), Some(3), "`tank1` has no letters: write one");
            refused(&format!("{HEAD}{line}\ntank 2: x\n"), Some(3), "`tank1` has no letters: write one");
        }
    }

    #[test]
    fn letters_are_no_more_than_those_of_three_centuries() {
        let most = "g".repeat(Colour::MOST_ROWS);
        let log = Letters::read(&format!("tanks 1\nfrom 2026-03-02 23:30\nt1: {most}")).expect("a log");
        assert_eq!(log.span().rows, most.len());
        refused(&format!("{HEAD}t1: {most}g"), Some(3), "`t1` has 5,270,401 letters, and 5,270,400 are the most");
    }

    /// A line without a colon is no part of a tank's letters, and what is wrong above it is told first.
    #[test]
    fn letters_do_not_go_on() {
        refused(
            &format!("{HEAD}t1: gg\ngg\n"),
            Some(4),
            "this line has no colon: write a tank's name, a colon and its",
        );
        refused(&format!("{HEAD}t1:\ngg\n"), Some(3), "`t1` has no letters");
        refused(&format!("{HEAD}t1: gg\nt2: g\ntanks 2\n"), Some(4), "`t2` has 1 letter");
    }
}
