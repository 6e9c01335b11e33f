//! The log of one tank as it came in, taken only if all of it is right.
//!
//! ```text
//! # what begins with # is passed over, and so is an empty line
//! from 2026-03-02 00:00
//! ggga
//! aa
//! -
//! rrrag
//! ```
//!
//! First the date and time of the first half hour; then a line for each delivery: the letters of the half hours since the
//! one before, as one word, or a dash where none came. White space at a line's ends is passed over, as is a byte order
//! mark before the first line.

use crate::calendar::{Moment, Span};
use crate::colour::Colour;
use crate::log::{beginning, Entry, Fault, Head, NO_BEGINNING};
use crate::number::grouped;

/// A delivery in which no half hour came.
const NOTHING: &str = "-";

/// When the log begins, and the letters of its deliveries, one or more of them.
pub struct Deliveries {
    from: Moment,
    pub letters: Vec<Vec<Colour>>,
}

impl Deliveries {
    pub fn read(text: &str) -> Result<Deliveries, Fault> {
        let mut draft = Draft { from: None, letters: Vec::new(), rows: 0 };
        let text = text.strip_prefix('\u{feff}').unwrap_or(text);
        for (text, line) in text.lines().zip(1..) {
            draft.take(line, text).map_err(|what| Fault { line: Some(line), what })?;
        }
        draft.finish().map_err(|what| Fault { line: None, what })
    }

    /// The half hours of all deliveries.
    pub fn span(&self) -> Span {
        Span { from: self.from, rows: self.letters.iter().map(Vec::len).sum() }
    }
}

/// What was taken of a log's lines so far.
struct Draft {
    from: Option<Head<Moment>>,
    letters: Vec<Vec<Colour>>,
    rows: usize,
}

impl Draft {
    fn take(&mut self, line: usize, text: &str) -> Result<(), String> {
        match text.split_whitespace().collect::<Vec<_>>()[..] {
            [] => Ok(()),
            [first, ..] if first.starts_with('#') => Ok(()),
            ["from", ref rest @ ..] => {
                self.from = Some(beginning(&self.from, line, rest)?);
                Ok(())
            }
            [NOTHING] => self.take_letters(""),
            _ => self.take_letters(text),
        }
    }

    /// No delivery is taken before the head line is there.
    fn take_letters(&mut self, text: &str) -> Result<(), String> {
        self.from.ok_or(NO_BEGINNING)?;
        let letters = Colour::read(&format!("delivery {}", grouped(self.letters.len() + 1)), text)?;
        self.rows += letters.len();
        if self.rows > Colour::MOST_ROWS {
            return Err(format!(
                "with this delivery there are {} letters, and {} are the most that can be asked: split the log by time.",
                grouped(self.rows),
                grouped(Colour::MOST_ROWS)
            ));
        }
        self.letters.push(letters);
        Ok(())
    }

    fn finish(self) -> Result<Deliveries, String> {
        let from = self.from.ok_or(NO_BEGINNING)?.said;
        match self.letters.is_empty() {
            true => Err(format!(
                "there is no delivery: write the letters of each on a line, as `{}`, or {NOTHING} where none came.",
                Colour::EXAMPLE
            )),
            false => Ok(Deliveries { from, letters: self.letters }),
        }
    }
}

#[cfg(test)]
mod tests {
    use super::*;
    use Colour::{Amber, Green, Red};

    const HEAD: &str = "from 2026-03-02 23:30\n";

    fn refused(text: &str, line: Option<usize>, what: &str) {
        let fault = Deliveries::read(text).err().unwrap_or_else(|| panic!("{text:?} was taken"));
        assert_eq!((fault.line, fault.what.as_str()), (line, what), "{text:?}");
    }

    #[test]
    fn each_line_is_a_delivery() {
        let log = Deliveries::read(&format!("\u{feff}# a log\n\n{HEAD}  gar \r\n-\n # more\na\n-")).expect("a log");
        assert_eq!(log.letters, [vec![Green, Amber, Red], vec![], vec![Amber], vec![]]);
        let span = log.span();
        assert_eq!((span.from.shown(true).as_str(), span.rows), ("Mon 2 Mar 2026 23:30", 4));
        assert_eq!(Deliveries::read(&format!("{HEAD}-")).expect("a log").span().rows, 0);
    }

    #[test]
    fn the_head_comes_first_and_once() {
        refused("", None, NO_BEGINNING);
        refused("gga\n", Some(1), NO_BEGINNING);
        refused("-\nfrom 2026-03-02 23:30\n", Some(1), NO_BEGINNING);
        refused(&format!("{HEAD}gga\n{HEAD}"), Some(3), "`from` stands on line 1 already: keep one of the two.");
        let form = "write it as `from 2026-03-02 00:00`.";
        refused("from today\n", Some(1), &format!("`from` takes a date and a time: {form}"));
        refused("from 2026-02-29 00:00\n", Some(1), &format!("`2026-02-29` is no date: {form}"));
        let what = format!("the year of `1899-12-31` is not one from 1900 to 2199: {form}");
        refused("from 1899-12-31 00:00\n", Some(1), &what);
    }

    #[test]
    fn other_letters_are_refused_with_their_delivery() {
        let letter = "letter 2 is `x`: write g, a or r for each half hour.";
        refused(&format!("{HEAD}gga\n-\ngx\n"), Some(4), &format!("in `delivery 3` {letter}"));
        let parts = "stand in 2 parts: write them as one word.";
        refused(&format!("{HEAD}gga gg\n"), Some(2), &format!("the letters of `delivery 1` {parts}"));
        refused(&format!("{HEAD}- -\n"), Some(2), &format!("the letters of `delivery 1` {parts}"));
        let dash = "letter 2 is `-`: write g, a or r for each half hour.";
        refused(&format!("{HEAD}g-\n"), Some(2), &format!("in `delivery 1` {dash}"));
    }

    #[test]
    fn there_is_a_delivery() {
        let what = "there is no delivery: write the letters of each on a line, as `gga`, or - where none came.";
        refused(HEAD, None, what);
        refused(&format!("{HEAD}# gga\n"), None, what);
    }

    #[test]
    fn letters_are_no_more_than_those_of_three_centuries() {
        let most = "g".repeat(Colour::MOST_ROWS - 1);
        let log = Deliveries::read(&format!("{HEAD}{most}\n-\ng\n")).expect("a log");
        assert_eq!(log.span().rows, Colour::MOST_ROWS);
        let what =
            "with this delivery there are 5,270,401 letters, and 5,270,400 are the most that can be asked: split \
                    the log by time.";
        refused(&format!("{HEAD}{most}\ng\n-\ng\n"), Some(5), what);
    }
}
