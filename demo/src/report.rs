//! A question on colours from its arguments to its whole answer, or to the sentence that refuses it.

use std::ffi::{OsStr, OsString};
use std::path::Path;

use zvonurel::Format;

use crate::colour::{self, Colour};
use crate::index::{bitmaps, told, Answer, Asked};
use crate::log::{Entry, Log};
use crate::number::{count, from_one_to};
use crate::{draw, file, program};

/// A log, and what is asked of it.
pub struct Question {
    pub log: Log<Colour>,
    pub colours: Vec<Colour>,
    pub t: usize,
}

pub fn report(log: &OsStr, colours: &OsStr, t: &OsStr, program: Option<&OsString>) -> Result<String, String> {
    let question = Question::read(log, colours, t)?;
    let asked = question.of_log()?;
    let answer = asked.answer().map_err(told)?;
    let compared = compared(program, &asked, &answer)?;
    Ok(question.drawn(&answer) + &compared)
}

/// What the program says to it, where one is named.
pub fn compared(program: Option<&OsString>, asked: &Asked, answer: &Answer) -> Result<String, String> {
    program.map_or(Ok(String::new()), |program| program::compare(program, asked, answer))
}

impl Question {
    pub fn read(log: &OsStr, colours: &OsStr, t: &OsStr) -> Result<Question, String> {
        let colours = colour::asked(&colours.to_string_lossy())?;
        let log: Log<Colour> = file::read(Path::new(log))?;
        let t = threshold(&t.to_string_lossy(), log.tanks.len())?;
        Ok(Question { log, colours, t })
    }

    /// The question to an index of the log itself.
    pub fn of_log(&self) -> Result<Asked, String> {
        let index = bitmaps(&self.log, Format::Ewah).map_err(told)?;
        Ok(Asked::new(Format::Ewah, index, &self.colours, self.t))
    }

    /// What was asked, and the answer as a picture and in spells.
    pub fn drawn(&self, answer: &Answer) -> String {
        let span = self.log.span();
        let (read, counted) = (read_line(&self.log), counted_line(self.log.tanks.len(), &self.colours, self.t));
        let (picture, spells) = (draw::picture(span, &answer.rows), draw::spells(span, &answer.spells));
        format!("{read}\n{counted}\n\n{picture}\n{spells}")
    }
}

/// T, which the library would let pass up to the length of the list, and that has several bitmaps of each tank.
fn threshold(text: &str, tanks: usize) -> Result<usize, String> {
    from_one_to(tanks, text).ok_or_else(|| match tanks {
        1 => "There is 1 tank, so ask for 1.".to_string(),
        _ => format!("There are {tanks} tanks, so ask for 1 to {tanks}."),
    })
}

/// What was read of a log.
pub fn read_line<E: Entry>(log: &Log<E>) -> String {
    let span = log.span();
    let (tanks, half_hours) = (count(log.tanks.len(), "tank"), count(span.rows, "half hour"));
    format!("Read: {tanks}, {half_hours} from {} to {}.", span.from.shown(true), span.end().shown(true))
}

fn counted_line(tanks: usize, colours: &[Colour], t: usize) -> String {
    let colours = colour::any_of(colours);
    match tanks {
        1 => format!("Counted: whether the 1 tank was {colours} in a half hour; shown: when it was."),
        _ => {
            format!("Counted: how many of the {tanks} tanks were {colours} in the same half hour; shown: at least {t}.")
        }
    }
}
