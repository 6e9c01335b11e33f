//! A log that grows: of each delivery the half hours of some colours are appended to one body. From the arguments to the
//! whole answer, or to the sentence that refuses it.

use std::ffi::{OsStr, OsString};
use std::path::Path;

use zvonurel::{most_body_words, AppendState, Refusal, Spell, WORD_BITS};

use crate::calendar::Span;
use crate::colour::{self, Colour};
use crate::deliveries::Deliveries;
use crate::index::told;
use crate::number::{count, grouped};
use crate::{draw, file};

/// The words of the first buffer. The next has twice as many, or as many as are needed.
const FIRST_ROOM: usize = 4;

/// Without colours amber is asked.
pub fn report(log: &OsStr, colours: Option<&OsString>) -> Result<String, String> {
    let colours = colours.map_or(Ok(vec![Colour::Amber]), |text| colour::asked(&text.to_string_lossy()))?;
    let log = file::read_deliveries(Path::new(log))?;
    let (growing, lines) = appended(&log, &colours)?;
    let same = growing.same_at_once(&held(&log.letters.concat(), &colours))?;
    let (read, table, moves) = (read_line(&log), table(&colours, lines), growing.moves_line());
    let (any, damaged) = (colour::any_of(&colours), growing.damaged()?);
    let kept = format!("Kept: when the tank was {any}, as a body to which each delivery is appended.");
    Ok(format!("{read}\n{kept}\n\n{table}\n{moves}{same}{damaged}"))
}

fn read_line(log: &Deliveries) -> String {
    let (span, half_hours) = (log.span(), count(log.span().rows, "half hour"));
    let deliveries = match log.letters.len() {
        1 => "1 delivery".to_string(),
        n => format!("{} deliveries", grouped(n)),
    };
    format!("Read: {deliveries}, {half_hours} from {} to {}.", span.from.shown(true), span.end().shown(true))
}

/// Of each half hour whether it has one of the colours.
fn held(letters: &[Colour], colours: &[Colour]) -> Vec<bool> {
    letters.iter().map(|letter| colours.contains(letter)).collect()
}

/// Half hours as plain words, the first as the lowest bit.
fn plain_words(held: &[bool]) -> Vec<u32> {
    let word = |part: &[bool]| part.iter().rev().fold(0, |word, held| 2 * word + u32::from(*held));
    held.chunks(WORD_BITS).map(word).collect()
}

/// What is told of a delivery: how many half hours came, up to when; how many there are, in how many words of the
/// buffer; and the last spell.
type Line = [String; 5];

/// Appends one delivery after the other, and tells of each.
fn appended(log: &Deliveries, colours: &[Colour]) -> Result<(Growing, Vec<Line>), String> {
    let (mut growing, mut so_far, mut lines) = (Growing::new(), Vec::new(), Vec::new());
    for letters in &log.letters {
        let came = held(letters, colours);
        growing.append(&came).map_err(told)?;
        so_far.extend_from_slice(&came);
        let (rows, words) = (so_far.len(), growing.body().len());
        let spell = growing.last_spell(&so_far).map_err(|why| format!("Delivery {}: {why}", lines.len() + 1))?;
        let until = log.span().moment(rows).shown(log.span().with_year());
        let used = format!("{} of {}", grouped(words), grouped(growing.buffer.len()));
        lines.push([grouped(came.len()), until, grouped(rows), used, shown(log.span(), rows, spell)]);
    }
    Ok((growing, lines))
}

/// One that goes up to the last half hour may go on.
fn shown(span: Span, rows: usize, spell: Option<Spell>) -> String {
    spell.map_or("none".to_string(), |spell| {
        let goes_on = if spell.rows().end as usize == rows { " so far" } else { "" };
        draw::spell(span, &spell) + goes_on
    })
}

/// The lines in columns, below what each column is.
fn table(colours: &[Colour], lines: Vec<Line>) -> String {
    let spell = format!("last spell of {}", colour::any_of(colours));
    let mut cells = vec![["came", "up to", "in all", "words", &spell].map(str::to_string)];
    cells.extend(lines);
    let widest = |column: usize| cells.iter().map(|line| line[column].len()).max().unwrap_or(0);
    let [came, to, all, words] = [0, 1, 2, 3].map(widest);
    let line = |[a, b, c, d, e]: &Line| format!("  {a:>came$}  {b:to$}  {c:>all$}  {d:>words$}  {e}\n");
    cells.iter().map(line).collect()
}

/// What is kept from one delivery to the next: the writer's state, and a buffer that begins with the body.
struct Growing {
    state: AppendState,
    buffer: Vec<u32>,
    /// How often it was moved to a longer buffer.
    moves: usize,
}

impl Growing {
    fn new() -> Growing {
        let buffer = vec![0; FIRST_ROOM];
        Growing { state: zvonurel::begin(&buffer), buffer, moves: 0 }
    }

    /// Appends a delivery. Where there is no room for it nothing has changed, and it is appended in a longer buffer.
    fn append(&mut self, came: &[bool]) -> Result<(), Refusal> {
        // no more than a log may have
        let (rows, plain) = (came.len() as u32, plain_words(came));
        match zvonurel::append(&mut self.state, &mut self.buffer, rows, &plain) {
            Err(refusal) if refusal.number == Refusal::NO_ROOM => {
                self.move_on(refusal.word as usize);
                zvonurel::append(&mut self.state, &mut self.buffer, rows, &plain).map(|_| ())
            }
            told => told.map(|_| ()),
        }
    }

    /// The same body in a longer buffer, which has room for so many words: its words are copied, and of the state the
    /// buffer's length alone is another.
    fn move_on(&mut self, words: usize) {
        let mut longer = vec![0; words.max(2 * self.buffer.len())];
        longer[..self.body().len()].copy_from_slice(self.body());
        self.state.room = longer.len() as u64;
        self.buffer = longer;
        self.moves += 1;
    }

    /// One line on the moves; nothing if there were none.
    fn moves_line(&self) -> String {
        let often = match self.moves {
            0 => return String::new(),
            1 => "Once".to_string(),
            2 => "Twice".to_string(),
            n => format!("{n} times"),
        };
        format!("{often} the buffer was too short (refusal 9), and the body went on in a longer one.\n")
    }

    fn rows(&self) -> u32 {
        self.state.rows as u32
    }

    fn body(&self) -> &[u32] {
        &self.buffer[..self.state.words as usize]
    }

    /// The last spell of the body, which must have the half hours of the log, and no other.
    fn last_spell(&self, so_far: &[bool]) -> Result<Option<Spell>, String> {
        let logged = (0..).zip(so_far).filter(|(_, held)| **held).map(|(row, _)| row);
        let listed = zvonurel::set_rows(self.body(), self.rows()).map_err(told)?;
        if self.rows() as usize != so_far.len() || !listed.eq(logged) {
            return Err("the body has other half hours than the log. Build the library anew, with `build`.".to_string());
        }
        Ok(zvonurel::spells(self.body(), self.rows()).map_err(told)?.last())
    }

    /// One line that says that all half hours at once make the same words.
    fn same_at_once(&self, all: &[bool]) -> Result<String, String> {
        let mut body = vec![0; most_body_words(self.rows())];
        let words = zvonurel::compress(self.rows(), &plain_words(all), &mut body).map_err(told)?;
        match body[..words] == *self.body() {
            true => {
                Ok(format!("All {} at once make the same {}.\n", count(all.len(), "half hour"), count(words, "word")))
            }
            false => Err("All half hours at once make other words. Build the library anew, with `build`.".to_string()),
        }
    }

    /// What is said of a copy whose first marker counts nothing; there may be no marker.
    fn damaged(&self) -> Result<String, String> {
        if self.body().is_empty() {
            return Ok(String::new());
        }
        let mut copy = Growing { state: self.state, buffer: self.buffer.clone(), moves: 0 };
        copy.buffer[0] = 0;
        match copy.append(&[false]) {
            Err(refusal) if refusal.number == Refusal::STATE_MISMATCH => Ok(format!(
                "\nA damaged copy, in which word 0 is 00000000, takes no half hour more:\n  number 12: these words are \
                 not the body of {} as it was left.\n",
                count(self.rows() as usize, "half hour")
            )),
            _ => Err("The library goes on with a damaged body. Build it anew, with `build`.".to_string()),
        }
    }
}

#[cfg(test)]
mod tests {
    use super::*;
    use crate::calendar::Moment;

    fn grown(deliveries: &[&[bool]]) -> Growing {
        let mut growing = Growing::new();
        deliveries.iter().for_each(|came| growing.append(came).expect("a delivery"));
        growing
    }

    #[test]
    fn half_hours_are_bits_from_the_lowest_on() {
        let mut held = vec![false; 40];
        (held[0], held[31], held[39]) = (true, true, true);
        assert_eq!(plain_words(&held), [0x8000_0001, 0x80]);
        assert!(plain_words(&[]).is_empty());
    }

    /// Rows 0 and 39 of 40, and then more than twice the buffer's words.
    #[test]
    fn a_body_goes_on_in_a_longer_buffer() {
        let mut growing = grown(&[&[true], &[false; 38], &[], &[true]]);
        assert_eq!((growing.body(), growing.rows(), growing.buffer.len()), (&[0x40000, 0x1, 0x80][..], 40, 4));
        growing.append(&[true; 60]).expect("a delivery");
        assert_eq!((growing.body(), growing.buffer.len()), (&[0x40000, 0x1, 0xFFFF_FF80, 0x5][..], 4));
        growing.append(&[false]).expect("a delivery");
        assert_eq!((growing.body(), growing.state.room), (&[0x40000, 0x1, 0xFFFF_FF80, 0x20003, 0xF][..], 8));
        let mixed: Vec<bool> = (0..32 * 20).map(|row| row % 3 == 0).collect();
        growing.append(&mixed).expect("a delivery");
        // a run of one segment, and 21 dirty words
        assert_eq!((growing.body().len(), growing.buffer.len()), (25, 25));
        assert_eq!(growing.buffer[..4], [0x40000, 0x1, 0xFFFF_FF80, 0x2A_0003]);
        let line = "the buffer was too short (refusal 9), and the body went on in a longer one.\n";
        let said = [1, 2, 3].map(|moves| Growing { moves, ..Growing::new() }.moves_line());
        assert_eq!((growing.moves, said), (2, ["Once", "Twice", "3 times"].map(|often| format!("{often} {line}"))));
        assert_eq!(Growing::new().moves_line(), "");
    }

    #[test]
    fn a_body_that_is_not_that_of_the_log_is_told() {
        let growing = grown(&[&[true, false]]);
        assert_eq!(growing.last_spell(&[true, false]), Ok(Some(Spell { first: 0, length: 1 })));
        assert_eq!(grown(&[&[false]]).last_spell(&[false]), Ok(None));
        for other in [&[true, true][..], &[false, false], &[true], &[true, false, false]] {
            let why = "the body has other half hours than the log. Build the library anew, with `build`.";
            assert_eq!(growing.last_spell(other), Err(why.to_string()));
        }
        assert!(growing.same_at_once(&[true, true]).is_err());
        assert_eq!(
            growing.same_at_once(&[true, false]),
            Ok("All 2 half hours at once make the same 2 words.\n".into())
        );
        assert_eq!(Growing::new().same_at_once(&[]), Ok("All 0 half hours at once make the same 0 words.\n".into()));
    }

    #[test]
    fn a_damaged_body_is_not_gone_on_with() {
        let expected = "\nA damaged copy, in which word 0 is 00000000, takes no half hour more:\n  number 12: these \
                        words are not the body of 2 half hours as it was left.\n";
        assert_eq!(grown(&[&[true, false]]).damaged(), Ok(expected.to_string()));
        assert_eq!(grown(&[&[]]).damaged(), Ok(String::new()));
    }

    #[test]
    fn a_spell_up_to_the_last_half_hour_may_go_on() {
        let span = Span { from: Moment::read("2026-03-02", "22:30").expect("a half hour"), rows: 9 };
        let spell = Some(Spell { first: 1, length: 3 });
        assert_eq!(shown(span, 5, spell), "Mon 2 Mar 23:00 to Tue 3 Mar 00:30, 1 h 30 min");
        assert_eq!(shown(span, 4, spell), "Mon 2 Mar 23:00 to Tue 3 Mar 00:30, 1 h 30 min so far");
        assert_eq!(shown(span, 4, None), "none");
    }
}
