//! One half hour of a tank: for each colour whether the tank had it then, the piece of its bitmap in which that is
//! written, and beside the piece the spell. From the arguments to the whole answer, or to the sentence that refuses it.
//!
//! A piece is about the writing. In a run every half hour is as the one that is asked for, and those beside the run may
//! be so too; in a mixed word they differ. How long it was so is told by the spell alone, which is found from the half
//! hours themselves.

use std::ffi::OsString;
use std::path::Path;

use zvonurel::{Format, Refusal, Row};

use crate::calendar::Span;
use crate::colour::{self, Colour};
use crate::draw::length;
use crate::index::{bitmap_of, bitmaps, told};
use crate::log::{Log, Tank};
use crate::number::count;
use crate::report::read_line;
use crate::{archive, file, named};

/// So that nobody takes a piece for a spell.
const CLOSING: &str = "
Where it is written does not tell how long it was so. In a run all half hours are alike, and those beside it may be like
them; in a mixed word they differ. The spell tells it: it was found half hour by half hour, as far as the log goes.
";

/// Without colours each is asked, and without an archive the log alone.
pub fn report(
    [log, tank, date, time]: [&OsString; 4],
    colours: Option<&OsString>,
    archive: Option<&OsString>,
) -> Result<String, String> {
    let time = named::moment([date, time])?;
    let colours = colours.map_or(Ok(Colour::ALL.to_vec()), |text| colour::asked(&text.to_string_lossy()))?;
    let log: Log<Colour> = file::read(Path::new(log))?;
    let archive = archive.map(|archive| archive::read(archive, &log)).transpose()?;
    let (tank, row) = (named::tank(&log, tank)?, named::row(log.span(), time)?);
    let own = bitmaps(&log, Format::Ewah).map_err(told)?;
    let mut lines = Vec::new();
    for colour in colours {
        let (held, bitmap) = (Held::new(&log.tanks[tank], colour, row), bitmap_of(tank, colour));
        let mut answers = vec![held.answer(Format::Ewah, &own, bitmap)?];
        if let Some(archive) = &archive {
            held.same_in(archive, bitmap, log.span())?;
            answers.push(held.answer(Format::Wah, archive, bitmap)?);
        }
        lines.extend(held.lines(&answers));
    }
    let archive = archive.map_or(String::new(), |archive| archive::sound_line(&archive) + "\n");
    let (read, table) = (read_line(&log), table(log.span(), &lines));
    let (name, time) = (&log.tanks[tank].name.text, time.shown(true));
    let asked = format!("Asked: {name} in the half hour {time}. A half hour is named by when it begins.");
    Ok(format!("{archive}{read}\n{asked}\n\n{table}{CLOSING}"))
}

/// Which half hours of a tank have a colour, and the row of the one that is asked for.
struct Held<'a> {
    tank: &'a str,
    colour: Colour,
    held: Vec<bool>,
    row: usize,
}

/// A line of the answer, and the first and the last half hour of what it tells.
struct Line {
    text: String,
    rows: Option<[usize; 2]>,
}

impl Held<'_> {
    fn new(tank: &Tank<Colour>, colour: Colour, row: usize) -> Held<'_> {
        let held = tank.entries.iter().map(|letter| *letter == colour).collect();
        Held { tank: &tank.name.text, colour, held, row }
    }

    /// What the library says of the row, by its bitmap in an index.
    fn answer(&self, format: Format, index: &[u32], bitmap: u32) -> Result<(Format, Row), String> {
        let answer = zvonurel::row(index, bitmap, self.row as u32).map_err(told)?;
        self.bears_out(format, answer)?;
        Ok((format, answer))
    }

    /// Whether the bitmap of an archive has the half hours of the log.
    fn same_in(&self, archive: &[u32], bitmap: u32, span: Span) -> Result<(), String> {
        let logged = (0..).zip(&self.held).filter(|(_, held)| **held).map(|(row, _)| row);
        let archived = set_rows(archive, bitmap).map_err(told)?;
        archive::same(span, &archived, &logged.collect::<Vec<_>>())
            .map_err(|why| format!("{}, {}, {why}", self.tank, self.colour.name()))
    }

    /// The row is as the answer says and lies in its piece, and a piece of more rows than a segment has them all alike.
    fn bears_out(&self, format: Format, answer: Row) -> Result<(), String> {
        let [first, last] = piece(answer);
        let there = (first..=last).contains(&self.row) && last < self.held.len();
        let right = there && answer.set == self.held[self.row];
        if right && (last - first < format.segment_rows() || self.alike([first, last])) {
            return Ok(());
        }
        let (tank, colour, row) = (self.tank, self.colour.name(), self.row);
        Err(format!(
            "{tank}, {colour}: of row {row} the library says {answer:?}, which the log does not bear out. Build it \
             anew, with `build`."
        ))
    }

    /// Whether all half hours from the first to the last are as the one that is asked for.
    fn alike(&self, [first, last]: [usize; 2]) -> bool {
        self.held[first..=last].iter().all(|held| *held == self.held[self.row])
    }

    /// The first and the last of the half hours around the one that is asked for in which it was the same, as far as
    /// the log goes.
    fn spell(&self) -> [usize; 2] {
        let (before, behind) = self.held.split_at(self.row);
        let other = |held: &bool| *held != behind[0];
        let first = before.iter().rposition(other).map_or(0, |row| row + 1);
        let end = behind.iter().position(other).unwrap_or(behind.len());
        [first, self.row + end - 1]
    }

    /// What the half hour is written in. A run of one segment can't be told, by the answer, from a word whose rows are
    /// alike: both are called a segment, which each is.
    fn written(&self, format: Format, piece: [usize; 2]) -> String {
        let rows = piece[1] + 1 - piece[0];
        let half_hours = count(rows, "half hour");
        if !self.alike(piece) {
            return format!("in a mixed word of {half_hours}");
        }
        let kind = if rows > format.segment_rows() { "run" } else { "segment" };
        let how_many = if self.held[self.row] { "all" } else { "none" };
        format!("in one {kind} of {half_hours}, {how_many} {}", self.colour.name())
    }

    /// What is told of the colour: whether the tank had it, each piece, and the spell.
    fn lines(&self, answers: &[(Format, Row)]) -> Vec<Line> {
        let (colour, spell) = (self.colour.name(), self.spell());
        let (yes, not) = if self.held[self.row] { ("yes", "") } else { ("no", "not ") };
        let mut lines = vec![Line { text: format!("{colour}: {yes}"), rows: None }];
        for (format, answer) in answers {
            let whose = match format {
                Format::Ewah => "written (EWAH)",
                Format::Wah => "archived (WAH)",
            };
            let piece = piece(*answer);
            lines.push(Line { text: format!("  {whose} {}", self.written(*format, piece)), rows: Some(piece) });
        }
        let length = length(spell[1] + 1 - spell[0]);
        lines.push(Line { text: format!("  spell: {not}{colour} for {length}"), rows: Some(spell) });
        lines
    }
}

/// The first and the last row of the piece of an answer.
fn piece(answer: Row) -> [usize; 2] {
    [answer.first, answer.last].map(|row| row as usize)
}

/// The set rows of a bitmap of a sound archive.
fn set_rows(archive: &[u32], bitmap: u32) -> Result<Vec<u32>, Refusal> {
    Ok(zvonurel::wah::set_rows(zvonurel::bitmap(archive, bitmap)?, archive[1])?.collect())
}

/// The lines, with their half hours in columns.
fn table(span: Span, lines: &[Line]) -> String {
    let mut cells = vec![["", "first half hour", "last half hour"].map(str::to_string)];
    for Line { text, rows } in lines {
        let shown = |row: usize| span.moment(row).shown(span.with_year());
        let [first, last] = rows.map_or_else(Default::default, |rows| rows.map(shown));
        cells.push([text.clone(), first, last]);
    }
    let widest = |column: usize| cells.iter().map(|cells| cells[column].len()).max().unwrap_or(0);
    let (left, middle) = (widest(0), widest(1));
    let line = |[text, first, last]: &[String; 3]| format!("{text:left$}  {first:middle$}  {last}");
    cells.iter().map(|cells| line(cells).trim_end().to_string() + "\n").collect()
}

#[cfg(test)]
mod tests {
    use super::*;
    use crate::calendar::Moment;

    /// A tank that is amber for so many half hours, then not, and so on in turns, asked for one of them.
    fn amber(turns: &[usize], row: usize) -> Held<'static> {
        let turns = turns.iter().zip([true, false].into_iter().cycle());
        let held = turns.flat_map(|(many, held)| vec![held; *many]).collect();
        Held { tank: "tank 1", colour: Colour::Amber, held, row }
    }

    #[test]
    fn a_spell_goes_as_far_as_its_half_hours_are_alike() {
        let spells = [0, 2, 3, 4, 7, 8, 9].map(|row| amber(&[3, 1, 4, 2], row).spell());
        assert_eq!(spells, [[0, 2], [0, 2], [3, 3], [4, 7], [4, 7], [8, 9], [8, 9]]);
        assert_eq!(amber(&[0, 40], 20).spell(), [0, 39]);
        assert_eq!(amber(&[1], 0).spell(), [0, 0]);
    }

    /// The spell goes on beside the run, at both of its ends.
    #[test]
    fn more_half_hours_than_a_segment_are_a_run() {
        let held = amber(&[0, 20, 100, 40], 70);
        assert_eq!(held.written(Format::Ewah, [32, 95]), "in one run of 64 half hours, all amber");
        assert_eq!(held.written(Format::Wah, [31, 92]), "in one run of 62 half hours, all amber");
        assert_eq!(held.spell(), [20, 119]);
        assert_eq!(amber(&[20, 50], 40).written(Format::Ewah, [32, 69]), "in one run of 38 half hours, none amber");
    }

    /// A word of 32 that spells them, or a run of one segment; in WAH 32 are more than one.
    #[test]
    fn half_hours_that_are_alike_in_one_segment_may_be_either() {
        assert_eq!(amber(&[40], 3).written(Format::Ewah, [0, 31]), "in one segment of 32 half hours, all amber");
        assert_eq!(amber(&[40], 3).written(Format::Wah, [0, 30]), "in one segment of 31 half hours, all amber");
        assert_eq!(amber(&[40], 35).written(Format::Ewah, [32, 39]), "in one segment of 8 half hours, all amber");
        assert_eq!(amber(&[0, 33], 32).written(Format::Ewah, [32, 32]), "in one segment of 1 half hour, none amber");
        assert_eq!(amber(&[32], 3).written(Format::Wah, [0, 31]), "in one run of 32 half hours, all amber");
    }

    #[test]
    fn half_hours_that_differ_are_a_mixed_word() {
        let held = amber(&[5, 35, 10, 30], 4);
        assert_eq!(held.written(Format::Ewah, [0, 31]), "in a mixed word of 32 half hours");
        assert_eq!(held.written(Format::Wah, [0, 30]), "in a mixed word of 31 half hours");
        let held = Held { row: 45, ..held };
        assert_eq!(held.written(Format::Ewah, [32, 63]), "in a mixed word of 32 half hours");
        // the last has no more than there are
        assert_eq!(amber(&[335, 1], 335).written(Format::Ewah, [320, 335]), "in a mixed word of 16 half hours");
    }

    #[test]
    fn an_answer_is_borne_out_by_the_log() {
        let held = amber(&[40, 60], 35);
        let right = Row { set: true, first: 32, last: 63 };
        assert_eq!(held.bears_out(Format::Ewah, right), Ok(()));
        assert_eq!(held.bears_out(Format::Ewah, Row { first: 0, last: 39, ..right }), Ok(()));
        for (answer, why) in [
            (Row { set: false, ..right }, "it is amber"),
            (Row { first: 36, ..right }, "the piece begins behind it"),
            (Row { last: 34, ..right }, "the piece ends before it"),
            (Row { last: 100, ..right }, "there is no half hour 100"),
            (Row { last: 64, ..right }, "a run has no other half hours"),
            (Row { first: 0, last: 0, ..right }, "as of a refusal"),
        ] {
            assert!(held.bears_out(Format::Ewah, answer).is_err(), "{why}");
        }
        let why =
            "tank 1, amber: of row 35 the library says Row { set: true, first: 32, last: 63 }, which the log does \
                   not bear out. Build it anew, with `build`.";
        assert_eq!(held.bears_out(Format::Wah, right), Err(why.to_string()), "a word has 31 in WAH");
    }

    #[test]
    fn each_piece_stands_beside_the_spell() {
        let told = |row: usize, answers: &[(Format, Row)]| {
            let lines = amber(&[0, 20, 100, 40], row).lines(answers);
            lines.into_iter().map(|line| (line.text, line.rows)).collect::<Vec<_>>()
        };
        let [run, word] = [[32, 95], [62, 92]].map(|[first, last]| Row { set: true, first, last });
        let expected = [
            ("amber: yes", None),
            ("  written (EWAH) in one run of 64 half hours, all amber", Some([32, 95])),
            ("  archived (WAH) in one segment of 31 half hours, all amber", Some([62, 92])),
            ("  spell: amber for 50 h", Some([20, 119])),
        ];
        assert_eq!(told(70, &[(Format::Ewah, run), (Format::Wah, word)]), expected.map(|(s, rows)| (s.into(), rows)));
        let expected = [
            ("amber: no", None),
            ("  written (EWAH) in a mixed word of 32 half hours", Some([96, 127])),
            ("  spell: not amber for 20 h", Some([120, 159])),
        ];
        let word = Row { set: false, first: 96, last: 127 };
        assert_eq!(told(125, &[(Format::Ewah, word)]), expected.map(|(s, rows)| (s.into(), rows)));
    }

    /// Both are named by when they begin.
    #[test]
    fn the_first_and_the_last_half_hour_stand_in_columns() {
        let lines = [("red: no", None), ("  long", Some([0, 47])), ("  longer", Some([31, 31]))];
        let lines = lines.map(|(text, rows)| Line { text: text.to_string(), rows });
        let span = |date: &str| Span { from: Moment::read(date, "00:00").expect("a half hour"), rows: 48 };
        let expected =
            "          first half hour  last half hour\nred: no\n  long    Mon 2 Mar 00:00  Mon 2 Mar 23:30\n\
                        \x20 longer  Mon 2 Mar 15:30  Mon 2 Mar 15:30\n";
        assert_eq!(table(span("2026-03-02"), &lines), expected);
        // with the year where another begins
        let text = table(span("2025-12-31"), &lines[1..]);
        let expected =
            "          first half hour        last half hour\n  long    Wed 31 Dec 2025 00:00  Wed 31 Dec 2025 ";
        assert!(text.starts_with(expected), "{text}");
    }
}
