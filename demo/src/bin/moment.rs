//! Did a tank have a colour in a half hour, in which piece is that written, and what is the spell? Reads a station's
//! log, asks the library, and tells the piece and the spell beside each other.

use std::process::ExitCode;

use tanks::moment::report;

const USAGE: &str = "Usage: moment LOG TANK DATE TIME [COLOURS [ARCHIVE]].";
const HELP: &str = "
What colour was a tank in a half hour? For each colour: whether the tank had it then; where that is written, once the
log is put into EWAH; and the spell, which is all half hours around this one in which it was the same.

  LOG        a station's log: `tanks N` and `from YYYY-MM-DD HH:MM`, then a line for each tank, its name, a colon and a
             letter for each half hour, g green, a amber, r red; by a clock that is never put forward or back
  TANK       the name of a tank of the log
  DATE TIME  when a half hour of the log begins, as 2026-03-12 22:00
  COLOURS    green, amber or red, or several joined by +, each of which is asked for itself; without any, all three
  ARCHIVE    the same half hours as an old archive, an index in WAH, which is asked too

A half hour is written in one run, with others that are all like it; in a mixed word, with others of which some are
not; or in one segment of half hours that are alike, which may be a run or a word. In EWAH a word or a segment has 32
half hours, in WAH 31, and at the end of the log perhaps fewer. A run is of whole segments, so the half hours beside it
may be like it too. How long it was so is told by the spell alone.

Of each the first and the last half hour are given, both by when they begin: from 00:00 to 15:30 are 32 half hours.
";

fn main() -> ExitCode {
    tanks::command(USAGE, HELP, |arguments| match arguments {
        [log, tank, date, time, rest @ ..] if rest.len() <= 2 => {
            Some(report([log, tank, date, time], rest.first(), rest.get(1)))
        }
        _ => None,
    })
}
