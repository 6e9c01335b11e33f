//! What were the readings at a time, how high was the sum of two tanks, and how many had a reading at once? Reads a
//! station's log, asks the library, and draws the answer.

use std::process::ExitCode;

use tanks::load::report;

const USAGE: &str = "Usage: ammonia LOG [DATE TIME [FIRST SECOND]].";
const HELP: &str = "
What ammonia did the tanks of a log have at a time, how high was the load of a biofilter that two of them share, and for
how long had how many tanks a reading at once?

  LOG            a station's log: `tanks N` and `from YYYY-MM-DD HH:MM`, then for each tank its name, a colon and a
                 reading for each half hour, in milligrams with two decimals, or - where there is none; a line without
                 a colon goes on where the one above it ends; by a clock that is never put forward or back
  DATE TIME      a half hour of the log, as 2026-03-12 22:00; without one, its last
  FIRST SECOND   the names of two tanks; without them, the log's first two
";

fn main() -> ExitCode {
    tanks::command(USAGE, HELP, |arguments| match arguments {
        [log] => Some(report(log, None, None)),
        [log, date, time] => Some(report(log, Some([date, time]), None)),
        [log, date, time, first, second] => Some(report(log, Some([date, time]), Some([first, second]))),
        _ => None,
    })
}
