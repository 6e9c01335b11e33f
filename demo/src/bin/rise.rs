//! How much did a tank's ammonia rise since the day before? Reads a station's log, asks the library, and draws the
//! answer.

use std::process::ExitCode;

use tanks::rise::report;

const USAGE: &str = "Usage: rise LOG [TANK].";
const HELP: &str = "
How much did a tank's ammonia rise or fall since the day before, at each half hour, and for how long did it?

  LOG    a station's log: `tanks N` and `from YYYY-MM-DD HH:MM`, then for each tank its name, a colon and a reading for
         each half hour, in milligrams with two decimals, or - where there is none; a line without a colon goes on where
         the one above it ends; by a clock that is never put forward or back; of more than a day
  TANK   the name of a tank of the log; without one, its first

A half hour is compared with the one 24 hours before it, where both have a reading. The highest on both days is the
highest that it had, or passed, on two days one behind the other at the same time: a level, and no single peak.
";

fn main() -> ExitCode {
    tanks::command(USAGE, HELP, |arguments| match arguments {
        [log] => Some(report(log, None)),
        [log, tank] => Some(report(log, Some(tank))),
        _ => None,
    })
}
