//! When was a tank amber, as its log grows? Reads what came in delivery by delivery, has the library append each, and
//! tells of each.

use std::process::ExitCode;

use tanks::live::report;

const USAGE: &str = "Usage: log LOG [COLOURS].";
const HELP: &str = "
When did a tank have one of these colours, as its half hours come in? Each delivery is appended to one body.

  LOG      the log of a tank, delivery by delivery: `from YYYY-MM-DD HH:MM`, then a line for each delivery, a letter for
           each half hour, g green, a amber, r red, or - where none came; by a clock that is never put forward or back
  COLOURS  green, amber or red, or several joined by +, as amber+red; without any, amber

Of each delivery: how many half hours came, and up to when; how many there are in all; the words of their body, and of
the buffer that it is in; and the last spell, which may go on with the next delivery if it is `so far`.
";

fn main() -> ExitCode {
    tanks::command(USAGE, HELP, |arguments| match arguments {
        [log] => Some(report(log, None)),
        [log, colours] => Some(report(log, Some(colours))),
        _ => None,
    })
}
