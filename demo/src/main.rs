//! When did at least T tanks have one of some colours? Reads a station's log, asks the library, and draws the answer.

use std::process::ExitCode;

use tanks::report::report;

const USAGE: &str = "Usage: tanks LOG COLOURS T [--program PROGRAM].";
const HELP: &str = "
When did at least T tanks of a log have one of these colours?

  LOG      a station's log: `tanks N` and `from YYYY-MM-DD HH:MM`, then a line for each tank, its name, a colon and a
           letter for each half hour, g green, a amber, r red; by a clock that is never put forward or back
  COLOURS  green, amber or red, or several joined by +, as amber+red
  T        a number of tanks, from 1 to as many as the log has
  PROGRAM  the program `threshold`, which is asked the same and must list the same half hours
";

fn main() -> ExitCode {
    tanks::command(USAGE, HELP, |arguments| match arguments {
        [log, colours, t] => Some(report(log, colours, t, None)),
        [log, colours, t, option, program] if option == "--program" => Some(report(log, colours, t, Some(program))),
        _ => None,
    })
}
