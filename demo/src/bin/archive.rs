//! When did at least T tanks have one of some colours, by an old archive? Checks it, asks it, holds it to the log of
//! the same half hours, and rewrites it.

use std::process::ExitCode;

use tanks::archive::{make, report};

const USAGE: &str = "Usage: archive ARCHIVE LOG COLOURS T [--program PROGRAM], or archive --make LOG ARCHIVE.";
const HELP: &str = "
Is an old archive sound, when did at least T of its tanks have one of these colours, and how long is it in EWAH?

  ARCHIVE  an index in WAH, a file of 32-bit words, lowest byte first: for each tank of the log a bitmap of its green
           half hours, one of its amber ones and one of its red ones
  LOG      the log of the same half hours: `tanks N` and `from YYYY-MM-DD HH:MM`, then a line for each tank, its name, a
           colon and a letter for each half hour, g green, a amber, r red; it must give the same answer
  COLOURS  green, amber or red, or several joined by +, as amber+red
  T        a number of tanks, from 1 to as many as the log has
  PROGRAM  the program `threshold`, which is asked the same and must list the same half hours

With --make the bitmaps of the log are written to a new file ARCHIVE.
";

fn main() -> ExitCode {
    tanks::command(USAGE, HELP, |arguments| match arguments {
        [option, log, archive] if option == "--make" => Some(make(log, archive)),
        [archive, log, colours, t] => Some(report([archive, log, colours, t], None)),
        [archive, log, colours, t, option, program] if option == "--program" => {
            Some(report([archive, log, colours, t], Some(program)))
        }
        _ => None,
    })
}
