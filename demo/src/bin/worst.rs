//! Which were a tank's worst half hours? Reads a station's log, asks the library, and lists the answer.

use std::process::ExitCode;

use tanks::worst::{report, Order};

const USAGE: &str = "Usage: worst [--calmest] LOG [TANK [K]].";
const HELP: &str = "
In which K half hours did a tank have the most ammonia, and how much?

  --calmest   the least instead
  LOG         a station's log: `tanks N` and `from YYYY-MM-DD HH:MM`, then for each tank its name, a colon and a reading
              for each half hour, in milligrams with two decimals, or - where there is none; a line without a colon goes
              on where the one above it ends; by a clock that is never put forward or back
  TANK        the name of a tank of the log; without one, its first
  K           how many half hours, from 1 to as many as have a reading; without a number, 10

The list begins with the highest reading, or the lowest. Where more half hours have its last reading than there is room
for, the earliest of them are listed, and a line below says which are not.
";

fn main() -> ExitCode {
    tanks::command(USAGE, HELP, |arguments| {
        let (order, arguments) = match arguments {
            [flag, rest @ ..] if flag == "--calmest" => (Order::Calmest, rest),
            _ => (Order::Worst, arguments),
        };
        match arguments {
            [log] => Some(report(order, log, None, None)),
            [log, tank] => Some(report(order, log, Some(tank), None)),
            [log, tank, k] => Some(report(order, log, Some(tank), Some(k))),
            _ => None,
        }
    })
}
