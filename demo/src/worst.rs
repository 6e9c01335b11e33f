//! A tank's worst half hours: those with the highest readings, or the calmest, with the lowest. From the arguments to
//! the whole answer, or to the sentence that refuses it.

use std::cmp::Reverse;
use std::ffi::{OsStr, OsString};
use std::path::Path;

use zvonurel::Refusal;

use crate::calendar::Span;
use crate::columns::{Columns, Ranking};
use crate::index::told;
use crate::log::{Entry, Log};
use crate::number::{count, from_one_to, grouped};
use crate::reading::{milligrams, Reading};
use crate::report::read_line;
use crate::{file, named};

/// How many half hours are asked for where no number is named.
const TEN: usize = 10;

/// Which half hours come first: those with the highest readings, or with the lowest.
#[derive(Clone, Copy)]
pub enum Order {
    Worst,
    Calmest,
}

/// A reading and its half hour.
type Found = (u64, usize);

impl Order {
    fn ranking(self) -> Ranking {
        match self {
            Order::Worst => zvonurel::largest,
            Order::Calmest => zvonurel::smallest,
        }
    }

    /// What the first reading is beside all others.
    fn first(self) -> &'static str {
        match self {
            Order::Worst => "highest",
            Order::Calmest => "lowest",
        }
    }

    /// Puts the first in front, and of equal readings the earlier.
    fn sort(self, found: &mut [Found]) {
        match self {
            Order::Worst => found.sort_unstable_by_key(|(reading, row)| (Reverse(*reading), *row)),
            Order::Calmest => found.sort_unstable(),
        }
    }
}

/// Without a name the log's first tank is asked, and without a number for ten half hours.
pub fn report(order: Order, log: &OsStr, name: Option<&OsString>, k: Option<&OsString>) -> Result<String, String> {
    let k = k.map_or(Ok(TEN), |k| number(&k.to_string_lossy()))?;
    let log: Log<Reading> = file::read(Path::new(log))?;
    let tank = &log.tanks[name.map_or(Ok(0), |name| named::tank(&log, name))?];
    let (name, there) = (&tank.name.text, readings(&tank.entries).len());
    let ranked = Ranked::new(order, log.span(), &tank.entries, k).map_err(|refusal| match refusal.number {
        Refusal::BAD_ARGUMENT if k > there => too_many(name, there, k),
        _ => told(refusal),
    })?;
    let same = ranked.same_as_plain(k)?;
    let (read, asked, listed, tie) = (read_line(&log), ranked.asked(name), ranked.listed(), ranked.tie());
    Ok(format!("{read}\n{asked}\n\n{listed}\n{tie}{same}"))
}

/// A number of half hours that a log can have.
fn number(text: &str) -> Result<usize, String> {
    let most = Reading::MOST_ROWS;
    from_one_to(most, text)
        .ok_or_else(|| format!("No log has more than {0} half hours, so ask for 1 to {0}.", grouped(most)))
}

/// The library's refusal of more half hours than have a reading, and what can be asked.
fn too_many(name: &str, there: usize, k: usize) -> String {
    let readings = count(there, "reading");
    let ask = match there {
        0 => "ask another tank, or another log".to_string(),
        1 => "ask for 1".to_string(),
        _ => format!("ask for 1 to {}", grouped(there)),
    };
    let half_hours = match k {
        1 => "1 half hour was".to_string(),
        _ => format!("{} half hours were", grouped(k)),
    };
    format!("The library refused, since {name} has {readings} and {half_hours} asked for (refusal 8): {ask}.")
}

/// All readings that there are, from the earliest on.
fn readings(entries: &[Reading]) -> Vec<Found> {
    entries.iter().enumerate().filter_map(|(row, reading)| Some(((*reading)?.into(), row))).collect()
}

/// The half hours that the library chose, each with the reading that it has there, in order.
struct Ranked {
    order: Order,
    span: Span,
    /// All readings of the tank, straight from the log.
    readings: Vec<Found>,
    chosen: Vec<Found>,
}

impl Ranked {
    fn new(order: Order, span: Span, entries: &[Reading], k: usize) -> Result<Ranked, Refusal> {
        let columns = Columns::of(span.rows, &[entries])?;
        let mut chosen = Vec::new();
        for row in columns.ranked(order.ranking(), 0, k)? {
            // of a row without a value the comparison would tell that it is missing
            chosen.extend(columns.value(0, row)?.map(|reading| (reading, row)));
        }
        order.sort(&mut chosen);
        Ok(Ranked { order, span, readings: readings(entries), chosen })
    }

    fn asked(&self, name: &str) -> String {
        let first = self.order.first();
        let chosen = match self.chosen.len() {
            1 => first.to_string(),
            k => format!("{} {first}", grouped(k)),
        };
        let all = count(self.readings.len(), "reading");
        format!("Asked: {name}, the {chosen} of its {all}, the {first} first; in milligrams.")
    }

    /// Each reading with its date, in columns, and its time.
    fn listed(&self) -> String {
        let width = self.chosen.iter().map(|(reading, _)| milligrams(*reading).len()).max().unwrap_or(0);
        let line = |(reading, row): &Found| {
            let moment = self.span.moment(*row);
            let (date, clock) = (moment.date().shown(2, self.span.with_year()), moment.clock());
            format!("  {:>width$}  {date} {clock}\n", milligrams(*reading))
        };
        self.chosen.iter().map(line).collect()
    }

    /// One line on the half hours that have the last reading of the list and are not in it; nothing if there are none.
    fn tie(&self) -> String {
        let Some((last, _)) = self.chosen.last() else { return String::new() };
        let equal: Vec<&Found> = self.readings.iter().filter(|(reading, _)| reading == last).collect();
        let (taken, left) = equal.split_at(self.chosen.iter().filter(|(reading, _)| reading == last).count());
        let Some((_, next)) = left.first() else { return String::new() };
        let taken = match taken.len() {
            1 => "the earliest is listed".to_string(),
            n => format!("the {} earliest are listed", grouped(n)),
        };
        let next = self.span.moment(*next).shown(self.span.with_year());
        let left = match left.len() {
            1 => format!("the other, {next}, is not"),
            n => format!("the other {}, from {next} on, are not", grouped(n)),
        };
        let (all, last) = (grouped(equal.len()), milligrams(*last));
        format!("Of the {all} half hours with {last} {taken}; {left}.\n")
    }

    /// One line that says that plain sorting gives the same, or where it does not.
    fn same_as_plain(&self, k: usize) -> Result<String, String> {
        let mut plain = self.readings.clone();
        self.order.sort(&mut plain);
        plain.truncate(k);
        let places = 0..plain.len().max(self.chosen.len());
        match places.into_iter().find(|place| self.chosen.get(*place) != plain.get(*place)) {
            None => {
                let same = count(plain.len(), "half hour");
                Ok(format!("Plain sorting of the log's readings gives the same {same}.\n"))
            }
            Some(place) => {
                let [chosen, plain] = [&self.chosen, &plain].map(|found| self.shown(found.get(place)));
                let place = grouped(place + 1);
                Err(format!(
                    "Place {place}: the library has {chosen}, and plain sorting {plain}. Build it anew, with `build`."
                ))
            }
        }
    }

    /// `0.51 at Fri 13 Mar 2026 18:00`.
    fn shown(&self, found: Option<&Found>) -> String {
        found.map_or("none".to_string(), |(reading, row)| {
            format!("{} at {}", milligrams(*reading), self.span.moment(*row).shown(true))
        })
    }
}

#[cfg(test)]
mod tests {
    use super::*;
    use crate::calendar::Moment;

    fn ranked(order: Order, entries: &[Reading], k: usize) -> Ranked {
        let from = Moment::read("2026-03-09", "22:30").expect("a half hour");
        Ranked::new(order, Span { from, rows: entries.len() }, entries, k).expect("a ranking")
    }

    const ENTRIES: [Reading; 9] =
        [Some(21), None, Some(20), Some(21), Some(65_535), Some(20), Some(0), Some(21), Some(20)];

    #[test]
    fn the_first_is_in_front_and_of_equal_ones_the_earlier() {
        let worst = ranked(Order::Worst, &ENTRIES, 5);
        assert_eq!(worst.chosen, [(65_535, 4), (21, 0), (21, 3), (21, 7), (20, 2)]);
        let calmest = ranked(Order::Calmest, &ENTRIES, 3);
        assert_eq!(calmest.chosen, [(0, 6), (20, 2), (20, 5)]);
        assert_eq!(
            worst.asked("pond"),
            "Asked: pond, the 5 highest of its 8 readings, the highest first; in milligrams."
        );
        assert_eq!(
            ranked(Order::Calmest, &[None, Some(3)], 1).asked("pond"),
            "Asked: pond, the lowest of its 1 reading, the lowest first; in milligrams."
        );
    }

    #[test]
    fn readings_and_dates_stand_in_columns() {
        let expected = "  655.35  Tue 10 Mar 00:30\n    0.21  Mon  9 Mar 22:30\n    0.21  Tue 10 Mar 00:00\n";
        assert_eq!(ranked(Order::Worst, &ENTRIES, 3).listed(), expected);
    }

    /// One taken of two, of three and two of three, and none left.
    #[test]
    fn a_tie_at_the_cut_is_told() {
        let tie = |order: Order, k: usize| ranked(order, &ENTRIES, k).tie();
        let all = "Of the 3 half hours with 0.21 the";
        assert_eq!([1, 4, 7, 8].map(|k| tie(Order::Worst, k)), ["", "", "", ""]);
        let left = "the other 2, from Tue 10 Mar 00:00 on, are not.\n";
        assert_eq!(tie(Order::Worst, 2), format!("{all} earliest is listed; {left}"));
        let left = "the other, Tue 10 Mar 02:00, is not.\n";
        assert_eq!(tie(Order::Worst, 3), format!("{all} 2 earliest are listed; {left}"));
        let left = "the other, Tue 10 Mar 02:30, is not.\n";
        assert_eq!(tie(Order::Calmest, 3), format!("Of the 3 half hours with 0.20 the 2 earliest are listed; {left}"));
        let two = ranked(Order::Worst, &[Some(7), Some(7)], 1).tie();
        assert_eq!(two, "Of the 2 half hours with 0.07 the earliest is listed; the other, Mon 9 Mar 23:00, is not.\n");
    }

    #[test]
    fn the_same_half_hours_are_said_in_one_line() {
        let same = |k: usize| ranked(Order::Worst, &ENTRIES, k).same_as_plain(k);
        let line = |what: &str| Ok(format!("Plain sorting of the log's readings gives the same {what}.\n"));
        assert_eq!((same(1), same(8)), (line("1 half hour"), line("8 half hours")));
    }

    /// Another half hour, another reading, one missing and one too many.
    #[test]
    fn other_half_hours_are_told() {
        let plain = "0.21 at Mon 9 Mar 2026 22:30";
        let build = "Build it anew, with `build`.";
        for (chosen, place, library, plain) in [
            (&[(65_535, 4), (21, 3)][..], 2, "0.21 at Tue 10 Mar 2026 00:00", plain),
            (&[(65_535, 4), (20, 0)], 2, "0.20 at Mon 9 Mar 2026 22:30", plain),
            (&[(65_535, 4)], 2, "none", plain),
            (&[(65_535, 4), (21, 0), (21, 3)], 3, "0.21 at Tue 10 Mar 2026 00:00", "none"),
            (&[], 1, "none", "655.35 at Tue 10 Mar 2026 00:30"),
        ] {
            let ranked = Ranked { chosen: chosen.to_vec(), ..ranked(Order::Worst, &ENTRIES, 2) };
            let why = format!("Place {place}: the library has {library}, and plain sorting {plain}. {build}");
            assert_eq!(ranked.same_as_plain(2), Err(why));
        }
    }
}
