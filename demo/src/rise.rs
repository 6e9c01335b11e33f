//! How much a tank's ammonia rose since the day before: the difference of its readings and the same readings a day
//! later. From the arguments to the whole answer, or to the sentence that refuses it.

use std::cmp::{Ordering, Reverse};
use std::ffi::{OsStr, OsString};
use std::path::Path;

use zvonurel::Refusal;

use crate::calendar::{Span, DAY};
use crate::columns::Columns;
use crate::draw::{self, length};
use crate::index::told;
use crate::log::Log;
use crate::number::count;
use crate::reading::{change, milligrams, Reading};
use crate::report::read_line;
use crate::text::joined;
use crate::{file, named};

/// Without a name the log's first tank is asked.
pub fn report(log: &OsStr, name: Option<&OsString>) -> Result<String, String> {
    let log: Log<Reading> = file::read(Path::new(log))?;
    let tank = name.map_or(Ok(0), |name| named::tank(&log, name))?;
    let rows = log.span().rows;
    if rows <= DAY {
        let (half_hours, least) = (count(rows, "half hour"), DAY + 1);
        return Err(format!(
            "The log has {half_hours}, and none has a day before it: ask a log of {least} half hours or more."
        ));
    }
    let change = Change::new(log.span(), &log.tanks[tank].entries).map_err(told)?;
    let same = change.same_as_plain()?;
    let (read, name, drawn, lengths) = (read_line(&log), &log.tanks[tank].name.text, change.drawn(), change.lengths());
    Ok(format!(
        "{read}\nCompared: {name}, each reading with that of the day before at the same time; in milligrams.\n\n\
         {drawn}How long, beside the day before:\n\n{lengths}\n{same}"
    ))
}

/// A tank's readings, and what the library makes of them and those of the day before, half hour by half hour.
struct Change<'a> {
    span: Span,
    readings: &'a [Reading],
    /// How much it rose, below 0 where it fell.
    changes: Vec<Option<i64>>,
    /// How much it rose, 0 where it fell.
    rises: Vec<Option<u64>>,
    /// The lower reading of the two.
    lower: Vec<Option<u64>>,
    /// In how many half hours it rose, in how many it fell, and how many were compared.
    counts: [usize; 3],
}

impl Change<'_> {
    /// More half hours than those of a day. In the second column each reading stands a day later, so that its row is
    /// that of the half hour it is compared with, and those of the first day do not exist.
    fn new(span: Span, readings: &[Reading]) -> Result<Change<'_>, Refusal> {
        let before = [&[None; DAY], &readings[..span.rows - DAY]].concat();
        let columns = Columns::of(span.rows, &[readings, &before])?;
        let change = columns.combined(zvonurel::signed_difference, [0, 1])?;
        let rise = columns.combined(zvonurel::difference_or_zero, [0, 1])?;
        let lower = columns.combined(zvonurel::smaller, [0, 1])?;
        Ok(Change {
            span,
            readings,
            changes: change.signed_values(0)?,
            rises: rise.values(0)?,
            lower: lower.values(0)?,
            counts: [rise.count_nonzero(0)?, change.count_negative(0)?, change.count(0)?],
        })
    }

    /// The reading of the day before and the one of a half hour, straight from the log.
    fn both(&self, row: usize) -> Option<[u32; 2]> {
        Some([self.readings[row.checked_sub(DAY)?]?, self.readings[row]?])
    }

    /// `from 0.23 to 1.13`.
    fn readings_at(&self, row: usize) -> String {
        self.both(row).map_or(String::new(), |both| {
            let [before, reading] = both.map(|reading| milligrams(reading.into()));
            format!("from {before} to {reading}")
        })
    }

    /// The days; then the greatest rise and fall, and the highest that even the lower of two days' readings was, each
    /// with the first half hour that has it.
    fn drawn(&self) -> String {
        let falls: Vec<Option<u64>> = self.changes.iter().map(|by| by.map(|by| by.min(0).unsigned_abs())).collect();
        let [Some(rise), Some(fall), Some(lower)] = [&self.rises, &falls, &self.lower].map(|values| highest(values))
        else {
            return "No half hour has both its reading and that of the day before.\n\n".to_string();
        };
        let lines = [
            ("greatest rise", change(rise.0 as i64), (rise.0 > 0).then_some(rise.1)),
            ("greatest fall", change(-(fall.0 as i64)), (fall.0 > 0).then_some(fall.1)),
            ("highest on both days", milligrams(lower.0), Some(lower.1)),
        ];
        let left = lines.iter().map(|line| line.0.len()).max().unwrap_or(0);
        let right = lines.iter().map(|line| line.1.len()).max().unwrap_or(0);
        let lines = lines.map(|(label, value, row)| {
            let place = row.map_or(String::new(), |row| self.place(row));
            format!("  {label:left$}  {value:>right$}{place}\n")
        });
        let picture = draw::changes(self.span, &self.changes, &self.rises, |row| self.readings_at(row));
        format!("{picture}Of all days:\n\n{}\n", lines.concat())
    }

    /// `, Thu 12 Mar 22:00, from 0.23 to 1.13`.
    fn place(&self, row: usize) -> String {
        format!(", {}, {}", self.span.moment(row).shown(self.span.with_year()), self.readings_at(row))
    }

    /// For how long it rose, fell, and did neither, and for how long that can't be said.
    fn lengths(&self) -> String {
        let [rose, fell, compared] = self.counts;
        let [rose, fell, same, left] = [rose, fell, compared - rose - fell, self.span.rows - compared].map(length);
        format!(
            "  it rose          {rose}\n  it fell          {fell}\n  it was the same  {same}\n  not compared     \
             {left}, with no reading then or the day before\n"
        )
    }

    /// One line that says that plain subtraction gives the same, or where it does not.
    fn same_as_plain(&self) -> Result<String, String> {
        let rows = 0..self.span.rows;
        rows.clone().try_for_each(|row| self.same_values(row))?;
        let both = rows.filter_map(|row| self.both(row));
        let orders: Vec<Ordering> = both.map(|[before, reading]| reading.cmp(&before)).collect();
        let rows = |order: Ordering| orders.iter().filter(|found| **found == order).count();
        self.same_counts([rows(Ordering::Greater), rows(Ordering::Less), orders.len()])?;
        Ok(match orders.len() {
            0 => "Plain subtraction of the log's readings has none to compare either.\n".to_string(),
            n => format!("Plain subtraction of the log's readings gives the same {}.\n", count(n, "change")),
        })
    }

    /// Change, rise and lower reading at a row, as the library found them and as the log has them.
    fn same_values(&self, row: usize) -> Result<(), String> {
        let found = (self.changes[row], self.rises[row], self.lower[row]);
        let plain = self.both(row).map_or((None, None, None), |[before, reading]| {
            let [rise, lower] = [reading.saturating_sub(before), reading.min(before)].map(u64::from);
            (Some(i64::from(reading) - i64::from(before)), Some(rise), Some(lower))
        });
        if found == plain {
            return Ok(());
        }
        let time = self.span.moment(row).shown(true);
        let [found, plain] = [found, plain].map(|(by, rise, lower)| {
            let shown = [by.map(change), rise.map(milligrams), lower.map(milligrams)];
            joined(&shown.each_ref().map(|text| text.as_deref().unwrap_or("none")), "and")
        });
        Err(format!(
            "{time}: the library's change, rise and lower reading are {found}, and plain subtraction's {plain}. Build \
             it anew, with `build`."
        ))
    }

    fn same_counts(&self, plain: [usize; 3]) -> Result<(), String> {
        if self.counts == plain {
            return Ok(());
        }
        let [found, plain] = [self.counts, plain].map(|[rose, fell, compared]| {
            format!("{} compared, of which {rose} rose and {fell} fell", count(compared, "half hour"))
        });
        Err(format!("The library counts {found}, and plain counting {plain}. Build it anew, with `build`."))
    }
}

/// The highest value, and the first half hour that has it.
fn highest(values: &[Option<u64>]) -> Option<(u64, usize)> {
    let there = values.iter().enumerate().filter_map(|(row, value)| Some(((*value)?, Reverse(row))));
    there.max().map(|(value, Reverse(row))| (value, row))
}

#[cfg(test)]
mod tests {
    use super::*;
    use crate::calendar::Moment;

    const WRONG: &str = "Build it anew, with `build`.";

    /// Readings a day apart: the first day's, nothing until the second begins, and the second day's.
    fn days(first: &[Reading], second: &[Reading]) -> Vec<Reading> {
        [first, &vec![None; DAY - first.len()], second].concat()
    }

    fn change_of(readings: &[Reading]) -> Change<'_> {
        let from = Moment::read("2026-03-09", "22:00").expect("a half hour");
        Change::new(Span { from, rows: readings.len() }, readings).expect("a change")
    }

    /// The rows of the second day, from its first on.
    fn second<T: Clone>(values: &[Option<T>]) -> Vec<Option<T>> {
        values[DAY..].to_vec()
    }

    #[test]
    fn each_half_hour_has_its_change_its_rise_and_its_lower_reading() {
        let first = [Some(20), Some(20), Some(20), None, Some(20), None, Some(65_535), Some(0)];
        let readings = days(&first, &[Some(21), Some(19), Some(20), Some(20), None, None, Some(0), Some(65_535)]);
        let change = change_of(&readings);
        let there =
            |[a, b, c, d, e]: [i64; 5]| [Some(a), Some(b), Some(c), None, None, None, Some(d), Some(e)].to_vec();
        let unsigned = |values: &[Option<u64>]| values.iter().map(|value| value.map(|n| n as i64)).collect::<Vec<_>>();
        assert_eq!(second(&change.changes), there([1, -1, 0, -65_535, 65_535]));
        assert_eq!(second(&unsigned(&change.rises)), there([1, 0, 0, 0, 65_535]));
        assert_eq!(second(&unsigned(&change.lower)), there([20, 19, 20, 0, 0]));
        assert_eq!(change.counts, [2, 2, 5]);
        assert!(change.changes[..DAY].iter().all(Option::is_none));
        let same = "Plain subtraction of the log's readings gives the same 5 changes.\n";
        assert_eq!(change.same_as_plain(), Ok(same.to_string()));
    }

    /// The change and the reading of the day before are the reading, and so are the rise and the lower one.
    #[test]
    fn all_three_agree() {
        let mixed = |row: usize| (row % 7 != 3).then_some((row * row * 131 % 977) as u32);
        let readings: Vec<Reading> = (0..5 * DAY).map(mixed).collect();
        let change = change_of(&readings);
        for row in DAY..readings.len() {
            let both = readings[row].zip(readings[row - DAY]);
            let back = change.changes[row].zip(readings[row - DAY]).map(|(by, before)| by + i64::from(before));
            assert_eq!(back, both.map(|(reading, _)| reading.into()), "{row}");
            assert_eq!(change.rises[row], change.changes[row].map(|by| by.max(0) as u64), "{row}");
            let back = change.rises[row].zip(change.lower[row]).map(|(rise, lower)| rise + lower);
            assert_eq!(back, both.map(|(reading, _)| reading.into()), "{row}");
        }
        assert!(change.counts.iter().all(|rows| *rows > 20), "{:?}", change.counts);
    }

    #[test]
    fn one_change_and_none() {
        let same = "Plain subtraction of the log's readings gives the same 1 change.\n";
        assert_eq!(change_of(&days(&[Some(0)], &[Some(0)])).same_as_plain(), Ok(same.to_string()));
        let none = "Plain subtraction of the log's readings has none to compare either.\n";
        for readings in [days(&[Some(7)], &[None]), days(&[None], &[Some(7)])] {
            let change = change_of(&readings);
            assert_eq!(change.same_as_plain(), Ok(none.to_string()));
            assert_eq!(change.drawn(), "No half hour has both its reading and that of the day before.\n\n");
        }
    }

    #[test]
    fn other_values_are_told() {
        let readings = days(&[Some(20), None], &[Some(15), Some(1)]);
        let time = "Tue 10 Mar 2026 22:00: the library's change, rise and lower reading are";
        let plain = "and plain subtraction's -0.05, 0.00 and 0.15.";
        type Wrong = (fn(&mut Change), &'static str);
        let wrong: [Wrong; 4] = [
            (|change| change.changes[DAY] = Some(5), "+0.05, 0.00 and 0.15"),
            (|change| change.rises[DAY] = Some(5), "-0.05, 0.05 and 0.15"),
            (|change| change.lower[DAY] = Some(20), "-0.05, 0.00 and 0.20"),
            (|change| change.changes[DAY] = None, "none, 0.00 and 0.15"),
        ];
        for (spoil, found) in wrong {
            let mut change = change_of(&readings);
            spoil(&mut change);
            assert_eq!(change.same_as_plain(), Err(format!("{time} {found}, {plain} {WRONG}")));
        }
        // one too many is none the less wrong
        let mut change = change_of(&readings);
        change.lower[DAY + 1] = Some(0);
        let why = format!(
            "Tue 10 Mar 2026 22:30: the library's change, rise and lower reading are none, none and 0.00, and plain \
             subtraction's none, none and none. {WRONG}"
        );
        assert_eq!(change.same_as_plain(), Err(why));
    }

    #[test]
    fn other_counts_are_told() {
        let readings = days(&[Some(20), Some(20), Some(20)], &[Some(15), Some(20), Some(25)]);
        for (counts, found) in [
            ([0, 1, 3], "3 half hours compared, of which 0 rose and 1 fell"),
            ([1, 3, 3], "3 half hours compared, of which 1 rose and 3 fell"),
            ([1, 1, 1], "1 half hour compared, of which 1 rose and 1 fell"),
        ] {
            let change = Change { counts, ..change_of(&readings) };
            let plain = "3 half hours compared, of which 1 rose and 1 fell";
            let why = format!("The library counts {found}, and plain counting {plain}. {WRONG}");
            assert_eq!(change.same_as_plain(), Err(why));
        }
    }

    /// Of equal ones the first is told, and of none there is no time.
    #[test]
    fn the_greatest_of_all_have_their_time_and_readings() {
        let readings = days(&[Some(20), Some(20), Some(100), Some(9)], &[Some(33), Some(33), Some(95), Some(4)]);
        let expected = "Of all days:\n\n  greatest rise         +0.13, Tue 10 Mar 22:00, from 0.20 to 0.33\n\
                        \x20 greatest fall         -0.05, Tue 10 Mar 23:00, from 1.00 to 0.95\n\
                        \x20 highest on both days   0.95, Tue 10 Mar 23:00, from 1.00 to 0.95\n\n";
        assert!(change_of(&readings).drawn().ends_with(expected), "{}", change_of(&readings).drawn());
        let readings = days(&[Some(0)], &[Some(0)]);
        let expected = "  greatest rise         0.00\n  greatest fall         0.00\n\
                        \x20 highest on both days  0.00, Tue 10 Mar 22:00, from 0.00 to 0.00\n\n";
        assert!(change_of(&readings).drawn().ends_with(expected), "{}", change_of(&readings).drawn());
    }

    #[test]
    fn every_half_hour_is_in_one_length() {
        let readings = days(&[Some(20); 9], &[Some(15), Some(20), Some(25), Some(26), None, Some(0), Some(1), None]);
        let expected = "  it rose          1 h\n  it fell          1 h 30 min\n  it was the same  30 min\n\
                        \x20 not compared     25 h, with no reading then or the day before\n";
        assert_eq!(change_of(&readings).lengths(), expected);
    }
}
