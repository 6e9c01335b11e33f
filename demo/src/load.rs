//! The readings at a time, the load of a biofilter that two tanks share, which is the sum of their readings, and how
//! many tanks had a reading at once: from the arguments to the whole answer, or to the sentence that refuses it.

use std::ffi::{OsStr, OsString};
use std::path::Path;

use crate::columns::Columns;
use crate::index::told;
use crate::log::Log;
use crate::number::count;
use crate::reading::{milligrams, Reading};
use crate::report::read_line;
use crate::{draw, file, named};

/// Without a date and a time the last half hour is asked, and without two names the log's first two tanks.
pub fn report(log: &OsStr, time: Option<[&OsString; 2]>, names: Option<[&OsString; 2]>) -> Result<String, String> {
    let time = time.map(named::moment).transpose()?;
    let log = file::read(Path::new(log))?;
    let row = time.map_or(Ok(log.span().rows - 1), |time| named::row(log.span(), time))?;
    let pair = pair(&log, names)?;
    let columns = Columns::new(&log).map_err(told)?;
    let sum = columns.combined(zvonurel::sum, pair).map_err(told)?;
    let sums = sum.values(0).map_err(told)?;
    let compared = compared(&log, pair, &sums)?;
    let (read, added) = (read_line(&log), added_line(&log, pair));
    let readings = readings(&log, &columns, pair, sums[row], row)?;
    let (picture, spells) = (draw::sums(log.span(), &sums), sum.spells(0).map_err(told)?);
    let spells = draw::spells(log.span(), &spells);
    let histogram = histogram(&log, &columns.histogram().map_err(told)?)?;
    Ok(format!("{read}\n{added}\n\n{readings}\n{picture}Both had a reading:\n\n{spells}{compared}\n{histogram}"))
}

/// The places of the two tanks.
fn pair(log: &Log<Reading>, names: Option<[&OsString; 2]>) -> Result<[usize; 2], String> {
    if log.tanks.len() < 2 {
        return Err("There is 1 tank, and a sum takes two: ask a log of more.".to_string());
    }
    let Some([first, second]) = names else { return Ok([0, 1]) };
    let (first, second) = (named::tank(log, first)?, named::tank(log, second)?);
    if first == second {
        return Err(format!("`{}` is named twice: name two tanks.", log.tanks[first].name.text));
    }
    Ok([first, second])
}

fn names(log: &Log<Reading>, pair: [usize; 2]) -> [&str; 2] {
    pair.map(|tank| log.tanks[tank].name.text.as_str())
}

fn added_line(log: &Log<Reading>, pair: [usize; 2]) -> String {
    let both = names(log, pair).join(" and ");
    format!("Added: {both}, whose sum is the load of a biofilter that they share; in milligrams.")
}

/// Each tank's reading at a row, and the sum of the two there.
fn readings(
    log: &Log<Reading>,
    columns: &Columns,
    pair: [usize; 2],
    sum: Option<u64>,
    row: usize,
) -> Result<String, String> {
    let mut lines = Vec::new();
    for (place, tank) in log.tanks.iter().enumerate() {
        lines.push((tank.name.text.clone(), shown(columns.value(place, row).map_err(told)?)));
    }
    lines.push((names(log, pair).join(" + "), shown(sum)));
    let widest = |text: fn(&(String, String)) -> &str| lines.iter().map(|line| text(line).len()).max().unwrap_or(0);
    let (left, right) = (widest(|line| &line.0), widest(|line| &line.1));
    let lines: String = lines.iter().map(|(name, value)| format!("  {name:left$}  {value:>right$}\n")).collect();
    Ok(format!("{}:\n\n{lines}", log.span().moment(row).shown(true)))
}

fn shown(value: Option<u64>) -> String {
    value.map_or("none".to_string(), milligrams)
}

/// One line that says that plain addition gives the same sums, or at which half hour it does not.
fn compared(log: &Log<Reading>, pair: [usize; 2], sums: &[Option<u64>]) -> Result<String, String> {
    let [first, second] = pair.map(|tank| log.tanks[tank].entries.iter());
    let plain = first.zip(second).map(|(first, second)| Some(u64::from((*first)?) + u64::from((*second)?)));
    if let Some((row, (plain, sum))) = plain.zip(sums).enumerate().find(|(_, (plain, sum))| plain != *sum) {
        let (time, sum, plain) = (log.span().moment(row).shown(true), shown(*sum), shown(plain));
        return Err(format!(
            "{time}: the library's sum is {sum}, and plain addition's {plain}. Build it anew, with `build`."
        ));
    }
    Ok(match sums.iter().flatten().count() {
        0 => "Plain addition of the log's readings gives no sum either.\n".to_string(),
        n => format!("Plain addition of the log's readings gives the same {}.\n", count(n, "sum")),
    })
}

/// How many tanks had a reading at once, and for how long, unless plain counting gives other half hours.
fn histogram(log: &Log<Reading>, counts: &[usize]) -> Result<String, String> {
    let (all, half_hours) = (log.tanks.len(), log.span().rows);
    let mut plain = vec![0; all + 1];
    for row in 0..half_hours {
        plain[log.tanks.iter().filter(|tank| tank.entries[row].is_some()).count()] += 1;
    }
    if let Some(tanks) = (0..=all).find(|tanks| counts[*tanks] != plain[*tanks]) {
        let [counted, plain] = [counts[tanks], plain[tanks]].map(|n| count(n, "half hour"));
        return Err(format!(
            "The library counts {counted} in which {tanks} of the {all} tanks had a reading, and plain counting \
             {plain}. Build it anew, with `build`."
        ));
    }
    let (lines, half_hours) = (draw::histogram(counts), count(half_hours, "half hour"));
    Ok(format!(
        "How many of the {all} tanks had a reading at once, and how long:\n\n{lines}\nPlain counting of the log's \
         readings gives the same {half_hours}.\n"
    ))
}

#[cfg(test)]
mod tests {
    use super::*;

    fn log(first: &str, second: &str) -> Log<Reading> {
        let text = format!("tanks 2\nfrom 2026-03-09 23:30\ntank 1: {first}\ntank 2: {second}\n");
        Log::read(&text).unwrap_or_else(|fault| panic!("{}", fault.what))
    }

    #[test]
    fn the_same_sums_are_said_in_one_line() {
        let log = log("0.21 - 655.35 -", "0.20 0.30 655.35 -");
        let same = "Plain addition of the log's readings gives the same 2 sums.\n";
        assert_eq!(compared(&log, [0, 1], &[Some(41), None, Some(131_070), None]), Ok(same.to_string()));
    }

    #[test]
    fn one_sum_and_none() {
        let same = "Plain addition of the log's readings gives the same 1 sum.\n";
        assert_eq!(compared(&log("0.00", "0.00"), [1, 0], &[Some(0)]), Ok(same.to_string()));
        let none = "Plain addition of the log's readings gives no sum either.\n";
        assert_eq!(compared(&log("0.21 -", "- 0.21"), [0, 1], &[None, None]), Ok(none.to_string()));
    }

    #[test]
    fn the_same_half_hours_are_counted() {
        let log = log("0.21 - 655.35 -", "0.20 0.30 655.35 -");
        let same = "How many of the 2 tanks had a reading at once, and how long:\n\n\
                    \x20    just so many  so many or more\n  2  1 h           1 h\n  1  30 min        1 h 30 min\n\
                    \x20 0  30 min        2 h\n\nPlain counting of the log's readings gives the same 4 half hours.\n";
        assert_eq!(histogram(&log, &[1, 1, 2]), Ok(same.to_string()));
        for (counts, what) in [
            ([0, 2, 2], "0 half hours in which 0 of the 2 tanks had a reading, and plain counting 1 half hour."),
            ([1, 2, 1], "2 half hours in which 1 of the 2 tanks had a reading, and plain counting 1 half hour."),
            ([1, 1, 1], "1 half hour in which 2 of the 2 tanks had a reading, and plain counting 2 half hours."),
        ] {
            let what = format!("The library counts {what} Build it anew, with `build`.");
            assert_eq!(histogram(&log, &counts), Err(what));
        }
    }

    /// The first half hour at which they are not the same is told.
    #[test]
    fn any_other_sum_is_refused() {
        let log = log("0.21 - 655.35", "0.20 0.30 655.35");
        for (sums, what) in [
            ([Some(40), None, None], "Mon 9 Mar 2026 23:30: the library's sum is 0.40, and plain addition's 0.41."),
            ([None, None, None], "Mon 9 Mar 2026 23:30: the library's sum is none, and plain addition's 0.41."),
            (
                [Some(41), Some(30), None],
                "Tue 10 Mar 2026 00:00: the library's sum is 0.30, and plain addition's none.",
            ),
            (
                [Some(41), None, Some(65_534)],
                "Tue 10 Mar 2026 00:30: the library's sum is 655.34, and plain addition's 1,310.70.",
            ),
        ] {
            assert_eq!(compared(&log, [0, 1], &sums), Err(format!("{what} Build it anew, with `build`.")));
        }
    }
}
