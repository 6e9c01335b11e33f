//! An answer for the eye: a line for each day, a sign for two hours, and each spell with its times.

use std::cmp::Reverse;

use zvonurel::Spell;

use crate::calendar::{Span, DAY};
use crate::number::{count, grouped};
use crate::reading::{change, milligrams};

/// Half hours that a sign stands for.
const SIGN: usize = 4;
const SIGNS_A_DAY: usize = DAY / SIGN;
/// The hours of a day, each over the sign that begins then.
const HOURS: &str = "0  6  12 18 24";

/// Hundredths of a milligram: a change of no more than the first is about none, since a probe is hardly finer, and one
/// of more than the second is one to look after.
const SLIGHT: u32 = 2;
const STEEP: u32 = 20;

/// The signs of the days, from the first day's 00:00 on: `#` where all of the two hours was so, `+` where part of them
/// was, `.` where none was, and a blank where none is in the log.
fn signs(span: Span, rows: &[u32]) -> Vec<char> {
    let begins = span.from.half_hour();
    let ends = begins + span.rows;
    let mut held = vec![0; span.days() * SIGNS_A_DAY];
    for row in rows {
        held[(begins + *row as usize) / SIGN] += 1;
    }
    let sign = |(i, n): (usize, usize)| match n {
        SIGN => '#',
        0 if (i + 1) * SIGN <= begins || i * SIGN >= ends => ' ',
        0 => '.',
        _ => '+',
    };
    held.into_iter().enumerate().map(sign).collect()
}

/// The days, a line each: its signs, and behind them what is beside. The first line has the hours and a heading.
fn days(span: Span, signs: &[char], heading: &str, beside: &[String]) -> String {
    let mut day = span.from.date();
    let margin = " ".repeat(day.shown(2, span.with_year()).len() + " |".len());
    let mut text = format!("{margin}{HOURS}{heading}\n");
    for (signs, beside) in signs.chunks(SIGNS_A_DAY).zip(beside) {
        let signs: String = signs.iter().collect();
        text += &format!("{} |{signs}|{beside}\n", day.shown(2, span.with_year()));
        day = day.tomorrow();
    }
    text
}

/// When it was so, below what the signs mean.
pub fn picture(span: Span, rows: &[u32]) -> String {
    let signs = signs(span, rows);
    let blank = if signs.contains(&' ') { ", blank not in the log" } else { "" };
    let days = days(span, &signs, "", &vec![String::new(); span.days()]);
    format!("# all of two hours, + part, . none{blank}\n\n{days}")
}

/// The highest value of each part of the days, from the first day's 00:00 on, and the first half hour that has it.
fn highest<T: Copy + Ord>(span: Span, values: &[Option<T>], part: usize) -> Vec<Option<(T, Reverse<usize>)>> {
    let mut parts = vec![None; span.days() * DAY / part];
    for (row, value) in values.iter().enumerate() {
        let highest = &mut parts[(span.from.half_hour() + row) / part];
        *highest = (*highest).max(value.map(|value| (value, Reverse(row))));
    }
    parts
}

/// How high the sums were in each two hours, below what the signs mean, and the highest of each day with its time.
pub fn sums(span: Span, sums: &[Option<u64>]) -> String {
    let Some(top) = sums.iter().copied().flatten().max() else { return String::new() };
    let sign = |highest: Option<(u64, _)>| match highest {
        None => ' ',
        Some((sum, _)) if 2 * sum > top => '#',
        Some((sum, _)) if 4 * sum > top => '+',
        Some(_) => '.',
    };
    let signs: Vec<char> = highest(span, sums, SIGN).into_iter().map(sign).collect();
    let top = milligrams(top);
    let beside = |highest: Option<(u64, Reverse<usize>)>| match highest {
        None => format!("   {:>width$}", "none", width = top.len()),
        Some((sum, Reverse(row))) => {
            format!("   {:>width$} at {}", milligrams(sum), span.moment(row).clock(), width = top.len())
        }
    };
    let beside: Vec<String> = highest(span, sums, DAY).into_iter().map(beside).collect();
    let blank = if signs.contains(&' ') { ", blank no sum" } else { "" };
    let days = days(span, &signs, "  highest sum", &beside);
    format!("Two hours at their highest: # over half of {top}, + over a quarter, . less{blank}\n\n{days}\n")
}

/// How the readings changed in each two hours, below what the signs mean, and the greatest rise of each day with its
/// time and its readings. A rise is a change with 0 for a fall.
pub fn changes(
    span: Span,
    changes: &[Option<i64>],
    rises: &[Option<u64>],
    readings: impl Fn(usize) -> String,
) -> String {
    let sign = |highest: Option<(i64, _)>| match highest {
        None => ' ',
        Some((by, _)) if by > STEEP.into() => '#',
        Some((by, _)) if by > SLIGHT.into() => '+',
        Some((by, _)) if -by > SLIGHT.into() => '-',
        Some(_) => '.',
    };
    let signs: Vec<char> = highest(span, changes, SIGN).into_iter().map(sign).collect();
    let shown = |rise: Option<u64>| rise.map_or("none".to_string(), |rise| change(rise as i64));
    let width = shown(rises.iter().copied().flatten().max()).len();
    let beside = |highest: Option<(u64, Reverse<usize>)>| {
        let at = match highest {
            Some((1.., Reverse(row))) => format!(" at {}, {}", span.moment(row).clock(), readings(row)),
            _ => String::new(),
        };
        format!("   {:>width$}{at}", shown(highest.map(|(rise, _)| rise)))
    };
    let beside: Vec<String> = highest(span, rises, DAY).into_iter().map(beside).collect();
    let [slight, steep] = [SLIGHT, STEEP].map(|by| milligrams(by.into()));
    let days = days(span, &signs, "  greatest rise", &beside);
    // the first day has none before it, so that there are blanks
    format!(
        "Two hours by their greatest rise: # over {steep}, + over {slight}, . about the same, - all fell by over \
         {slight}, blank not compared\n\n{days}\n"
    )
}

/// So many half hours: `10 h 30 min`, `4 h`, `30 min`.
pub fn length(half_hours: usize) -> String {
    let hours = grouped(half_hours / 2);
    match (half_hours / 2, half_hours % 2) {
        (0, 1) => "30 min".to_string(),
        (_, 0) => format!("{hours} h"),
        _ => format!("{hours} h 30 min"),
    }
}

/// How long so many tanks had a reading, and how long so many or more had one, from the most on: `counts` has the half
/// hours of each number of tanks, from none on. A number of no half hour is left out.
pub fn histogram(counts: &[usize]) -> String {
    let mut lines = vec![["", "just so many", "so many or more"].map(str::to_string)];
    let mut or_more = 0;
    for (tanks, half_hours) in counts.iter().enumerate().rev().filter(|(_, half_hours)| **half_hours > 0) {
        or_more += half_hours;
        lines.push([tanks.to_string(), length(*half_hours), length(or_more)]);
    }
    let widest = |column: usize| lines.iter().map(|line| line[column].len()).max().unwrap_or(0);
    let (left, middle) = (widest(0), widest(1));
    lines.iter().map(|[tanks, just, more]| format!("  {tanks:>left$}  {just:middle$}  {more}\n")).collect()
}

/// A spell from its first half hour to the end of its last. Its end has a date where that is another day.
pub fn spell(span: Span, spell: &Spell) -> String {
    let (first, half_hours) = (spell.first as usize, spell.length as usize);
    let (from, to) = (span.moment(first), span.moment(first + half_hours));
    let end = if from.date() == to.date() { to.clock() } else { to.shown(span.with_year()) };
    format!("{} to {end}, {}", from.shown(span.with_year()), length(half_hours))
}

/// Each spell on a line, and the time of all together.
pub fn spells(span: Span, spells: &[Spell]) -> String {
    if spells.is_empty() {
        return "At no time.\n".to_string();
    }
    let lines: String = spells.iter().map(|found| format!("  {}\n", spell(span, found))).collect();
    let all: usize = spells.iter().map(|spell| spell.length as usize).sum();
    format!("{lines}\nIn all {} in {}.\n", length(all), count(spells.len(), "spell"))
}

#[cfg(test)]
mod tests {
    use super::*;
    use crate::calendar::Moment;

    /// So many half hours, from a date and time on.
    fn span(from: &str, rows: usize) -> Span {
        let (date, time) = from.split_once(' ').expect("a date and a time");
        Span { from: Moment::read(date, time).expect(from), rows }
    }

    #[test]
    fn a_sign_is_two_hours() {
        let span = span("2026-03-02 00:00", 2 * DAY);
        let rows: Vec<u32> = [0, 1, 2, 3, 7, 45].into_iter().chain(48..96).collect();
        let expected = "# all of two hours, + part, . none\n\n            0  6  12 18 24\n\
                        Mon  2 Mar |#+.........+|\nTue  3 Mar |############|\n";
        assert_eq!(picture(span, &rows), expected);
    }

    #[test]
    fn what_is_not_in_the_log_is_blank_and_never_counts_as_so() {
        let span = span("2024-12-31 21:30", 10);
        let expected = "# all of two hours, + part, . none, blank not in the log\n\n                 0  6  12 18 24\n\
                        Tue 31 Dec 2024 |          .#|\nWed  1 Jan 2025 |#+          |\n";
        assert_eq!(picture(span, &[1, 2, 3, 4, 5, 6, 7, 8, 9]), expected);
        assert!(picture(span, &[0]).contains("|          +.|"));
    }

    #[test]
    fn a_sign_is_the_highest_sum_of_two_hours() {
        let mut found = vec![Some(50); 2 * DAY];
        // over half, half, over a quarter, and a quarter
        (found[0], found[5], found[8], found[15]) = (Some(101), Some(100), Some(51), Some(200));
        found[16..20].fill(None);
        found[21..24].fill(None);
        found[DAY..].fill(None);
        let expected = "Two hours at their highest: # over half of 2.00, + over a quarter, . less, blank no sum\n\n\
                        \x20           0  6  12 18 24  highest sum\n\
                        Mon  2 Mar |#++# .......|   2.00 at 07:30\nTue  3 Mar |            |   none\n\n";
        assert_eq!(sums(span("2026-03-02 00:00", 2 * DAY), &found), expected);
        assert!(!sums(span("2026-03-02 00:00", DAY), &[Some(0); DAY]).contains("blank"));
        assert_eq!(sums(span("2026-03-02 00:00", 3), &[None; 3]), "");
    }

    /// A day begins at 00:00, whenever the log does, and of equal sums the first is told.
    #[test]
    fn the_highest_sum_of_a_day_has_its_time() {
        let text = sums(span("2025-12-31 22:30", 6), &[Some(1), Some(7), Some(7), Some(131_070), None, Some(131_070)]);
        let expected = "\x20                0  6  12 18 24  highest sum\n\
                        Wed 31 Dec 2025 |           .|       0.07 at 23:00\n\
                        Thu  1 Jan 2026 |#           |   1,310.70 at 00:00\n\n";
        assert!(text.ends_with(expected), "{text}");
    }

    /// Nothing is over half of a highest sum of 0.
    #[test]
    fn sums_of_nothing_are_low() {
        let text = sums(span("2026-03-02 00:00", 8), &[Some(0); 8]);
        assert!(text.ends_with("\nMon  2 Mar |..          |   0.00 at 00:00\n\n"), "{text}");
    }

    /// Just over a bound, and at it, to both sides; the most upward of the four half hours counts.
    #[test]
    fn a_sign_is_the_greatest_rise_of_two_hours() {
        let mut found = vec![None; 2 * DAY];
        for (sign, by) in [21, 20, 3, 2, 0, -2, -3, -65_535].into_iter().enumerate() {
            found[DAY + SIGN * sign + 1] = Some(by);
        }
        (found[DAY + 24], found[DAY + 26], found[DAY + 28]) = (Some(-4), Some(-5), Some(1));
        let rises: Vec<Option<u64>> = found.iter().map(|by| by.map(|by: i64| by.max(0) as u64)).collect();
        let readings = |row: usize| format!("row {row}");
        let expected = "Two hours by their greatest rise: # over 0.20, + over 0.02, . about the same, - all fell by \
                        over 0.02, blank not compared\n\n            0  6  12 18 24  greatest rise\n\
                        Mon  2 Mar |            |    none\nTue  3 Mar |#++...-.    |   +0.21 at 00:30, row 49\n\n";
        assert_eq!(changes(span("2026-03-02 00:00", 2 * DAY), &found, &rises, readings), expected);
    }

    /// Without a rise the greatest is 0, at no time; of equal ones the first is told.
    #[test]
    fn the_greatest_rise_of_a_day_has_its_time() {
        let found = [Some(-7), Some(0), Some(131), Some(131_070), None, Some(131_070)];
        let rises = [Some(0), Some(0), Some(131), Some(131_070), None, Some(131_070)];
        let text = changes(span("2025-12-31 23:00", 6), &found, &rises, |row| format!("row {row}"));
        let expected = "Wed 31 Dec 2025 |           .|        0.00\n\
                        Thu  1 Jan 2026 |#           |   +1,310.70 at 00:30, row 3\n\n";
        assert!(text.ends_with(expected), "{text}");
        let text = changes(span("2026-03-02 00:00", 5), &[Some(-3); 5], &[Some(0); 5], |row| format!("row {row}"));
        assert!(text.ends_with("\nMon  2 Mar |--          |   0.00\n\n"), "{text}");
    }

    #[test]
    fn a_length_is_in_hours_and_half_hours() {
        let shown = [1, 2, 3, 8, 21, 48, 2_000, 2_001].map(length);
        let expected = ["30 min", "1 h", "1 h 30 min", "4 h", "10 h 30 min", "24 h", "1,000 h", "1,000 h 30 min"];
        assert_eq!(shown, expected);
    }

    /// The half hours of 12 tanks at once, of 9, of 1, and of none.
    #[test]
    fn a_histogram_goes_from_the_most_tanks_to_the_fewest() {
        let mut counts = [0; 13];
        (counts[12], counts[9], counts[1], counts[0]) = (201, 3, 2_000, 1);
        let expected = "      just so many  so many or more\n  12  100 h 30 min  100 h 30 min\n\
                        \x20  9  1 h 30 min    102 h\n   1  1,000 h       1,102 h\n\
                        \x20  0  30 min        1,102 h 30 min\n";
        assert_eq!(histogram(&counts), expected);
        assert_eq!(histogram(&[1, 0]), "     just so many  so many or more\n  0  30 min        30 min\n");
    }

    #[test]
    fn spells_have_dates_and_a_sum() {
        let span = span("2026-03-02 00:00", 4 * DAY);
        let found = [(4, 4), (47, 1), (93, 21), (144, 48)].map(|(first, length)| Spell { first, length });
        let expected = "  Mon 2 Mar 02:00 to 04:00, 2 h\n  Mon 2 Mar 23:30 to Tue 3 Mar 00:00, 30 min\n\
                        \x20 Tue 3 Mar 22:30 to Wed 4 Mar 09:00, 10 h 30 min\n\
                        \x20 Thu 5 Mar 00:00 to Fri 6 Mar 00:00, 24 h\n\nIn all 37 h in 4 spells.\n";
        assert_eq!(spells(span, &found), expected);
        assert!(spells(span, &found[..1]).ends_with("In all 2 h in 1 spell.\n"));
        assert_eq!(spells(span, &[]), "At no time.\n");
    }

    #[test]
    fn years_are_shown_where_the_end_is_in_another() {
        let spell = [Spell { first: 0, length: 2 }];
        let text = spells(span("2025-12-31 23:00", 2), &spell);
        assert!(text.starts_with("  Wed 31 Dec 2025 23:00 to Thu 1 Jan 2026 00:00, 1 h\n"), "{text}");
        let text = spells(span("2025-12-31 22:30", 2), &spell);
        assert!(text.starts_with("  Wed 31 Dec 22:30 to 23:30, 1 h\n"), "{text}");
    }
}
