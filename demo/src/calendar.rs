//! Dates of the Gregorian calendar, also before it was in use, and the half hours of their days.
//!
//! Days are counted from 1 January of year 1, which was a Monday.

use crate::text::printable;

const WEEKDAYS: [&str; 7] = ["Mon", "Tue", "Wed", "Thu", "Fri", "Sat", "Sun"];
const MONTHS: [&str; 12] = ["Jan", "Feb", "Mar", "Apr", "May", "Jun", "Jul", "Aug", "Sep", "Oct", "Nov", "Dec"];

/// Half hours in a day.
pub const DAY: usize = 48;
/// The most half hours in a year.
pub const YEAR: usize = 366 * DAY;

/// A day that there is.
#[derive(Clone, Copy, Debug, PartialEq, Eq)]
pub struct Date {
    pub year: usize,
    /// From 1 to 12.
    month: usize,
    /// From 1 on.
    day: usize,
}

/// When a half hour begins: how many half hours after the first day's 00:00.
#[derive(Clone, Copy, Debug, PartialEq, Eq)]
pub struct Moment(usize);

/// Half hours one behind the other: the rows of a log.
#[derive(Clone, Copy)]
pub struct Span {
    pub from: Moment,
    /// How many there are.
    pub rows: usize,
}

fn is_leap(year: usize) -> bool {
    year % 4 == 0 && (year % 100 != 0 || year % 400 == 0)
}

fn month_days(year: usize, month: usize) -> usize {
    match month {
        2 => 28 + usize::from(is_leap(year)),
        4 | 6 | 9 | 11 => 30,
        _ => 31,
    }
}

/// The days of all years before this one.
fn days_before(year: usize) -> usize {
    let past = year - 1;
    365 * past + past / 4 - past / 100 + past / 400
}

/// A number of just so many digits.
fn digits(text: &str, width: usize) -> Option<usize> {
    let plain = text.len() == width && text.bytes().all(|byte| byte.is_ascii_digit());
    text.parse().ok().filter(|_| plain)
}

impl Date {
    /// The day that `YYYY-MM-DD` names, if there is one; the years begin with 0001.
    fn read(text: &str) -> Option<Date> {
        let (year, rest) = text.split_once('-')?;
        let (month, day) = rest.split_once('-')?;
        let year = digits(year, 4).filter(|year| *year >= 1)?;
        let month = digits(month, 2).filter(|month| (1..=12).contains(month))?;
        let day = digits(day, 2).filter(|day| (1..=month_days(year, month)).contains(day))?;
        Some(Date { year, month, day })
    }

    /// How many days after the first.
    fn number(self) -> usize {
        let months: usize = (1..self.month).map(|month| month_days(self.year, month)).sum();
        days_before(self.year) + months + self.day - 1
    }

    /// The day so many days after the first. A year has at most 366 days, so the search does not begin past its year.
    fn numbered(number: usize) -> Date {
        let mut year = number / 366 + 1;
        while days_before(year + 1) <= number {
            year += 1;
        }
        let (mut month, mut day) = (1, number - days_before(year) + 1);
        while day > month_days(year, month) {
            day -= month_days(year, month);
            month += 1;
        }
        Date { year, month, day }
    }

    pub fn tomorrow(self) -> Date {
        Date::numbered(self.number() + 1)
    }

    /// `Wed 4 Mar`, with the day of the month in so many places, and the year behind it where it is wanted.
    pub fn shown(self, width: usize, with_year: bool) -> String {
        let weekday = WEEKDAYS[self.number() % WEEKDAYS.len()];
        let year = if with_year { format!(" {}", self.year) } else { String::new() };
        format!("{weekday} {:width$} {}{year}", self.day, MONTHS[self.month - 1])
    }
}

/// Which half hour of its day `HH:MM` begins, from 00:00 to 23:30.
fn half_hour(text: &str) -> Option<usize> {
    let (hour, minute) = text.split_once(':')?;
    let hour = digits(hour, 2).filter(|hour| *hour < 24)?;
    let half = ["00", "30"].iter().position(|half| *half == minute)?;
    Some(2 * hour + half)
}

impl Moment {
    /// The half hour that begins at a date and a time of day, or what is wrong with one of them.
    pub fn read(date: &str, time: &str) -> Result<Moment, String> {
        let day = Date::read(date).ok_or_else(|| format!("`{}` is no date", printable(date)))?;
        let half_hour = half_hour(time)
            .ok_or_else(|| format!("`{}` is none of the times 00:00, 00:30 and so on to 23:30", printable(time)))?;
        Ok(Moment(day.number() * DAY + half_hour))
    }

    /// So many half hours later.
    pub fn after(self, half_hours: usize) -> Moment {
        Moment(self.0 + half_hours)
    }

    pub fn date(self) -> Date {
        Date::numbered(self.0 / DAY)
    }

    /// Which half hour of its day it begins.
    pub fn half_hour(self) -> usize {
        self.0 % DAY
    }

    /// The time of day: `22:30`.
    pub fn clock(self) -> String {
        format!("{:02}:{:02}", self.half_hour() / 2, self.half_hour() % 2 * 30)
    }

    /// `Wed 4 Mar 22:30`, or `Wed 4 Mar 2026 22:30`.
    pub fn shown(self, with_year: bool) -> String {
        format!("{} {}", self.date().shown(1, with_year), self.clock())
    }
}

impl Span {
    /// When half hour `row` begins, or the last is over.
    pub fn moment(self, row: usize) -> Moment {
        self.from.after(row)
    }

    /// When the last half hour is over.
    pub fn end(self) -> Moment {
        self.moment(self.rows)
    }

    /// Which half hour begins then, if one does.
    pub fn row(self, moment: Moment) -> Option<usize> {
        moment.0.checked_sub(self.from.0).filter(|row| *row < self.rows)
    }

    /// On how many days its half hours begin.
    pub fn days(self) -> usize {
        (self.from.half_hour() + self.rows).div_ceil(DAY)
    }

    /// Whether dates need their year: it begins in one and ends in another.
    pub fn with_year(self) -> bool {
        self.from.date().year != self.end().date().year
    }
}

#[cfg(test)]
mod tests {
    use super::*;

    #[test]
    fn each_day_comes_behind_the_one_before() {
        let mut date = Date::numbered(0);
        assert_eq!(date, Date { year: 1, month: 1, day: 1 });
        for number in 0..days_before(2101) {
            assert_eq!((Date::numbered(number), date.number()), (date, number));
            let last = date.day == month_days(date.year, date.month);
            date = match (last, date.month) {
                (false, _) => Date { day: date.day + 1, ..date },
                (true, 12) => Date { year: date.year + 1, month: 1, day: 1 },
                (true, _) => Date { month: date.month + 1, day: 1, ..date },
            };
        }
        assert_eq!(date, Date { year: 2101, month: 1, day: 1 });
    }

    /// Days that other calendars show.
    #[test]
    fn weekdays_are_those_of_the_calendar() {
        for (text, shown) in [
            ("1582-10-15", "Fri 15 Oct 1582"),
            ("1900-03-01", "Thu 1 Mar 1900"),
            ("1970-01-01", "Thu 1 Jan 1970"),
            ("2000-02-29", "Tue 29 Feb 2000"),
            ("2024-02-29", "Thu 29 Feb 2024"),
            ("2026-03-02", "Mon 2 Mar 2026"),
            ("9999-12-31", "Fri 31 Dec 9999"),
        ] {
            assert_eq!(Date::read(text).expect(text).shown(1, true), shown);
        }
    }

    #[test]
    fn leap_years_are_every_fourth_but_three_in_four_hundred() {
        for (year, leap) in [(1900, false), (2000, true), (2023, false), (2024, true), (2100, false), (2400, true)] {
            assert_eq!(Date::read(&format!("{year}-02-29")).is_some(), leap, "{year}");
            assert_eq!(days_before(year + 1) - days_before(year), if leap { 366 } else { 365 }, "{year}");
        }
    }

    #[test]
    fn months_have_their_days() {
        let days: Vec<usize> = (1..=12).map(|month| month_days(2026, month)).collect();
        assert_eq!(days, [31, 28, 31, 30, 31, 30, 31, 31, 30, 31, 30, 31]);
    }

    #[test]
    fn other_dates_are_none() {
        for text in [
            "2026-02-29",
            "2026-02-30",
            "2026-04-31",
            "2026-13-01",
            "2026-00-10",
            "2026-01-00",
            "2026-01-32",
            "0000-01-01",
            "2026-3-02",
            "2026-03-2",
            "26-03-02",
            "02026-03-02",
            "2026-03-02-",
            "2026/03/02",
            "+026-03-02",
            "2026-03",
            "",
        ] {
            assert_eq!(Date::read(text), None, "{text}");
        }
    }

    #[test]
    fn times_are_on_the_half_hour() {
        let read = ["00:00", "00:30", "01:00", "12:30", "23:30"].map(half_hour);
        assert_eq!(read, [Some(0), Some(1), Some(2), Some(25), Some(47)]);
        for text in ["24:00", "00:15", "0:30", "00:3", "00:300", "00.30", "0030", "00:30:00", "-1:00", "+1:00", ""] {
            assert_eq!(half_hour(text), None, "{text}");
        }
    }

    #[test]
    fn half_hours_go_on_past_midnight() {
        let from = Moment::read("2024-02-28", "23:30").expect("a half hour");
        assert_eq!(from.shown(true), "Wed 28 Feb 2024 23:30");
        assert_eq!(from.after(1).shown(false), "Thu 29 Feb 00:00");
        assert_eq!(from.after(1 + DAY).shown(true), "Fri 1 Mar 2024 00:00");
        assert_eq!(from.date().tomorrow().shown(2, true), "Thu 29 Feb 2024");
        assert_eq!(from.after(2 + DAY).date().shown(2, false), "Fri  1 Mar");
    }

    #[test]
    fn what_is_no_half_hour_is_told() {
        for (date, time, what) in [
            ("2026-02-29", "24:00", "`2026-02-29` is no date"),
            ("\u{1b}", "00:00", "`\\u{1b}` is no date"),
            ("2026-02-28", "24:00", "`24:00` is none of the times 00:00, 00:30 and so on to 23:30"),
            ("2026-02-28", "\0", "`\\0` is none of the times 00:00, 00:30 and so on to 23:30"),
        ] {
            assert_eq!(Moment::read(date, time), Err(what.to_string()));
        }
    }

    #[test]
    fn a_span_has_the_half_hours_from_its_first_to_its_end() {
        let moment = |text: &str| text.split_once(' ').map(|(date, time)| Moment::read(date, time).expect(text));
        let from = moment("2025-12-31 23:00").expect("a half hour");
        let span = Span { from, rows: 51 };
        assert_eq!((span.days(), span.with_year()), (3, true));
        assert_eq!(span.end().shown(true), "Fri 2 Jan 2026 00:30");
        for (text, row) in [
            ("2025-12-31 22:30", None),
            ("2025-12-31 23:00", Some(0)),
            ("2026-01-01 00:00", Some(2)),
            ("2026-01-02 00:00", Some(50)),
            ("2026-01-02 00:30", None),
            ("2027-01-01 00:00", None),
        ] {
            assert_eq!(span.row(moment(text).expect("a half hour")), row, "{text}");
        }
        let span = Span { from, rows: 1 };
        assert_eq!((span.days(), span.with_year(), span.end().shown(false)), (1, false, "Wed 31 Dec 23:30".into()));
        let span = Span { from, rows: 2 };
        assert_eq!((span.days(), span.with_year(), span.end().shown(false)), (1, true, "Thu 1 Jan 00:00".into()));
    }
}
