//! Days one behind the other, counted from one that is known: a second calendar, beside the demo's.

// each file of tests uses a part of it
#![allow(dead_code)]

pub struct Day {
    pub year: u32,
    month: u32,
    day: u32,
    weekday: usize,
}

fn last_day(year: u32, month: u32) -> u32 {
    match month {
        2 if year % 400 == 0 => 29,
        2 if year % 100 == 0 => 28,
        2 if year % 4 == 0 => 29,
        2 => 28,
        4 | 6 | 9 | 11 => 30,
        _ => 31,
    }
}

impl Day {
    /// The day of `YYYY-MM-DD`, from 2000 on. 1 January 2000 was a Saturday.
    pub fn of(date: &str) -> Day {
        let mut day = Day { year: 2000, month: 1, day: 1, weekday: 5 };
        while day.written() != date {
            day = day.next();
        }
        day
    }

    /// `2026-03-02`.
    fn written(&self) -> String {
        format!("{}-{:02}-{:02}", self.year, self.month, self.day)
    }

    pub fn next(self) -> Day {
        let weekday = (self.weekday + 1) % 7;
        let Day { year, month, day, .. } = self;
        if day < last_day(year, month) {
            Day { year, month, day: day + 1, weekday }
        } else if month < 12 {
            Day { year, month: month + 1, day: 1, weekday }
        } else {
            Day { year: year + 1, month: 1, day: 1, weekday }
        }
    }

    /// `Mon  2 Mar` in a picture, and `Mon 2 Mar` elsewhere.
    pub fn shown(&self, with_year: bool, in_picture: bool) -> String {
        let weekday = &"MonTueWedThuFriSatSun"[3 * self.weekday..][..3];
        let month = &"JanFebMarAprMayJunJulAugSepOctNovDec"[3 * (self.month as usize - 1)..][..3];
        let gap = if in_picture && self.day < 10 { " " } else { "" };
        let year = if with_year { format!(" {}", self.year) } else { String::new() };
        format!("{weekday} {gap}{} {month}{year}", self.day)
    }
}

/// The half hours of a log and the one behind it: its date, and then its time of day.
pub fn half_hours(from: &str, rows: usize, with_year: bool) -> Vec<(String, String)> {
    each(from, rows, |day| day.shown(with_year, false))
}

/// The same, with dates as a question has them.
pub fn asked(from: &str, rows: usize) -> Vec<(String, String)> {
    each(from, rows, Day::written)
}

fn each(from: &str, rows: usize, shown: impl Fn(&Day) -> String) -> Vec<(String, String)> {
    let (date, time) = from.split_once(' ').expect("date and time");
    let mut day = Day::of(date);
    let clocks = (0..24).flat_map(|hour| ["00", "30"].map(|minute| format!("{hour:02}:{minute}")));
    let clocks: Vec<String> = clocks.collect();
    let mut at = clocks.iter().position(|clock| clock == time).expect("a half hour");
    let mut found = Vec::new();
    while found.len() <= rows {
        found.push((shown(&day), clocks[at].clone()));
        at += 1;
        if at == clocks.len() {
            (at, day) = (0, day.next());
        }
    }
    found
}
