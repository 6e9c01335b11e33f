//! Readings of ammonia: milligrams with two decimals in a log, hundredths of a milligram in a column.

use zvonurel::MOST_BITMAPS;

use crate::calendar::YEAR;
use crate::log::Entry;
use crate::number::grouped;
use crate::text::printable;

/// Hundredths of a milligram, or none where the probe gave no reading.
pub type Reading = Option<u32>;

/// The slices of a tank's column.
pub const SLICES: usize = 16;

/// The highest reading that so many slices hold.
const MOST: u32 = (1 << SLICES) - 1;

/// A log writes no reading so.
const NONE: &str = "-";

impl Entry for Reading {
    const NAME: &'static str = "reading";
    const EXAMPLE: &'static str = "0.21 0.20 -";
    const EACH: &'static str = "a reading or -";
    const TANKS: usize = 12;
    /// An index has room for the existence bitmap and the slices of so many tanks.
    const MOST_TANKS: usize = MOST_BITMAPS as usize / (1 + SLICES);
    /// Those of a year: each value that is asked goes through the whole column.
    const MOST_ROWS: usize = YEAR;
    const MOST_BYTES: usize = "655.35\r\n".len();
    const GOES_ON: bool = true;

    fn read(tank: &str, text: &str) -> Result<Vec<Reading>, String> {
        let words = text.split_whitespace().zip(1..);
        words
            .map(|(word, place)| {
                reading(word).map_err(|why| {
                    let word = printable(word);
                    format!("in `{tank}` reading {} of this line is `{word}`: {why}", grouped(place))
                })
            })
            .collect()
    }
}

/// A reading as a log writes it, or what is wrong with it.
fn reading(word: &str) -> Result<Reading, String> {
    if word == NONE {
        return Ok(None);
    }
    let (whole, decimals) = two_decimals(word)
        .ok_or_else(|| format!("write milligrams with two decimals, as 0.21, or {NONE} where there is none."))?;
    // where the digits are too many for a number, it is too high too
    match format!("{whole}{decimals}").parse() {
        Ok(hundredths) if hundredths <= MOST => Ok(Some(hundredths)),
        _ => {
            let most = milligrams(MOST.into());
            Err(format!("{most} is the most that can be asked: mend it, or write {NONE} where there is none."))
        }
    }
}

/// The digits before and behind the point: one or more, with no zero before others, and two.
fn two_decimals(word: &str) -> Option<(&str, &str)> {
    let (whole, decimals) = word.split_once('.')?;
    let digits = |text: &str| text.bytes().all(|byte| byte.is_ascii_digit());
    let led = whole.is_empty() || whole.len() > 1 && whole.starts_with('0');
    (digits(whole) && digits(decimals) && decimals.len() == 2 && !led).then_some((whole, decimals))
}

/// So many hundredths of a milligram: `0.21`, `1,310.70`.
pub fn milligrams(hundredths: u64) -> String {
    format!("{}.{:02}", grouped((hundredths / 100) as usize), hundredths % 100)
}

/// So many hundredths of a milligram more, or fewer: `+0.13`, `-0.05`, `0.00`.
pub fn change(hundredths: i64) -> String {
    let sign = match hundredths {
        ..0 => "-",
        0 => "",
        1.. => "+",
    };
    format!("{sign}{}", milligrams(hundredths.unsigned_abs()))
}

#[cfg(test)]
mod tests {
    use super::*;
    use crate::log::{Fault, Log};

    const HEAD: &str = "tanks 2\nfrom 2026-03-09 00:00\n";

    /// A refusal at this line, in these words.
    fn refused(tanks: &str, line: usize, what: &str) {
        let fault = Log::<Reading>::read(&format!("{HEAD}{tanks}")).err();
        assert_eq!(fault, Some(Fault { line: Some(line), what: what.to_string() }), "{tanks}");
    }

    #[test]
    fn a_reading_is_milligrams_with_two_decimals_or_a_dash() {
        for (word, hundredths) in
            [("0.00", 0), ("0.01", 1), ("0.20", 20), ("1.05", 105), ("12.34", 1_234), ("655.35", 65_535)]
        {
            assert_eq!(reading(word), Ok(Some(hundredths)));
            assert_eq!(milligrams(hundredths.into()), word);
        }
        assert_eq!(reading("-"), Ok(None));
        assert_eq!(milligrams(131_070), "1,310.70");
    }

    /// Nothing has no sign.
    #[test]
    fn a_change_has_its_sign() {
        let shown = [-65_535, -100, -99, -1, 0, 1, 13, 100, 65_535, 131_070].map(change);
        let expected =
            ["-655.35", "-1.00", "-0.99", "-0.01", "0.00", "+0.01", "+0.13", "+1.00", "+655.35", "+1,310.70"];
        assert_eq!(shown, expected);
    }

    #[test]
    fn other_words_are_no_reading() {
        let words =
            ",.,0,3,0.,.21,0.2,0.215,0.2150,00.21,01.21,0.2l,O.21,-0.21,+0.21,0.-1,0.+1,0.21.,0..21,0.2.1,1e2.00,\
                     --,\u{2013},\u{2212},n,0.2\u{662},0.21mg,\u{200b}0.21";
        for word in words.split(',').chain(["0,21", "1,000.00"]) {
            let what = "write milligrams with two decimals, as 0.21, or - where there is none.";
            assert_eq!(reading(word), Err(what.to_string()), "{word}");
        }
    }

    #[test]
    fn a_reading_is_no_more_than_the_slices_hold() {
        for word in ["655.36", "656.00", "700.00", "1000.00", "42949672.96", "42949673.17", "99999999999999999999.00"] {
            let what = "655.35 is the most that can be asked: mend it, or write - where there is none.";
            assert_eq!(reading(word), Err(what.to_string()), "{word}");
        }
    }

    #[test]
    fn readings_go_on_below_a_tank() {
        let text = format!("{HEAD}tank 1:\n# a remark\n 0.21\t-\r\n\n0.30\ntank 2: 1.00 -\n-\n");
        let log = Log::<Reading>::read(&text).expect("a log");
        let readings: Vec<&[Reading]> = log.tanks.iter().map(|tank| tank.entries.as_slice()).collect();
        assert_eq!(readings, [[Some(21), None, Some(30)], [Some(100), None, None]]);
        assert_eq!((log.tanks[1].name.text.as_str(), log.span().rows), ("tank 2", 3));
    }

    #[test]
    fn a_wrong_reading_is_told_with_its_place_in_the_line() {
        let mend = "write milligrams with two decimals, as 0.21, or - where there is none.";
        refused("t1: 0.21 0,22", 3, &format!("in `t1` reading 2 of this line is `0,22`: {mend}"));
        refused("t1: 0.21 0.22\n- - \u{1b}", 4, &format!("in `t1` reading 3 of this line is `\\u{{1b}}`: {mend}"));
        // a colon was left out
        refused("t1: 0.21\nt2 0.21\n", 4, &format!("in `t1` reading 1 of this line is `t2`: {mend}"));
    }

    #[test]
    fn readings_stand_below_a_tank() {
        let what = "this line has no colon: write a tank's name, a colon and its readings, as `tank 1: 0.21 0.20 -`.";
        refused("0.21 0.20\n", 3, what);
    }

    /// What is wrong with a tank as a whole is told at its name, once another line shows that it is over.
    #[test]
    fn every_tank_has_as_many_readings() {
        let what = "`t2` has 1 reading, and `t1` on line 3 has 3: give each tank a reading or - for every half hour.";
        refused("t1: 0.21 -\n0.21\nt2: -\n", 5, what);
        refused("t1: 0.21 -\n0.21\nt2: -\ntanks 2\n", 5, what);
        let what = "`t1` has no readings: write one for each half hour behind the colon, as `t1: 0.21 0.20 -`.";
        refused("t1:\n# 0.21\nt2:\nx", 3, what);
    }

    #[test]
    fn readings_are_no_more_than_those_of_a_year() {
        let year = "- ".repeat(Reading::MOST_ROWS - 1);
        assert!(Log::<Reading>::read(&format!("{HEAD}t1: {year}\n-\nt2: {year} -\n")).is_ok());
        let what = "`t1` has 17,569 readings, and 17,568 are the most that can be asked: split the log by time.";
        refused(&format!("t1: {year}\n0.21 0.20\nt2: -\n"), 3, what);
    }
}
