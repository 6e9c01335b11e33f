//! What is wrong with a question on readings is refused: exit status 1, one sentence on the error stream, nothing on
//! standard output.

mod common;

use std::ffi::OsStr;
use std::os::unix::ffi::OsStrExt;
use std::path::PathBuf;

use common::{ammonia, readings_text, Folder};

const HEAD: &str = "tanks 2\nfrom 2026-03-09 00:00\n";

/// Asks a log of these bytes, which is refused with its name, what stands here behind it, and the closing words.
fn log_refused(bytes: impl AsRef<[u8]>, words: &str) {
    let folder = Folder::new();
    let log = folder.write("log.txt", bytes);
    ammonia(&[log.as_os_str()]).refused(&format!("{}{words}", log.display()));
}

/// Two tanks, of the four half hours from Mon 9 Mar 2026 23:00 on.
fn small_log(folder: &Folder) -> PathBuf {
    folder.write("log.txt", readings_text("2026-03-09 23:00", &[vec![Some(21); 4], vec![None; 4]], 4))
}

/// Asks the small log for these words, which are refused so.
fn words_refused(words: &[&str], why: &str) {
    let folder = Folder::new();
    let log = small_log(&folder);
    let words: Vec<&OsStr> = words.iter().map(OsStr::new).collect();
    ammonia(&[&[log.as_os_str()], &words[..]].concat()).refused(why);
}

#[test]
fn a_word_that_is_no_reading() {
    let mend = "write milligrams with two decimals, as 0.21, or - where there is none.";
    for (word, shown) in [
        ("x", "x"),
        ("g", "g"),
        ("0.2x", "0.2x"),
        ("0,21", "0,21"),
        ("0.215", "0.215"),
        ("0.2", "0.2"),
        ("3", "3"),
        (".21", ".21"),
        ("00.21", "00.21"),
        ("-0.21", "-0.21"),
        ("--", "--"),
        ("\u{2013}", "\u{2013}"),
        ("0.21mg", "0.21mg"),
        ("\u{1b}[2J", "\\u{1b}[2J"),
        ("0.21\u{200b}", "0.21\\u{200b}"),
        ("\0", "\\0"),
    ] {
        let words = format!(", line 3: in `tank 1` reading 3 of this line is `{shown}`: {mend}");
        log_refused(format!("{HEAD}tank 1: 0.21 - {word} 0.20\n"), &words);
        let words = format!(", line 5: in `tank 1` reading 2 of this line is `{shown}`: {mend}");
        log_refused(format!("{HEAD}tank 1: 0.21\n# remark\n0.20 {word} x\ntank 2: x\n"), &words);
    }
}

#[test]
fn a_reading_that_is_too_high() {
    for word in ["655.36", "700.00", "1000.00", "42949672.96", "99999999999999999999.99"] {
        let words = format!(
            ", line 4: in `tank 2` reading 1 of this line is `{word}`: 655.35 is the most that can be asked: mend it, \
             or write - where there is none."
        );
        log_refused(format!("{HEAD}tank 1: 655.35\ntank 2: {word}\n"), &words);
    }
}

#[test]
fn unequal_numbers_of_readings() {
    let mend = "give each tank a reading or - for every half hour.";
    for (readings, number) in [("0.21 -", "2 readings"), ("-", "1 reading"), ("0.21\n0.22 -\n0.24 0.25", "5 readings")]
    {
        let words = format!(", line 5: `tank 2` has {number}, and `tank 1` on line 3 has 4: {mend}");
        log_refused(format!("{HEAD}tank 1: 0.21 -\n0.22 0.23\ntank 2: {readings}\n"), &words);
    }
}

#[test]
fn a_tank_without_readings() {
    let words = "`tank 1` has no readings: write one for each half hour behind the colon, as `tank 1: 0.21 0.20 -`.";
    log_refused(format!("{HEAD}tank 1:\ntank 2: 0.21\n"), &format!(", line 3: {words}"));
    log_refused(format!("{HEAD}tank 1:\n\n# 0.21\n"), &format!(", line 3: {words}"));
}

#[test]
fn readings_below_no_tank() {
    log_refused(
        format!("{HEAD}0.21 0.22\n"),
        ", line 3: this line has no colon: write a tank's name, a colon and its readings, as `tank 1: 0.21 0.20 -`.",
    );
    log_refused(format!("{HEAD}: 0.21\n"), ", line 3: this tank has no name: write one before the colon, as `tank 1`.");
}

#[test]
fn a_tank_twice() {
    let mend = "mend the name, or take one of the two out.";
    log_refused(
        format!("{HEAD}tank 1: 0.21\n-\ntank 1: 0.21 -\n"),
        &format!(", line 5: `tank 1` stands on line 3 already: {mend}"),
    );
    log_refused(
        format!("{HEAD}tank 1: 0.21\nTank-01: 0.21\n"),
        &format!(", line 4: `Tank-01` stands on line 3 already, as `tank 1`: {mend}"),
    );
}

#[test]
fn a_head_line_that_is_missing_or_there_twice() {
    let tanks = "no line says how many tanks there are: add one at the top, as `tanks 12`.";
    let from = "no line says when the first half hour begins: add one at the top, as `from 2026-03-02 00:00`.";
    log_refused("", &format!(": {tanks}"));
    log_refused("tanks 2\n", &format!(": {from}"));
    log_refused("tanks 2\ntank 1: 0.21\n", &format!(", line 2: {from}"));
    log_refused("from 2026-03-09 00:00\ntank 1: 0.21\n", &format!(", line 2: {tanks}"));
    // behind a tank too, where other lines go on with its readings
    let twice = "stands on line 2 already: keep one of the two.";
    log_refused(format!("{HEAD}tank 1: 0.21\nfrom 2026-03-09 00:00\n"), &format!(", line 4: `from` {twice}"));
}

#[test]
fn a_head_line_that_can_not_be() {
    let mend = "write it as `tanks 12`, and share more tanks among several logs.";
    for text in ["0", "16", "85", "012", "twelve"] {
        let words = format!(", line 1: `{text}` is no number of tanks from 1 to 15: {mend}");
        log_refused(format!("tanks {text}\n"), &words);
    }
    let mend = "write it as `from 2026-03-02 00:00`.";
    log_refused("from 2026-02-30 00:00\n", &format!(", line 1: `2026-02-30` is no date: {mend}"));
    let times = "is none of the times 00:00, 00:30 and so on to 23:30";
    log_refused("from 2026-03-09 00:15\n", &format!(", line 1: `00:15` {times}: {mend}"));
}

#[test]
fn too_few_and_too_many_tanks() {
    let mend = "add the lines that are missing, or mend the number.";
    log_refused(
        format!("{HEAD}tank 1: 0.21\n"),
        &format!(", line 1: this says `tanks 2`, and the log has 1 tank: {mend}"),
    );
    log_refused(
        format!("{HEAD}tank 1: 0.21\ntank 2: 0.21\ntank 3: 0.21\n"),
        ", line 5: this is tank 3, and line 1 says `tanks 2`: take out what is too many, or mend the number.",
    );
    let folder = Folder::new();
    let one = folder.write("one.txt", "tanks 1\nfrom 2026-03-09 00:00\npond: 0.21\n");
    ammonia(&[&one]).refused("There is 1 tank, and a sum takes two: ask a log of more.");
}

#[test]
fn more_half_hours_than_a_year() {
    log_refused(
        readings_text("2026-03-09 00:00", &[vec![None; 17_569]], 48).replace("tanks 1", "tanks 2"),
        ", line 3: `tank 1` has 17,569 readings, and 17,568 are the most that can be asked: split the log by time.",
    );
    ammonia(&["/dev/zero"]).refused("/dev/zero: this is too long for a log: name another file, or split it by time.");
}

/// A log of letters is none of readings.
#[test]
fn a_log_of_letters() {
    log_refused(
        common::log_text("2026-03-02 00:00", &["gga", "gaa"]),
        ", line 3: in `tank 1` reading 1 of this line is `gga`: write milligrams with two decimals, as 0.21, or - \
         where there is none.",
    );
}

#[test]
fn a_file_that_can_not_be_read() {
    let folder = Folder::new();
    let log = folder.path("none.txt");
    ammonia(&[&log]).refused(&format!("{}: there is no such file: mend its name or its folder.", log.display()));
    ammonia(&[&folder.0]).refused(&format!("{}: this is a folder: name a log in it.", folder.0.display()));
    log_refused(
        b"tanks 2\nfrom 2026-03-09 00:00\ntank \xff: 0.21\n",
        ", line 3: this is no text in UTF-8: save the log as such, as plain text.",
    );
}

#[test]
fn a_time_that_is_not_in_the_log() {
    let within = "is not in the log: ask for one from Mon 9 Mar 2026 23:00 to Tue 10 Mar 2026 00:30.";
    for (date, time, shown) in [
        ("2026-03-09", "22:30", "Mon 9 Mar 2026 22:30"),
        ("2026-03-10", "01:00", "Tue 10 Mar 2026 01:00"),
        ("2025-03-09", "23:00", "Sun 9 Mar 2025 23:00"),
        ("0001-01-01", "00:00", "Mon 1 Jan 1 00:00"),
        ("9999-12-31", "23:30", "Fri 31 Dec 9999 23:30"),
    ] {
        words_refused(&[date, time], &format!("{shown} {within}"));
        words_refused(&[date, time, "tank 1", "tank 1"], &format!("{shown} {within}"));
    }
}

#[test]
fn a_date_or_a_time_that_there_is_not() {
    let ask = "ask for one as 2026-03-12 22:00.";
    for date in ["2026-02-30", "2026-3-9", "09.03.2026", "0000-01-01", "Mon", ""] {
        words_refused(&[date, "noon"], &format!("`{date}` is no date: {ask}"));
    }
    for time in ["23:15", "24:00", "7:30", "23.00", "2300", "noon", ""] {
        let words = format!("`{time}` is none of the times 00:00, 00:30 and so on to 23:30: {ask}");
        words_refused(&["2026-03-09", time], &words);
    }
    // they are judged before the log
    ammonia(&["none.txt", "x", "x"]).refused(&format!("`x` is no date: {ask}"));
}

#[test]
fn tanks_that_can_not_be_added() {
    let there = "the log has tank 1 and tank 2.";
    for name in ["tank 3", "tank", "1", "", "tank 1:", "t\u{430}nk 1"] {
        words_refused(&["2026-03-09", "23:00", name, "tank 1"], &format!("There is no tank `{name}`: {there}"));
        words_refused(&["2026-03-09", "23:00", "tank 1", name], &format!("There is no tank `{name}`: {there}"));
    }
    for name in ["tank 2", "Tank02"] {
        let words = "`tank 2` is named twice: name two tanks.";
        words_refused(&["2026-03-09", "23:00", "tank 2", name], words);
    }
}

#[test]
fn arguments_that_are_no_question() {
    let usage = "Usage: ammonia LOG [DATE TIME [FIRST SECOND]].";
    ammonia::<&str>(&[]).refused(usage);
    for arguments in ["log 2026-03-09", "log 2026-03-09 00:00 tank1", "a b c d e f"] {
        ammonia(&arguments.split(' ').collect::<Vec<_>>()).refused(usage);
    }
}

#[test]
fn arguments_that_are_no_text() {
    let bytes = OsStr::from_bytes(b"\xff\x1b");
    let folder = Folder::new();
    let log = small_log(&folder);
    let [log, date, time, tank] = [log.as_os_str(), "2026-03-09".as_ref(), "23:00".as_ref(), "tank 1".as_ref()];
    ammonia(&[log, bytes, time]).refused("`\u{fffd}\\u{1b}` is no date: ask for one as 2026-03-12 22:00.");
    let words = "There is no tank `\u{fffd}\\u{1b}`: the log has tank 1 and tank 2.";
    ammonia(&[log, date, time, tank, bytes]).refused(words);
}
