//! What is wrong is refused: exit status 1, one sentence on the error stream, nothing on standard output.

mod common;

use std::ffi::OsStr;
use std::fs;
use std::os::unix::ffi::OsStrExt;
use std::os::unix::fs::PermissionsExt;
use std::os::unix::process::CommandExt;
use std::process::Command;

use common::{log_text, run, tanks, Folder, TANKS};

const HEAD: &str = "tanks 2\nfrom 2026-03-02 00:00\n";

/// Asks a log of these bytes, which is refused with its name, what stands here behind it, and the closing words.
fn log_refused(bytes: impl AsRef<[u8]>, words: &str) {
    let folder = Folder::new();
    let log = folder.write("log.txt", bytes);
    tanks(&[log.as_os_str(), "amber+red".as_ref(), "1".as_ref()]).refused(&format!("{}{words}", log.display()));
}

#[test]
fn a_head_line_that_is_missing() {
    let tanks = "no line says how many tanks there are: add one at the top, as `tanks 12`.";
    let from = "no line says when the first half hour begins: add one at the top, as `from 2026-03-02 00:00`.";
    log_refused("", &format!(": {tanks}"));
    log_refused("# nothing\n\n", &format!(": {tanks}"));
    log_refused("from 2026-03-02 00:00\n", &format!(": {tanks}"));
    log_refused("tanks 1\n", &format!(": {from}"));
    log_refused("from 2026-03-02 00:00\ntank 1: gga\n", &format!(", line 2: {tanks}"));
    log_refused("tanks 1\n# remark\ntank 1: gga\n", &format!(", line 3: {from}"));
    log_refused("tanks 1\ntank 1: gga\nfrom 2026-03-02 00:00\n", &format!(", line 2: {from}"));
}

#[test]
fn a_head_line_that_is_there_twice() {
    log_refused(format!("{HEAD}tanks 2\n"), ", line 3: `tanks` stands on line 1 already: keep one of the two.");
    let behind = format!("{HEAD}tank 1: g\ntank 2: g\n\nfrom 2026-03-02 00:00\n");
    log_refused(behind, ", line 6: `from` stands on line 2 already: keep one of the two.");
}

#[test]
fn a_number_of_tanks_that_can_not_be() {
    for text in ["0", "86", "256", "-12", "+12", "012", "12.0", "twelve", "12 tanks", "99999999999999999999"] {
        let words = format!(
            ", line 1: `{text}` is no number of tanks from 1 to 85: write it as `tanks 12`, and share more tanks among \
             several logs."
        );
        log_refused(format!("tanks {text}\nfrom 2026-03-02 00:00\ntank 1: g\n"), &words);
    }
}

#[test]
fn a_date_or_a_time_that_there_is_not() {
    let form = "write it as `from 2026-03-02 00:00`.";
    for date in ["2026-02-30", "2026-02-29", "2100-02-29", "2026-13-01", "2026-04-31", "0000-01-01", "Mon", "26-03-02"]
    {
        log_refused(format!("tanks 1\nfrom {date} 00:00\n"), &format!(", line 2: `{date}` is no date: {form}"));
    }
    for date in ["0026-03-02", "1899-12-31", "2200-01-01"] {
        let words = format!(", line 2: the year of `{date}` is not one from 1900 to 2199: {form}");
        log_refused(format!("tanks 1\nfrom {date} 00:00\n"), &words);
    }
    for time in ["00:15", "24:00", "7:30", "00.30", "23:59", "noon"] {
        let words = format!(", line 2: `{time}` is none of the times 00:00, 00:30 and so on to 23:30: {form}");
        log_refused(format!("tanks 1\nfrom 2026-03-02 {time}\n"), &words);
    }
    for rest in ["", " 2026-03-02", " 2026-03-02 00:00 Z"] {
        log_refused(format!("tanks 1\nfrom{rest}\n"), &format!(", line 2: `from` takes a date and a time: {form}"));
    }
}

#[test]
fn too_few_and_too_many_tanks() {
    let few = ", line 1: this says `tanks 2`, and the log has ";
    let mend = "add the lines that are missing, or mend the number.";
    log_refused(HEAD, &format!("{few}0 tanks: {mend}"));
    log_refused(format!("{HEAD}tank 1: gga\n"), &format!("{few}1 tank: {mend}"));
    log_refused(
        format!("{HEAD}tank 1: gga\ntank 2: gga\n# remark\ntank 3: gga\n"),
        ", line 6: this is tank 3, and line 1 says `tanks 2`: take out what is too many, or mend the number.",
    );
}

#[test]
fn a_name_twice() {
    let mend = "mend the name, or take one of the two out.";
    for name in ["tank 1", "tank  1", "  tank\t1", "tank\u{a0}1 "] {
        let words = format!(", line 4: `tank 1` stands on line 3 already: {mend}");
        log_refused(format!("{HEAD}tank 1: gga\n{name}: ggg\n"), &words);
    }
    for name in ["Tank 1", "tank1", "tank 01", "tank-1"] {
        let words = format!(", line 4: `{name}` stands on line 3 already, as `tank 1`: {mend}");
        log_refused(format!("{HEAD}tank 1: gga\n{name}: ggg\n"), &words);
    }
}

/// Two names that look alike, and are not the same to a machine.
#[test]
fn a_name_that_can_be_mistaken() {
    for (name, shown) in [("tank 1\u{200b}", "\\u{200b}"), ("\u{feff}tank 1", "\\u{feff}"), ("t\u{430}nk 1", "\u{430}")]
    {
        let words =
            format!(", line 4: the name has `{shown}`: use the letters a to z, digits, blanks and -_./# alone.");
        log_refused(format!("{HEAD}tank 1: gga\n{name}: gga\n"), &words);
    }
}

#[test]
fn a_line_without_a_name_a_colon_or_letters() {
    log_refused(
        format!("{HEAD}: ggaar\n"),
        ", line 3: this tank has no name: write one before the colon, as `tank 1`.",
    );
    log_refused(
        format!("{HEAD}tank 1 ggaar\n"),
        ", line 3: this line has no colon: write a tank's name, a colon and its letters, as `tank 1: gga`.",
    );
    log_refused(
        format!("{HEAD}tank 1:   \n"),
        ", line 3: `tank 1` has no letters: write one for each half hour behind the colon, as `tank 1: gga`.",
    );
}

/// Letters in parts, as a day's each, are not answered from one of them.
#[test]
fn letters_that_stand_apart() {
    for (between, parts) in [(" ", 2), (", ", 2), ("| ", 2), ("\u{200b} ", 2), ("? ", 2), ("\t;\t", 3)] {
        let tanks = [1, 2].map(|n| format!("tank {n}: ggg{between}aar\n")).concat();
        let words = format!(", line 3: the letters of `tank 1` stand in {parts} parts: write them as one word.");
        log_refused(format!("{HEAD}{tanks}"), &words);
    }
}

#[test]
fn a_letter_of_no_colour() {
    let sixteen = "g".repeat(16);
    for (letter, shown) in [("x", "x"), ("G", "G"), (".", "."), ("ä", "ä"), ("\u{1b}", "\\u{1b}"), ("\0", "\\0")] {
        log_refused(
            format!("{HEAD}tank 1: {sixteen}{letter}ax\n"),
            &format!(", line 3: in `tank 1` letter 17 is `{shown}`: write g, a or r for each half hour."),
        );
    }
}

#[test]
fn lines_of_unequal_length() {
    for (letters, length) in [("gga", "3 letters"), ("g", "1 letter"), ("ggaar", "5 letters")] {
        log_refused(
            format!("{HEAD}tank 1: ggaa\ntank 2: {letters}\n"),
            &format!(
                ", line 4: `tank 2` has {length}, and `tank 1` on line 3 has 4: give each tank a letter for every half \
                 hour."
            ),
        );
    }
}

#[test]
fn more_half_hours_than_three_centuries() {
    log_refused(
        log_text("2026-03-02 00:00", &["a".repeat(5_270_401)]),
        ", line 3: `tank 1` has 5,270,401 letters, and 5,270,400 are the most that can be asked: split the log by time.",
    );
}

#[test]
fn bytes_that_are_no_text() {
    let words = ": this is no text in UTF-8: save the log as such, as plain text.";
    log_refused(b"tanks 1\nfrom 2026-03-02 00:00\ntank \xff: g\n", &format!(", line 3{words}"));
    log_refused(b"\xff\xfet\0a\0n\0k\0s\0", &format!(", line 1{words}"));
}

#[test]
fn a_file_that_is_not_there() {
    let folder = Folder::new();
    let words = ": there is no such file: mend its name or its folder.";
    for name in ["none.txt", "none/log.txt"] {
        let log = folder.path(name);
        tanks(&[log.as_os_str(), "red".as_ref(), "1".as_ref()]).refused(&format!("{}{words}", log.display()));
    }
    tanks(&["", "red", "1"]).refused(words);
    let folder_itself = format!("{}: this is a folder: name a log in it.", folder.0.display());
    tanks(&[folder.0.as_os_str(), "red".as_ref(), "1".as_ref()]).refused(&folder_itself);
}

/// Root may read every file, so there another user asks, with a copy of the demo that it can reach.
#[test]
fn a_file_that_may_not_be_read() {
    const NOBODY: u32 = 65_534;
    let folder = Folder::new();
    let log = folder.write("log.txt", log_text("2026-03-02 00:00", &["gga"]));
    fs::set_permissions(&log, fs::Permissions::from_mode(0o000)).expect("its mode");
    let mut command = Command::new(TANKS);
    if fs::read(&log).is_ok() {
        let copy = folder.path("tanks");
        assert!(Command::new("cp").arg(TANKS).arg(&copy).status().expect("cp").success());
        for path in [&folder.0, &copy] {
            fs::set_permissions(path, fs::Permissions::from_mode(0o755)).expect("its mode");
        }
        command = Command::new(copy);
        command.uid(NOBODY);
    }
    let told = run(command.arg(&log).args(["red", "1"]));
    told.refused(&format!("{}: you may not read this file: ask its owner to allow it.", log.display()));
}

#[test]
fn a_file_without_end() {
    tanks(&["/dev/zero", "red", "1"])
        .refused("/dev/zero: this is too long for a log: name another file, or split it by time.");
}

#[test]
fn a_file_that_can_not_be_read_for_another_cause() {
    let told = tanks(&["/proc/self/mem", "red", "1"]);
    told.refused("/proc/self/mem: this can't be read: Input/output error (os error 5). Name a file that can.");
}

#[test]
fn colours_that_can_not_be_asked() {
    let folder = Folder::new();
    let log = folder.write("log.txt", log_text("2026-03-02 00:00", &["gga"]));
    let asked = |colours: &str| tanks(&[log.as_os_str(), colours.as_ref(), "1".as_ref()]);
    for colour in ["ambr", "Amber", "blue", "amber red", "amber,red", "g"] {
        let words = "is no colour: ask for green, amber or red, or for several, as amber+red.";
        asked(colour).refused(&format!("`{colour}` {words}"));
        asked(&format!("red+{colour}")).refused(&format!("`{colour}` {words}"));
    }
    for colours in ["amber+amber", "amber+red+amber"] {
        asked(colours).refused("`amber` is named twice: name each colour once.");
    }
    for colours in ["", "+", "amber+", "+amber", "amber++red"] {
        asked(colours)
            .refused(&format!("A colour is missing in `{colours}`: join green, amber and red by +, as amber+red."));
    }
}

/// A list of two colours has twice as many bitmaps as there are tanks, so the library would answer the first of these.
#[test]
fn a_number_of_tanks_that_there_is_not() {
    let folder = Folder::new();
    let twelve = folder.write("twelve", log_text("2026-03-02 00:00", &["gar"; 12]));
    for t in ["13", "24", "0", "-1", "+5", "05", "5.0", "five", "", " 5", "4294967301", "18446744073709551621"] {
        let told = tanks(&[twelve.as_os_str(), "amber+red".as_ref(), t.as_ref()]);
        assert_eq!(told.err, "There are 12 tanks, so ask for 1 to 12. Nothing was answered.\n");
        told.refused("There are 12 tanks, so ask for 1 to 12.");
    }
    let one = folder.write("one", log_text("2026-03-02 00:00", &["gar"]));
    tanks(&[one.as_os_str(), "amber+red".as_ref(), "2".as_ref()]).refused("There is 1 tank, so ask for 1.");
}

#[test]
fn arguments_that_are_no_question() {
    let usage = "Usage: tanks LOG COLOURS T [--program PROGRAM].";
    tanks::<&str>(&[]).refused(usage);
    for arguments in ["log", "log red", "log red 1 --program", "log red 1 more", "log red 1 --other p", "a b c d e f"] {
        tanks(&arguments.split(' ').collect::<Vec<_>>()).refused(usage);
    }
}

#[test]
fn arguments_that_are_no_text() {
    let folder = Folder::new();
    let log = folder.write("log.txt", log_text("2026-03-02 00:00", &["gga"]));
    let bytes = OsStr::from_bytes(b"re\xffd");
    let told = tanks(&[log.as_os_str(), bytes, "1".as_ref()]);
    told.refused("`re\u{fffd}d` is no colour: ask for green, amber or red, or for several, as amber+red.");
    tanks(&[log.as_os_str(), "red".as_ref(), bytes]).refused("There is 1 tank, so ask for 1.");
    let told = tanks(&[bytes, "red".as_ref(), "1".as_ref()]);
    told.refused("re\u{fffd}d: there is no such file: mend its name or its folder.");
}
