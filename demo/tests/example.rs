//! The scripts `example/run`, `example/ammonia`, `example/archive`, `example/moment`, `example/rise`, `example/worst`
//! and `example/log`: what they refuse before anything is built, and what they print where all was built.

mod common;
#[path = "common/mock.rs"]
mod mock;

use std::fs;
use std::os::unix::fs::symlink;
use std::path::Path;
use std::process::Command;

use common::{log_text, readings_text, repository, run, Folder, Told};
use common::{AMMONIA, ARCHIVE, LOG, MOMENT, RISE, TANKS, WORST};
use mock::Mock;

/// The call that builds the library.
const LIBRARY: &str = "rt lib zvonurel_c --cpu x86-64";

fn unbuilt(folder: &Folder, arguments: &[&str]) -> Told {
    unbuilt_script(folder, "example/run", arguments)
}

/// The repository's own script, where `rt` and `cargo` fail loudly.
fn unbuilt_script(folder: &Folder, script: &str, arguments: &[&str]) -> Told {
    for tool in ["rt", "cargo"] {
        folder.script(&format!("tools/{tool}"), "echo \"$0 WAS RUN\" >&2\nexit 99");
    }
    let path = format!("{}:{}", folder.path("tools").display(), std::env::var("PATH").expect("a PATH"));
    run(Command::new(repository(script)).args(arguments).env("PATH", path).current_dir(&folder.0))
}

/// Both refuse, in the same words, and the script before anything is built.
fn refused_alike(folder: &Folder, script: &str, demo: &str, arguments: &[&str]) {
    let demo = run(Command::new(demo).args(arguments).current_dir(&folder.0));
    let script = unbuilt_script(folder, script, arguments);
    assert!(demo.err.ends_with("Nothing was answered.\n"), "{arguments:?}: {demo:?}");
    assert_eq!((script.status, script.out.as_str()), (Some(1), ""), "{arguments:?}: {script:?}");
    assert_eq!(script.err, demo.err, "{arguments:?}");
}

#[test]
fn wrong_arguments_are_refused_in_the_words_of_the_demo() {
    let folder = Folder::new();
    folder.write("one.txt", log_text("2026-03-02 00:00", &["gar"]));
    folder.write("twelve.txt", log_text("2026-03-02 00:00", &["gar"; 12]));
    folder.write("marked.txt", format!("\u{feff} tanks\t2 \r\n{}", &log_text("2026-03-02 00:00", &["g", "a"])[8..]));
    for arguments in [
        ["none.txt", "amber", "5"],
        ["none/twelve.txt", "amber", "5"],
        ["twelve.txt/log", "amber", "5"],
        [".", "amber", "5"],
        ["", "amber", "5"],
        ["twelve.txt", "blue", "5"],
        ["twelve.txt", "Amber", "5"],
        ["twelve.txt", "amber+blue", "5"],
        ["twelve.txt", "amber+*", "5"],
        ["twelve.txt", "amber red", "5"],
        ["twelve.txt", "amber+amber", "5"],
        ["twelve.txt", "red+green+red", "5"],
        ["twelve.txt", "", "5"],
        ["twelve.txt", "+", "5"],
        ["twelve.txt", "amber+", "5"],
        ["twelve.txt", "+red", "5"],
        ["twelve.txt", "amber++red", "5"],
        ["twelve.txt", "amber", "13"],
        ["twelve.txt", "amber+red", "24"],
        ["twelve.txt", "amber", "0"],
        ["twelve.txt", "amber", ""],
        ["twelve.txt", "amber", "five"],
        ["twelve.txt", "amber", "05"],
        ["twelve.txt", "amber", "-1"],
        ["twelve.txt", "amber", "5 "],
        ["twelve.txt", "amber", "n"],
        ["twelve.txt", "amber", "18446744073709551621"],
        ["one.txt", "amber", "2"],
        ["marked.txt", "amber", "3"],
    ] {
        refused_alike(&folder, "example/run", TANKS, &arguments);
    }
}

#[test]
fn a_wrong_time_is_refused_in_the_words_of_the_demo() {
    let folder = Folder::new();
    folder.write("log.txt", readings_text("2026-03-09 00:00", &[vec![None; 48], vec![None; 48]], 12));
    let dates =
        ",x,Mon,2026-3-9,26-03-09,2026-02-29,2026-02-30,2026-04-31,2026-13-01,2026-00-01,2026-01-00,1900-02-29,\
                 0000-01-01,2026-03-09 , 2026-03-09,+2026-03-09,2026/03/09,20260309,tomorrow,-h-,*";
    for date in dates.split(',') {
        refused_alike(&folder, "example/ammonia", AMMONIA, &["log.txt", date, "00:00"]);
        refused_alike(&folder, "example/ammonia", AMMONIA, &["none.txt", date, "00:15", "pond", "pond"]);
    }
    for time in ",x,24:00,29:00,00:10,00:15,7:30,00:3,00:300,00.30,0030,00:30:00,-1:00,noon".split(',') {
        refused_alike(&folder, "example/ammonia", AMMONIA, &["log.txt", "2026-03-09", time]);
    }
    for log in ["none.txt", "none/log.txt", "log.txt/log", ".", ""] {
        refused_alike(&folder, "example/ammonia", AMMONIA, &[log, "2026-03-09", "00:00"]);
        refused_alike(&folder, "example/ammonia", AMMONIA, &[log]);
    }
    let usage = "Usage: example/ammonia [LOG [DATE TIME [FIRST SECOND]]].";
    for arguments in [&["log.txt", "2026-03-09"][..], &["log.txt", "2026-03-09", "00:00", "tank 1"], &["1"; 6]] {
        unbuilt_script(&folder, "example/ammonia", arguments).refused(usage);
    }
}

#[test]
fn a_wrong_question_to_an_archive_is_refused_in_the_words_of_the_demo() {
    let folder = Folder::new();
    folder.write("old.wah", fs::read(repository("example/archive.wah")).expect("the archive"));
    folder.write("week.txt", fs::read(repository("example/week.txt")).expect("the week"));
    for arguments in [
        ["old.wah", "week.txt", "blue", "13"],
        ["none.wah", "none.txt", "red+red", "5"],
        ["none.wah", "none.txt", "red", "5"],
        ["none.wah", ".", "red", "5"],
        ["none.wah", "week.txt", "red", "13"],
        ["none.wah", "week.txt", "red", "5"],
        ["none/old.wah", "week.txt", "red", "5"],
        ["old.wah/old", "week.txt", "red", "5"],
        [".", "week.txt", "red", "5"],
        ["", "week.txt", "red", "5"],
    ] {
        refused_alike(&folder, "example/archive", ARCHIVE, &arguments);
    }
    let usage = "Usage: example/archive [ARCHIVE [LOG [COLOURS [T]]]].";
    unbuilt_script(&folder, "example/archive", &["old.wah", "week.txt", "red", "5", "more"]).refused(usage);
}

#[test]
fn a_wrong_question_on_a_half_hour_is_refused_in_the_words_of_the_demo() {
    let folder = Folder::new();
    folder.write("log.txt", log_text("2026-03-02 00:00", &["gar"]));
    for arguments in [
        &["log.txt", "tank 1", "2026-02-29", "00:15"][..],
        &["none.txt", "pond", "2026-3-2", "00:00", "blue", "none.wah"],
        &["log.txt", "tank 1", "2026-03-02", "00:15"],
        &["none.txt", "pond", "2026-03-02", "24:00", "blue"],
        &["none.txt", "pond", "2026-03-02", "00:00", "blue"],
        &["log.txt", "tank 1", "2026-03-02", "00:00", "red+red", "none.wah"],
        &["log.txt", "tank 1", "2026-03-02", "00:00", ""],
        &["none.txt", "tank 1", "2026-03-02", "00:00"],
        &[".", "tank 1", "2026-03-02", "00:00", "red", "none.wah"],
        &["log.txt", "pond", "2027-03-02", "00:00", "red", "none.wah"],
        &["log.txt", "tank 1", "2026-03-02", "00:00", "red", "."],
        &["log.txt", "tank 1", "2026-03-02", "00:00", "red", ""],
    ] {
        refused_alike(&folder, "example/moment", MOMENT, arguments);
    }
    let usage = "Usage: example/moment [LOG TANK DATE TIME [COLOURS [ARCHIVE]]].";
    for arguments in [&["log.txt"][..], &["log.txt", "tank 1"], &["log.txt", "tank 1", "2026-03-02"], &["1"; 7]] {
        unbuilt_script(&folder, "example/moment", arguments).refused(usage);
    }
}

#[test]
fn a_wrong_question_on_the_day_before_is_refused_in_the_words_of_the_demo() {
    let folder = Folder::new();
    folder.write("log.txt", readings_text("2026-03-09 00:00", &[vec![None; 49]], 12));
    for log in ["none.txt", "none/log.txt", "log.txt/log", ".", ""] {
        refused_alike(&folder, "example/rise", RISE, &[log]);
        refused_alike(&folder, "example/rise", RISE, &[log, "pond"]);
    }
    let usage = "Usage: example/rise [LOG [TANK]].";
    unbuilt_script(&folder, "example/rise", &["log.txt", "tank 1", "tank 2"]).refused(usage);
}

#[test]
fn a_wrong_question_on_the_worst_half_hours_is_refused_in_the_words_of_the_demo() {
    let folder = Folder::new();
    folder.write("log.txt", readings_text("2026-03-09 00:00", &[vec![None; 48]], 12));
    for log in ["none.txt", "none/log.txt", "log.txt/log", ".", ""] {
        for arguments in [&[log][..], &[log, "pond"], &[log, "pond", "17568"], &["--calmest", log, "pond", "1"]] {
            refused_alike(&folder, "example/worst", WORST, arguments);
        }
    }
    for k in ",0,00,010,-1,+5, 5,5 ,5.0,ten,x[$(date)],17569,99999,100000,99999999999999999999,*,\u{662}".split(',') {
        refused_alike(&folder, "example/worst", WORST, &["log.txt", "tank 1", k]);
        refused_alike(&folder, "example/worst", WORST, &["--calmest", "none.txt", "pond", k]);
    }
    let usage = "Usage: example/worst [--calmest] [LOG [TANK [K]]].";
    for arguments in [&["1"; 4][..], &["--calmest", "log.txt", "tank 1", "10", "more"]] {
        unbuilt_script(&folder, "example/worst", arguments).refused(usage);
    }
}

#[test]
fn a_wrong_question_on_a_log_that_grows_is_refused_in_the_words_of_the_demo() {
    let folder = Folder::new();
    folder.write("log.txt", "from 2026-03-02 00:00\nggga\n");
    for log in ["none.txt", "none/log.txt", "log.txt/log", ".", ""] {
        refused_alike(&folder, "example/log", LOG, &[log]);
        refused_alike(&folder, "example/log", LOG, &[log, "red"]);
    }
    for colours in ["", "blue", "Amber", "amber+", "+red", "amber+amber", "a"] {
        refused_alike(&folder, "example/log", LOG, &["log.txt", colours]);
        refused_alike(&folder, "example/log", LOG, &["none.txt", colours]);
    }
    unbuilt_script(&folder, "example/log", &["log.txt", "red", "5"]).refused("Usage: example/log [LOG [COLOURS]].");
}

#[test]
fn wrong_arguments_beside_those_of_the_week() {
    let folder = Folder::new();
    let week = repository("example/week.txt");
    let week = week.to_str().expect("text");
    unbuilt(&folder, &[week, "amber+red", "13"]).refused("There are 12 tanks, so ask for 1 to 12.");
    unbuilt(&folder, &[week, "amber+red", "5", "more"]).refused("Usage: example/run [LOG [COLOURS [T]]].");
    unbuilt(&folder, &["none.txt"]).refused("none.txt: there is no such file: mend its name or its folder.");
    // a log that has not as many tanks as it says, or says it twice, is judged by the demo alone
    let text = fs::read_to_string(week).expect("the week");
    for said in ["tanks 3", "tanks 12\ntanks 12"] {
        folder.write("other.txt", text.replace("tanks 12", said));
        assert!(unbuilt(&folder, &["other.txt", "amber+red", "13"]).err.contains("WAS RUN"), "{said}");
    }
    // as many tanks as there can be, and one more
    folder.write("most.txt", log_text("2026-03-02 00:00", &["gar"; 85]));
    unbuilt(&folder, &["most.txt", "red", "86"]).refused("There are 85 tanks, so ask for 1 to 85.");
    folder.write("more.txt", log_text("2026-03-02 00:00", &["gar"; 86]));
    assert!(unbuilt(&folder, &["more.txt", "red", "87"]).err.contains("WAS RUN"));
    // five is what is asked where no number is named
    folder.write("one.txt", log_text("2026-03-02 00:00", &["gar"]));
    unbuilt(&folder, &["one.txt"]).refused("There is 1 tank, so ask for 1.");
}

#[test]
fn help_builds_nothing() {
    let folder = Folder::new();
    for arguments in [&["-h"][..], &["--help"], &["none.txt", "blue", "0", "more", "-h"]] {
        let out = unbuilt(&folder, arguments).answered();
        assert!(out.starts_with("Usage: example/run [LOG [COLOURS [T]]].\n"), "{out}");
        let out = unbuilt_script(&folder, "example/ammonia", arguments).answered();
        assert!(out.starts_with("Usage: example/ammonia [LOG [DATE TIME [FIRST SECOND]]].\n"), "{out}");
        let out = unbuilt_script(&folder, "example/archive", arguments).answered();
        assert!(out.starts_with("Usage: example/archive [ARCHIVE [LOG [COLOURS [T]]]].\n"), "{out}");
        let out = unbuilt_script(&folder, "example/moment", arguments).answered();
        assert!(out.starts_with("Usage: example/moment [LOG TANK DATE TIME [COLOURS [ARCHIVE]]].\n"), "{out}");
        let out = unbuilt_script(&folder, "example/rise", arguments).answered();
        assert!(out.starts_with("Usage: example/rise [LOG [TANK]].\n"), "{out}");
        let out = unbuilt_script(&folder, "example/worst", arguments).answered();
        assert!(out.starts_with("Usage: example/worst [--calmest] [LOG [TANK [K]]].\n"), "{out}");
        let out = unbuilt_script(&folder, "example/log", arguments).answered();
        assert!(out.starts_with("Usage: example/log [LOG [COLOURS]].\n"), "{out}");
    }
}

/// Sound arguments go on to build: the stand-ins are reached.
#[test]
fn what_is_right_is_built() {
    let folder = Folder::new();
    folder.write("log.txt", log_text("2026-03-02 00:00", &["gar"; 2]));
    for (script, arguments) in [
        ("example/run", &[][..]),
        ("example/run", &["log.txt", "red", "2"]),
        ("example/run", &["log.txt", "red+amber+green", "1"]),
        ("example/ammonia", &[]),
        ("example/ammonia", &["log.txt"]),
        ("example/ammonia", &["log.txt", "2024-02-29", "23:30"]),
        ("example/ammonia", &["log.txt", "0001-01-01", "00:00", "tank 1", "tank 2"]),
        ("example/archive", &[]),
        // whether it is an archive is told by the demo
        ("example/archive", &["log.txt", "log.txt", "red", "2"]),
        ("example/moment", &[]),
        ("example/moment", &["log.txt", "tank 1", "2024-02-29", "23:30"]),
        ("example/moment", &["log.txt", "pond", "2024-02-29", "23:30", "red+green", "log.txt"]),
        ("example/rise", &[]),
        ("example/rise", &["log.txt"]),
        ("example/rise", &["log.txt", "pond"]),
        ("example/worst", &[]),
        ("example/worst", &["--calmest"]),
        ("example/worst", &["log.txt", "pond"]),
        ("example/worst", &["--calmest", "log.txt", "pond", "17568"]),
        ("example/log", &[]),
        ("example/log", &["log.txt", "red+green"]),
        // what can't be seen is shown by the demo
        ("example/ammonia", &["log.txt", "2026-03-09\u{200b}", "00:00"]),
    ] {
        let told = unbuilt_script(&folder, script, arguments);
        assert!(told.status != Some(0) && told.out.is_empty() && told.err.contains("WAS RUN"), "{told:?}");
    }
}

/// What the program would list for `example/week.txt`, amber+red and 5.
fn listing(mock: &Mock) {
    let week = mock.path("example/week.txt");
    let text = fs::read_to_string(week).expect("the week");
    let tanks: Vec<&[u8]> = text
        .lines()
        .filter_map(|line| line.strip_prefix("tank ").and_then(|rest| rest.rsplit(' ').next()))
        .map(str::as_bytes)
        .collect();
    let held = |row: &usize| tanks.iter().filter(|letters| b"ar".contains(&letters[*row])).count() >= 5;
    let rows: Vec<String> = (0..336).filter(held).map(|row| format!("{row}\n")).collect();
    mock.folder.write("listing", format!("rows 336\nnamed 24\nthreshold 5\nset {}\n{}", rows.len(), rows.concat()));
}

fn expected() -> String {
    fs::read_to_string(repository("example/amber-red-5.txt")).expect("the expected answer")
}

#[test]
fn the_answer_stands_alone_on_standard_output() {
    let mock = Mock::new();
    listing(&mock);
    let told = run(mock.command(mock.path("example/run")).env("ZVONUREL_LIB", "elsewhere"));
    assert_eq!((told.status, told.out), (Some(0), expected()));
    assert!(told.err.contains("rt: chose --jobs 2 for one\n"), "{}", told.err);
    let calls = mock.calls();
    let cargo =
        "cargo build --quiet --release --package tanks --target x86_64-unknown-linux-gnu --target-dir target/cargo";
    assert_eq!(calls[..4], ["rt version", "rt run threshold --cpu x86-64", LIBRARY, "rt version"]);
    assert_eq!(calls[4..], [cargo, "ZVONUREL_LIB=target/staticlib"]);
    run(&mut mock.command(mock.path("example/run")));
    assert!(!mock.calls().contains(&LIBRARY.to_string()), "it is proved once");
}

/// Where neither a log nor a time is named the example is asked, and else what is named.
#[test]
fn readings_stand_alone_on_standard_output() {
    let mock = Mock::new();
    let week = mock.path("example/ammonia.txt").display().to_string();
    let expected = fs::read_to_string(repository("example/ammonia-1-2.txt")).expect("the expected answer");
    let log = mock.folder.write("else where/my log.txt", fs::read(&week).expect("the week"));
    let told = run(mock.command(mock.path("example/ammonia")).env("ZVONUREL_LIB", "elsewhere"));
    assert_eq!((told.status, told.out.as_str()), (Some(0), expected.as_str()), "{}", told.err);
    let calls = mock.calls();
    assert!(calls.contains(&LIBRARY.to_string()), "{calls:?}");
    assert_eq!(calls.last().map(String::as_str), Some("ZVONUREL_LIB=target/staticlib"));
    let (folder, script) = (log.parent().expect("a folder"), mock.path("example/ammonia"));
    for words in [&["2026-03-15", "23:30"][..], &["2026-03-12", "22:00", "tank 12", "tank 7"]] {
        let told = run(mock.command(&script).arg("my log.txt").args(words).current_dir(folder));
        let demo = run(Command::new(AMMONIA).arg(&week).args(words));
        assert_eq!((told.status, told.out), (Some(0), demo.out), "{}", told.err);
    }
    let piped = "cat \"$1\" | \"$2\" /dev/stdin";
    let told = run(mock.command("sh").args(["-c", piped, "sh"]).arg(&week).arg(&script));
    assert_eq!((told.status, told.out.as_str()), (Some(0), expected.as_str()), "{}", told.err);
    let told = run(mock.command(&script).arg(&week).args(["2026-03-16", "00:00"]));
    assert!(told.status == Some(1) && told.out.is_empty() && told.err.ends_with("Nothing was answered.\n"), "{told:?}");
}

/// The answer to an archive is that to its log, with more before and behind it.
#[test]
fn an_archive_stands_alone_on_standard_output() {
    let mock = Mock::new();
    listing(&mock);
    let whole = fs::read_to_string(repository("example/archive-amber-red-5.txt")).expect("the expected answer");
    let told = run(mock.command(mock.path("example/archive")).env("ZVONUREL_LIB", "elsewhere"));
    assert_eq!((told.status, told.out.as_str()), (Some(0), whole.as_str()), "{}", told.err);
    let log = "The log, put into EWAH, lists the same 95 half hours.\n";
    let drawn = expected().replace("The program", &format!("{log}The program"));
    assert!(whole.contains(&format!("\n{drawn}\n")), "{whole}");
    for (name, copy) in [("archive.wah", "my old.wah"), ("week.txt", "my week.txt")] {
        let bytes = fs::read(mock.path(&format!("example/{name}"))).expect(name);
        mock.folder.write(&format!("else where/{copy}"), bytes);
    }
    let mut command = mock.command(mock.path("example/archive"));
    command.args(["my old.wah", "my week.txt", "amber+red", "5"]).current_dir(mock.path("else where"));
    let told = run(&mut command);
    assert_eq!((told.status, told.out.as_str()), (Some(0), whole.as_str()), "{}", told.err);
    mock.folder.write("else where/my old.wah", "cut off");
    let told = run(&mut command);
    assert!(told.status == Some(1) && told.out.is_empty() && told.err.ends_with("Nothing was answered.\n"), "{told:?}");
}

/// Where nothing is named the week and its archive are asked, and else what is named.
#[test]
fn a_half_hour_stands_alone_on_standard_output() {
    let mock = Mock::new();
    let whole = fs::read_to_string(repository("example/moment-tank-10.txt")).expect("the expected answer");
    let script = mock.path("example/moment");
    let told = run(mock.command(&script).env("ZVONUREL_LIB", "elsewhere"));
    assert_eq!((told.status, told.out.as_str()), (Some(0), whole.as_str()), "{}", told.err);
    let week = fs::read(mock.path("example/week.txt")).expect("the week");
    let log = mock.folder.write("else where/my week.txt", week);
    let words = ["tank 4", "2026-03-03", "22:30", "amber"];
    let told = run(mock.command(&script).arg("my week.txt").args(words).current_dir(log.parent().expect("a folder")));
    let demo = run(Command::new(MOMENT).arg(&log).args(words));
    assert_eq!((told.status, told.out), (Some(0), demo.out), "{}", told.err);
    let told = run(mock.command(&script).arg(&log).args(["tank 13", "2026-03-03", "22:30"]));
    assert!(told.status == Some(1) && told.out.is_empty() && told.err.ends_with("Nothing was answered.\n"), "{told:?}");
}

/// Where nothing is named tank 2 of the week is asked, and of another log its first tank.
#[test]
fn a_change_stands_alone_on_standard_output() {
    let mock = Mock::new();
    let whole = fs::read_to_string(repository("example/rise-tank-2.txt")).expect("the expected answer");
    let script = mock.path("example/rise");
    let told = run(mock.command(&script).env("ZVONUREL_LIB", "elsewhere"));
    assert_eq!((told.status, told.out.as_str()), (Some(0), whole.as_str()), "{}", told.err);
    let week = fs::read(mock.path("example/ammonia.txt")).expect("the week");
    let log = mock.folder.write("else where/my week.txt", week);
    for words in [&[][..], &["tank 12"]] {
        let mut command = mock.command(&script);
        let told = run(command.arg("my week.txt").args(words).current_dir(log.parent().expect("a folder")));
        let demo = run(Command::new(RISE).arg(&log).args(words));
        assert_eq!((told.status, told.out), (Some(0), demo.out), "{}", told.err);
    }
    let told = run(mock.command(&script).arg(&log).arg("tank 13"));
    assert!(told.status == Some(1) && told.out.is_empty() && told.err.ends_with("Nothing was answered.\n"), "{told:?}");
}

/// Where nothing is named ten half hours of tank 10 of the week are asked for, and of another log's first tank.
#[test]
fn the_worst_half_hours_stand_alone_on_standard_output() {
    let mock = Mock::new();
    let whole = fs::read_to_string(repository("example/worst-tank-10.txt")).expect("the expected answer");
    let script = mock.path("example/worst");
    let told = run(mock.command(&script).env("ZVONUREL_LIB", "elsewhere"));
    assert_eq!((told.status, told.out.as_str()), (Some(0), whole.as_str()), "{}", told.err);
    let week = fs::read(mock.path("example/ammonia.txt")).expect("the week");
    let log = mock.folder.write("else where/my week.txt", week);
    let told = run(mock.command(&script).arg("--calmest"));
    let demo = run(Command::new(WORST).arg("--calmest").arg(&log).arg("tank 10"));
    assert_eq!((told.status, told.out), (Some(0), demo.out), "{}", told.err);
    for words in [&["my week.txt"][..], &["my week.txt", "tank 12", "3"], &["--calmest", "my week.txt", "tank 8"]] {
        let folder = log.parent().expect("a folder");
        let told = run(mock.command(&script).args(words).current_dir(folder));
        let demo = run(Command::new(WORST).args(words).current_dir(folder));
        assert_eq!((told.status, told.out), (Some(0), demo.out), "{}", told.err);
    }
    let told = run(mock.command(&script).arg(&log).args(["tank 8", "210"]));
    assert!(told.status == Some(1) && told.out.is_empty() && told.err.ends_with("Nothing was answered.\n"), "{told:?}");
}

/// Where nothing is named the log of the example is asked, for amber.
#[test]
fn a_log_that_grows_stands_alone_on_standard_output() {
    let mock = Mock::new();
    let whole = fs::read_to_string(repository("example/log-amber.txt")).expect("the expected answer");
    let script = mock.path("example/log");
    let told = run(mock.command(&script).env("ZVONUREL_LIB", "elsewhere"));
    assert_eq!((told.status, told.out.as_str()), (Some(0), whole.as_str()), "{}", told.err);
    let came = fs::read(mock.path("example/log.txt")).expect("the log");
    let log = mock.folder.write("else where/my log.txt", came);
    for words in [&["my log.txt"][..], &["my log.txt", "amber+red"]] {
        let folder = log.parent().expect("a folder");
        let told = run(mock.command(&script).args(words).current_dir(folder));
        let demo = run(Command::new(LOG).args(words).current_dir(folder));
        assert_eq!((told.status, told.out), (Some(0), demo.out), "{}", told.err);
    }
    mock.folder.write("else where/my log.txt", "from 2026-03-02 00:00\nggx\n");
    let told = run(mock.command(&script).arg(&log));
    assert!(told.status == Some(1) && told.out.is_empty() && told.err.ends_with("Nothing was answered.\n"), "{told:?}");
}

/// A relative log is the caller's, and a relative script too.
#[test]
fn it_works_from_any_folder() {
    let mock = Mock::new();
    listing(&mock);
    mock.folder.write("else where/my log.txt", fs::read(mock.path("example/week.txt")).expect("the week"));
    let link = mock.path("else where/asks");
    symlink(mock.path("example/run"), &link).expect("a link");
    let whole = mock.path("example/run");
    for (folder, script, log) in [
        ("else where", Path::new("../example/run"), "my log.txt"),
        ("else where", &whole, "./my log.txt"),
        ("else where", Path::new("./asks"), "my log.txt"),
        ("example", Path::new("./run"), "../else where/my log.txt"),
        ("", Path::new("example/run"), "else where/my log.txt"),
        ("crates", &whole, "../example/week.txt"),
    ] {
        // a relative program is looked for from the folder that it is run in only by a shell
        let mut command = mock.command("sh");
        command.args(["-c", "exec \"$0\" \"$@\""]).arg(script).arg(log).current_dir(mock.path(folder));
        command.env("CDPATH", mock.path(""));
        let told = run(&mut command);
        assert_eq!((told.status, told.out), (Some(0), expected()), "{folder} {log}: {}", told.err);
    }
    let told = run(mock.command(&whole).arg("my log.txt"));
    told.refused("my log.txt: there is no such file: mend its name or its folder.");
}

/// A log that comes down a pipe is read once, by the demo.
#[test]
fn a_log_may_come_from_standard_input() {
    let mock = Mock::new();
    listing(&mock);
    let piped = "cat \"$1\" | \"$2\" /dev/stdin";
    let mut command = mock.command("sh");
    command.args(["-c", piped, "sh"]).arg(mock.path("example/week.txt")).arg(mock.path("example/run"));
    let told = run(&mut command);
    assert_eq!((told.status, told.out), (Some(0), expected()), "{}", told.err);
}

/// Where one step fails, no later one is taken and nothing is answered.
#[test]
fn a_failure_answers_nothing() {
    let mock = Mock::new();
    listing(&mock);
    let told = run(mock.command(mock.path("example/run")).env("FAILING", "1"));
    assert!(told.status != Some(0) && told.out.is_empty() && told.err.contains("what is wrong"), "{told:?}");
    assert!(!mock.calls().iter().any(|call| call.starts_with("cargo")));
    let told = run(mock.command(mock.path("example/run")).env("CARGO_FAILING", "1"));
    assert!(told.status != Some(0) && told.out.is_empty() && told.err.contains("it does not compile"), "{told:?}");
    mock.folder.write("listing", "rows 336\nnamed 24\nthreshold 5\nset 0\n");
    let told = run(&mut mock.command(mock.path("example/run")));
    assert!(told.status == Some(1) && told.out.is_empty() && told.err.ends_with("Nothing was answered.\n"), "{told:?}");
}
