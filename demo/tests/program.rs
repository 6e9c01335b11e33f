//! `--program`: what a program lists is held to the drawn answer, and any difference is refused.

mod common;

use std::ffi::OsStr;
use std::fs;
use std::path::{Path, PathBuf};

use common::{archive, log_text, repository, tanks, Folder, Told};

/// Two tanks; amber or red together at half hours 1, 2, 35 and 39 of 40.
fn small_log(folder: &Folder) -> PathBuf {
    let mut letters = [vec![b'g'; 40], vec![b'g'; 40]];
    for row in [1, 2, 35, 39] {
        (letters[0][row], letters[1][row]) = (b'a', b'r');
    }
    (letters[0][5], letters[1][6]) = (b'r', b'a');
    let letters = letters.map(|letters| String::from_utf8(letters).expect("letters"));
    folder.write("log.txt", log_text("2026-03-02 00:00", &letters))
}

fn asked(log: &Path, colours: &str, t: &str, program: &Path) -> Told {
    let [colours, t, option] = [colours, t, "--program"].map(OsStr::new);
    tanks(&[log.as_os_str(), colours, t, option, program.as_os_str()])
}

/// What a right program writes for `small_log`, amber+red and 2.
const RIGHT: &str = "rows 40\nnamed 4\nthreshold 2\nset 4\n1\n2\n35\n39\n";

/// A program that takes its input and then writes this.
fn writing(folder: &Folder, output: &str) -> PathBuf {
    let output = folder.write("output", output);
    folder.script("program", &format!("cat >/dev/null\ncat '{}'", output.display()))
}

#[test]
fn the_same_list_is_said_in_one_line() {
    let folder = Folder::new();
    let log = small_log(&folder);
    let told = asked(&log, "amber+red", "2", &writing(&folder, RIGHT)).answered();
    let plain = tanks(&[log.as_os_str(), "amber+red".as_ref(), "2".as_ref()]).answered();
    assert_eq!(told, format!("{plain}The program lists the same 4 half hours.\n"));
}

#[test]
fn one_half_hour_and_none() {
    let folder = Folder::new();
    let log = folder.write("log.txt", log_text("2026-03-02 00:00", &["gag"]));
    let program = writing(&folder, "rows 3\nnamed 1\nthreshold 1\nset 1\n1\n");
    assert!(asked(&log, "amber", "1", &program).answered().ends_with("\nThe program lists the same 1 half hour.\n"));
    let program = writing(&folder, "rows 3\nnamed 1\nthreshold 1\nset 0\n");
    let told = asked(&log, "red", "1", &program).answered();
    assert!(told.ends_with("\nAt no time.\nThe program lists no half hour either.\n"), "{told}");
}

/// Each is refused with the first thing that is another.
#[test]
fn any_other_list_is_refused() {
    let with = |from: &str, to: &str| {
        assert!(RIGHT.contains(from));
        RIGHT.replacen(from, to, 1)
    };
    for (output, why) in [
        (with("39\n", ""), "its last line is not there"),
        (with("1\n2\n35\n39\n", ""), "its last 4 lines are not there"),
        (with("39\n", "39\n39\n"), "it goes on behind line 8, its last"),
        (with("39\n", "39\n\n"), "it goes on behind line 8, its last"),
        (with("35", "34"), "its line 7 is \"34\\n\" and should be \"35\\n\""),
        (with("1\n2\n", "2\n1\n"), "its line 5 is \"2\\n\" and should be \"1\\n\""),
        (with("\n2\n", "\n02\n"), "its line 6 is \"02\\n\" and should be \"2\\n\""),
        (with("39\n", "39"), "its line 8 is \"39\" and should be \"39\\n\""),
        (with("set 4", "set 3"), "its line 4 is \"set 3\\n\" and should be \"set 4\\n\""),
        (with("set 4", "set 5"), "its line 4 is \"set 5\\n\" and should be \"set 4\\n\""),
        (with("rows 40", "rows 41"), "its line 1 is \"rows 41\\n\" and should be \"rows 40\\n\""),
        (with("named 4", "named 2"), "its line 2 is \"named 2\\n\" and should be \"named 4\\n\""),
        (with("threshold 2", "threshold 1"), "its line 3 is \"threshold 1\\n\" and should be \"threshold 2\\n\""),
        (with("rows", "lines"), "its line 1 is \"lines 40\\n\" and should be \"rows 40\\n\""),
        ("refused 8 0 0\n".to_string(), "it says `refused 8 0 0`"),
        (String::new(), "its last 8 lines are not there"),
    ] {
        refused(&output, "", why);
    }
}

/// A program that writes this and then does that is refused for this cause.
fn refused(output: &str, and_then: &str, why: &str) {
    let folder = Folder::new();
    let output = folder.write("output", output);
    let program = folder.script("program", &format!("cat '{}'\n{and_then}", output.display()));
    refused_for(&folder, &program, why);
}

fn refused_for(folder: &Folder, program: &Path, why: &str) {
    let name = program.display();
    asked(&small_log(folder), "amber+red", "2", program)
        .refused(&format!("{name}: the program does not bear the library out: {why}. Build both anew, with `build`."));
}

#[test]
fn a_program_that_breaks_off_or_never_ends() {
    refused(RIGHT, "exit 3", "it broke off (exit status: 3)");
    refused(RIGHT, "kill -9 $$", "it broke off (signal: 9 (SIGKILL))");
    refused(RIGHT, "while :; do echo 39; done", "it goes on behind line 8, its last");
    refused("", "exit 1", "it broke off (exit status: 1)");
}

#[test]
fn a_program_that_can_not_be_run() {
    let folder = Folder::new();
    refused_for(&folder, &folder.path("none"), "it can't be run (No such file or directory (os error 2))");
    let text = folder.write("text", "no program");
    refused_for(&folder, &text, "it can't be run (Permission denied (os error 13))");
}

/// A log's fault is told before a program is run.
#[test]
fn a_refused_log_runs_no_program() {
    let folder = Folder::new();
    let log = folder.write("log.txt", "tanks 1\n");
    let mark = folder.path("ran");
    let program = folder.script("program", &format!(": >'{}'", mark.display()));
    assert_eq!(asked(&log, "red", "1", &program).status, Some(1));
    assert!(!mark.exists());
}

/// T, then an index with the amber and the red bitmap of each tank alone, lowest byte first.
#[test]
fn the_question_has_the_named_bitmaps_alone() {
    let folder = Folder::new();
    let log = folder.write("log.txt", log_text("2026-03-02 00:00", &["gar", "rga"]));
    let question = folder.path("question");
    let program = folder.script("program", &format!("cat >'{}'", question.display()));
    assert_eq!(asked(&log, "amber+red", "2", &program).status, Some(1));
    let bytes = fs::read(question).expect("what the program was given");
    let words: Vec<u32> = bytes.chunks(4).map(|b| u32::from_le_bytes(b.try_into().expect("whole words"))).collect();
    let bodies = [0x20000, 0b010, 0x20000, 0b100, 0x20000, 0b100, 0x20000, 0b001];
    assert_eq!(words, [&[2, 1, 3, 4, 11, 2, 13, 2, 15, 2, 17, 2][..], &bodies].concat());
}

/// Tanks whose every segment is mixed, so that a body of S segments has S + 1 words. The question's words: T, a head of
/// 3, an entry of 2 for each bitmap, and the bodies.
fn dense(tanks: usize, segments: usize) -> (Vec<String>, usize) {
    (vec!["ga".repeat(16 * segments); tanks], 4 * (1 + 3 + tanks * (2 + segments + 1)))
}

#[test]
fn a_question_that_is_too_long_is_not_compared() {
    let folder = Folder::new();
    let never = folder.script("program", "exit 3");
    let (letters, bytes) = dense(4, 4093);
    assert_eq!(bytes, 65_552);
    let log = folder.write("long.txt", log_text("2026-03-02 00:00", &letters));
    let told = asked(&log, "amber", "4", &never).answered();
    let line = "\nThe program takes at most 65,536 bytes, and this question has 65,552: not compared.\n";
    assert!(told.ends_with(line), "{}", told.lines().last().unwrap_or(""));
}

/// The longest question that is compared, by the length of what the program is given.
#[test]
fn a_question_of_just_the_most_bytes_is_compared() {
    let folder = Folder::new();
    let (letters, bytes) = dense(4, 4092);
    assert_eq!(bytes, 65_536);
    let log = folder.write("log.txt", log_text("2026-03-02 00:00", &letters));
    let program = folder.script("program", "[ \"$(wc -c)\" -eq 65536 ] && echo compared");
    let told = asked(&log, "amber", "4", &program);
    assert!(told.err.contains("its line 1 is \"compared\\n\""), "{}", told.err);
}

/// The proved program.
#[test]
fn the_program_itself_agrees() {
    let program = repository("target/bin/threshold");
    assert!(program.is_file(), "the program is not there: `./build` builds it");
    let week = repository("example/week.txt");
    let told = asked(&week, "amber+red", "5", &program).answered();
    assert_eq!(told, fs::read_to_string(repository("example/amber-red-5.txt")).expect("the expected answer"));
    for colours in ["green", "amber", "red", "green+amber+red"] {
        for t in 1..=12 {
            let told = asked(&week, colours, &t.to_string(), &program).answered();
            assert!(told.lines().last().is_some_and(|line| line.starts_with("The program lists ")), "{told}");
        }
    }
    let folder = Folder::new();
    let (letters, _) = dense(4, 4092);
    let log = folder.write("log.txt", log_text("2026-03-02 00:00", &letters));
    let told = asked(&log, "amber", "4", &program).answered();
    assert!(told.ends_with("\nThe program lists the same 65,472 half hours.\n"));
}

/// It takes an index in WAH as it takes one in EWAH.
#[test]
fn the_program_itself_agrees_with_an_archive() {
    let [old, week, program] = ["example/archive.wah", "example/week.txt", "target/bin/threshold"]
        .map(|name| repository(name).into_os_string());
    let asked = |colours: &str, t: usize| {
        let t = t.to_string();
        let [colours, t, option] = [colours, &t, "--program"].map(OsStr::new);
        archive(&[&old, &week, colours, t, option, &program]).answered()
    };
    let expected = repository("example/archive-amber-red-5.txt");
    assert_eq!(asked("amber+red", 5), fs::read_to_string(expected).expect("the expected answer"));
    for colours in ["green", "amber", "red", "green+amber+red"] {
        for t in 1..=12 {
            let told = asked(colours, t);
            assert!(told.contains("\nThe program lists "), "{told}");
        }
    }
}
