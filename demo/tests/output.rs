//! Help, and standard output that does not take the answer.

mod common;

use std::fs::File;
use std::os::fd::OwnedFd;
use std::os::unix::net::UnixStream;
use std::process::{Command, Stdio};

use common::{ammonia, archive, log, moment, repository, rise, run, tanks, worst, TANKS};

fn week() -> Command {
    let mut command = Command::new(TANKS);
    command.arg(repository("example/week.txt")).args(["amber+red", "5"]);
    command
}

#[test]
fn help_is_no_fault() {
    for arguments in [&["-h"][..], &["--help"], &["log", "-h"], &["log", "red", "1", "--help"]] {
        let out = tanks(arguments).answered();
        assert!(out.starts_with("Usage: tanks LOG COLOURS T [--program PROGRAM].\n"), "{out}");
        assert!(["LOG", "COLOURS", "T ", "PROGRAM"].iter().all(|word| out.contains(&format!("\n  {word}"))), "{out}");
    }
    for arguments in [&["-h"][..], &["--help"], &["log", "-h"], &["log", "x", "x", "x", "x", "x", "--help"]] {
        let out = ammonia(arguments).answered();
        assert!(out.starts_with("Usage: ammonia LOG [DATE TIME [FIRST SECOND]].\n"), "{out}");
        assert!(["LOG", "DATE TIME", "FIRST SECOND"].iter().all(|word| out.contains(&format!("\n  {word}"))), "{out}");
    }
    for arguments in [&["-h"][..], &["--help"], &["--make", "-h"], &["x", "x", "x", "x", "x", "x", "x", "--help"]] {
        let out = archive(arguments).answered();
        assert!(
            out.starts_with("Usage: archive ARCHIVE LOG COLOURS T [--program PROGRAM], or archive --make"),
            "{out}"
        );
        let words = ["ARCHIVE", "LOG", "COLOURS", "T ", "PROGRAM"];
        assert!(words.iter().all(|word| out.contains(&format!("\n  {word}"))), "{out}");
    }
    for arguments in [&["-h"][..], &["--help"], &["log", "-h"], &["x", "x", "x", "x", "x", "x", "x", "--help"]] {
        let out = moment(arguments).answered();
        assert!(out.starts_with("Usage: moment LOG TANK DATE TIME [COLOURS [ARCHIVE]].\n"), "{out}");
        let words = ["LOG", "TANK", "DATE TIME", "COLOURS", "ARCHIVE"];
        assert!(words.iter().all(|word| out.contains(&format!("\n  {word}"))), "{out}");
    }
    for arguments in [&["-h"][..], &["--help"], &["log", "-h"], &["x", "x", "x", "--help"]] {
        let out = rise(arguments).answered();
        assert!(out.starts_with("Usage: rise LOG [TANK].\n"), "{out}");
        assert!(["LOG", "TANK"].iter().all(|word| out.contains(&format!("\n  {word}"))), "{out}");
    }
    for arguments in [&["-h"][..], &["--help"], &["--calmest", "-h"], &["x", "x", "x", "x", "x", "--help"]] {
        let out = worst(arguments).answered();
        assert!(out.starts_with("Usage: worst [--calmest] LOG [TANK [K]].\n"), "{out}");
        let words = ["--calmest", "LOG", "TANK", "K "];
        assert!(words.iter().all(|word| out.contains(&format!("\n  {word}"))), "{out}");
    }
    for arguments in [&["-h"][..], &["--help"], &["log", "-h"], &["x", "x", "x", "--help"]] {
        let out = log(arguments).answered();
        assert!(out.starts_with("Usage: log LOG [COLOURS].\n"), "{out}");
        assert!(["LOG", "COLOURS"].iter().all(|word| out.contains(&format!("\n  {word}"))), "{out}");
    }
}

/// The other end was closed before anything was written.
fn closed() -> Stdio {
    let (ours, theirs) = UnixStream::pair().expect("two ends");
    drop(theirs);
    Stdio::from(OwnedFd::from(ours))
}

/// `output()` would take a pipe of its own, so the process is waited for.
fn ended(command: &mut Command, out: Stdio) -> (Option<i32>, String) {
    let child = command.stdout(out).stderr(Stdio::piped()).spawn().expect("it runs");
    let told = child.wait_with_output().expect("it ends");
    (told.status.code(), String::from_utf8(told.stderr).expect("UTF-8"))
}

#[test]
fn a_closed_pipe_is_no_fault() {
    assert_eq!(ended(&mut week(), closed()), (Some(0), String::new()));
    assert_eq!(ended(Command::new(TANKS).arg("-h"), closed()), (Some(0), String::new()));
    let piped = format!("'{TANKS}' '{}' amber+red 5 | head -n 1", repository("example/week.txt").display());
    let out = run(Command::new("sh").args(["-c", &piped])).answered();
    assert_eq!(out, "Read: 12 tanks, 336 half hours from Mon 2 Mar 2026 00:00 to Mon 9 Mar 2026 00:00.\n");
}

#[test]
fn a_full_disk_is_one() {
    let full = || Stdio::from(File::options().write(true).open("/dev/full").expect("a full device"));
    let words =
        "Standard output can't be written: No space left on device (os error 28). What stands there is not the \
                 whole answer.\n";
    assert_eq!(ended(&mut week(), full()), (Some(1), words.to_string()));
    // an output that is open for reading alone
    let (status, told) = ended(&mut week(), Stdio::from(File::open("/dev/null").expect("a device")));
    assert!(status == Some(1) && told.starts_with("Standard output can't be written: Bad file descriptor"), "{told}");
    // and with nowhere to say so, the status still tells
    let status = week().arg("more").stdout(full()).stderr(full()).status();
    assert_eq!(status.expect("it runs").code(), Some(1));
}
