//! What the tests share: a folder of their own, logs in it, and what a command says.

// each file of tests uses a part of it
#![allow(dead_code)]

use std::ffi::OsStr;
use std::path::{Path, PathBuf};
use std::process::{Command, Output};
use std::sync::atomic::{AtomicUsize, Ordering};
use std::{env, fs, process};

/// The demo: its command on colours, that on readings, that on an old archive, that on one half hour, that on the
/// change since the day before, that on the worst half hours, and that on a log that grows.
pub const TANKS: &str = env!("CARGO_BIN_EXE_tanks");
pub const AMMONIA: &str = env!("CARGO_BIN_EXE_ammonia");
pub const ARCHIVE: &str = env!("CARGO_BIN_EXE_archive");
pub const MOMENT: &str = env!("CARGO_BIN_EXE_moment");
pub const RISE: &str = env!("CARGO_BIN_EXE_rise");
pub const WORST: &str = env!("CARGO_BIN_EXE_worst");
pub const LOG: &str = env!("CARGO_BIN_EXE_log");

/// What every refusal ends with.
pub const REFUSED: &str = "Nothing was answered.\n";

/// A file of the repository.
pub fn repository(name: &str) -> PathBuf {
    Path::new(env!("CARGO_MANIFEST_DIR")).join("..").join(name)
}

/// A folder for one test, removed at its end.
pub struct Folder(pub PathBuf);

impl Folder {
    pub fn new() -> Folder {
        static MADE: AtomicUsize = AtomicUsize::new(0);
        let number = MADE.fetch_add(1, Ordering::Relaxed);
        let path = env::temp_dir().join(format!("tanks-{}-{number}", process::id()));
        fs::create_dir(&path).expect("a folder");
        Folder(path)
    }

    pub fn path(&self, name: &str) -> PathBuf {
        self.0.join(name)
    }

    /// Writes a file, with the folders above it.
    pub fn write(&self, name: &str, bytes: impl AsRef<[u8]>) -> PathBuf {
        let path = self.path(name);
        fs::create_dir_all(path.parent().expect("a folder")).expect("its folder");
        fs::write(&path, bytes).expect("a file");
        path
    }

    /// Writes a program in shell. Another process does: one that was open for writing here, while a second test starts
    /// a process, could not be run.
    pub fn script(&self, name: &str, text: &str) -> PathBuf {
        let path = self.path(name);
        fs::create_dir_all(path.parent().expect("a folder")).expect("its folder");
        let write = "printf '#!/bin/sh\\n%s\\n' \"$2\" >\"$1\" && chmod 755 \"$1\"";
        let status = Command::new("sh").args(["-c", write, "sh"]).arg(&path).arg(text).status();
        assert!(status.expect("a shell").success());
        path
    }
}

impl Drop for Folder {
    fn drop(&mut self) {
        fs::remove_dir_all(&self.0).ok();
    }
}

/// A log of tanks `tank 1`, `tank 2` and so on, with these letters.
pub fn log_text<S: AsRef<str>>(from: &str, letters: &[S]) -> String {
    let tanks = letters.iter().zip(1..).map(|(letters, n)| format!("tank {n}: {}\n", letters.as_ref()));
    format!("tanks {}\nfrom {from}\n{}", letters.len(), tanks.collect::<String>())
}

/// Hundredths of a milligram, or none.
pub type Reading = Option<u32>;

/// A log of tanks `tank 1`, `tank 2` and so on, with these readings, so many to a line.
pub fn readings_text(from: &str, tanks: &[Vec<Reading>], line: usize) -> String {
    let written = |reading: &Reading| reading.map_or("-".to_string(), |n| format!("{}.{:02}", n / 100, n % 100));
    let mut text = format!("tanks {}\nfrom {from}\n", tanks.len());
    for (readings, n) in tanks.iter().zip(1..) {
        let lines = readings.chunks(line).map(|part| part.iter().map(written).collect::<Vec<_>>().join(" "));
        text += &format!("tank {n}: {}\n", lines.collect::<Vec<_>>().join("\n"));
    }
    text
}

/// How a command ended, and what it said.
#[derive(Debug)]
pub struct Told {
    pub status: Option<i32>,
    pub out: String,
    pub err: String,
}

impl Told {
    /// It answered, and had nothing else to say.
    pub fn answered(self) -> String {
        assert_eq!((self.status, self.err.as_str()), (Some(0), ""), "{self:?}");
        self.out
    }

    /// It refused in these words, and said nothing else.
    pub fn refused(self, words: &str) {
        assert_eq!(self.err, format!("{words} {REFUSED}"));
        assert_eq!((self.status, self.out.as_str()), (Some(1), ""), "{self:?}");
    }
}

pub fn run(command: &mut Command) -> Told {
    let Output { status, stdout, stderr } = command.output().expect("it runs");
    let text = |bytes| String::from_utf8(bytes).expect("UTF-8");
    Told { status: status.code(), out: text(stdout), err: text(stderr) }
}

pub fn tanks<S: AsRef<OsStr>>(arguments: &[S]) -> Told {
    run(Command::new(TANKS).args(arguments))
}

pub fn ammonia<S: AsRef<OsStr>>(arguments: &[S]) -> Told {
    run(Command::new(AMMONIA).args(arguments))
}

pub fn archive<S: AsRef<OsStr>>(arguments: &[S]) -> Told {
    run(Command::new(ARCHIVE).args(arguments))
}

/// Makes the archive of a log.
pub fn made(folder: &Folder, log: &Path) -> PathBuf {
    let path = folder.path("old.wah");
    archive(&["--make".as_ref(), log.as_os_str(), path.as_os_str()]).answered();
    path
}

pub fn moment<S: AsRef<OsStr>>(arguments: &[S]) -> Told {
    run(Command::new(MOMENT).args(arguments))
}

pub fn rise<S: AsRef<OsStr>>(arguments: &[S]) -> Told {
    run(Command::new(RISE).args(arguments))
}

pub fn worst<S: AsRef<OsStr>>(arguments: &[S]) -> Told {
    run(Command::new(WORST).args(arguments))
}

pub fn log<S: AsRef<OsStr>>(arguments: &[S]) -> Told {
    run(Command::new(LOG).args(arguments))
}
