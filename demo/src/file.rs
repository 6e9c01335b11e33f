//! The files of logs and archives. Each refusal begins with a file's name, and the line where there is one.

use std::fs::File;
use std::io::{self, ErrorKind, Read, Write};
use std::path::Path;

use zvonurel::MOST_INDEX_WORDS;

use crate::colour::Colour;
use crate::deliveries::Deliveries;
use crate::log::{Entry, Fault, Log};
use crate::number::grouped;

/// The entries of the most tanks and half hours, and a mebibyte for names and remarks.
fn most_bytes<E: Entry>() -> u64 {
    (E::MOST_TANKS * E::MOST_ROWS * E::MOST_BYTES) as u64 + (1 << 20)
}

pub fn read<E: Entry>(path: &Path) -> Result<Log<E>, String> {
    text(path, most_bytes::<E>()).and_then(|text| Log::read(&text)).map_err(|fault| placed(path, fault))
}

/// The log of one tank, delivery by delivery, no longer than a log of many.
pub fn read_deliveries(path: &Path) -> Result<Deliveries, String> {
    text(path, most_bytes::<Colour>()).and_then(|text| Deliveries::read(&text)).map_err(|fault| placed(path, fault))
}

fn placed(path: &Path, Fault { line, what }: Fault) -> String {
    let line = line.map_or(String::new(), |line| format!(", line {line}"));
    format!("{}{line}: {what}", path.display())
}

/// All of a file, unless it has more bytes.
fn bytes(path: &Path, most: u64) -> io::Result<Vec<u8>> {
    let mut bytes = Vec::new();
    let read = File::open(path)?.take(most + 1).read_to_end(&mut bytes)?;
    match read as u64 > most {
        true => Err(ErrorKind::FileTooLarge.into()),
        false => Ok(bytes),
    }
}

/// Why a file is not read; `thing` is what it should be.
fn unread(path: &Path, why: &io::Error, thing: &str) -> String {
    match why.kind() {
        _ if !path.exists() => "there is no such file: mend its name or its folder.".to_string(),
        _ if path.is_dir() => format!("this is a folder: name {thing} in it."),
        ErrorKind::FileTooLarge => format!("this is too long for {thing}: name another file, or split it by time."),
        ErrorKind::PermissionDenied => "you may not read this file: ask its owner to allow it.".to_string(),
        _ => format!("this can't be read: {why}. Name a file that can."),
    }
}

fn text(path: &Path, most: u64) -> Result<String, Fault> {
    let bytes = bytes(path, most).map_err(|why| Fault { line: None, what: unread(path, &why, "a log") })?;
    String::from_utf8(bytes).map_err(|why| {
        let sound = &why.as_bytes()[..why.utf8_error().valid_up_to()];
        let line = sound.iter().filter(|byte| **byte == b'\n').count() + 1;
        Fault { line: Some(line), what: "this is no text in UTF-8: save the log as such, as plain text.".to_string() }
    })
}

/// The words of an archive, each lowest byte first.
pub fn words(path: &Path) -> Result<Vec<u32>, String> {
    let said = |why: String| format!("{}: {why}", path.display());
    let most = MOST_INDEX_WORDS * size_of::<u32>();
    let bytes = bytes(path, most as u64).map_err(|why| said(unread(path, &why, "an archive")))?;
    let words = bytes.chunks(size_of::<u32>()).map(|word| word.try_into().map(u32::from_le_bytes));
    words.collect::<Result<_, _>>().map_err(|_| {
        said(format!("its {} bytes are no whole words of four: fetch the archive again.", grouped(bytes.len())))
    })
}

/// Writes the words of an archive to a file that is not there yet.
pub fn write(path: &Path, words: &[u32]) -> Result<(), String> {
    let bytes: Vec<u8> = words.iter().flat_map(|word| word.to_le_bytes()).collect();
    File::create_new(path).and_then(|mut file| file.write_all(&bytes)).map_err(|why| match why.kind() {
        ErrorKind::AlreadyExists => format!("{}: this file is there already: name another.", path.display()),
        _ => format!("{}: this can't be written: {why}. Name a file that can.", path.display()),
    })
}
