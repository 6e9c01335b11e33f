//! Old archives: how one is made, what is answered from it, and what is refused.

mod common;
#[path = "common/numbers.rs"]
mod numbers;

use std::fs;
use std::path::{Path, PathBuf};

use common::{archive, log_text, made, repository, tanks, Folder, Told};
use numbers::{Numbers, BEGINNINGS};

/// The words of a file.
fn words(path: &Path) -> Vec<u32> {
    let bytes = fs::read(path).expect("an archive");
    assert_eq!(bytes.len() % 4, 0);
    bytes.chunks(4).map(|word| u32::from_le_bytes(word.try_into().expect("four bytes"))).collect()
}

fn bytes(words: &[u32]) -> Vec<u8> {
    words.iter().flat_map(|word| word.to_le_bytes()).collect()
}

fn asked(archive_: &Path, log: &Path, colours: &str, t: &str) -> Told {
    archive(&[archive_.as_os_str(), log.as_os_str(), colours.as_ref(), t.as_ref()])
}

/// Two tanks of 70 half hours, which in WAH are three segments, the last one of 8: green but for the first's half hour
/// 40, which is amber.
fn small(folder: &Folder) -> (PathBuf, Vec<u32>) {
    let letters = [format!("{}a{}", "g".repeat(40), "g".repeat(29)), "g".repeat(70)];
    let log = folder.write("log.txt", log_text("2026-03-02 00:00", &letters));
    let first_green = [0x7FFF_FFFF, 0x7FFF_FDFF, 0xFF];
    let first_amber = [0, 1 << 9, 0];
    let contents = [2, 70, 6, 15, 3, 18, 3, 21, 1, 22, 1, 23, 1, 24, 1];
    let rest = [0x8000_0003, 0xC000_0003, 0x8000_0003, 0x8000_0003];
    (log, [&contents[..], &first_green, &first_amber, &rest].concat())
}

/// The small archive with some words changed is refused with its name, what stands here behind it, and what to do.
fn damaged_refused(change: impl FnOnce(&mut Vec<u32>), fault: &str) {
    let folder = Folder::new();
    let (log, mut words) = small(&folder);
    change(&mut words);
    let path = folder.write("old.wah", bytes(&words));
    let mend = "Fetch the archive again, or ask who keeps it.";
    asked(&path, &log, "amber", "1").refused(&format!("{}: refused, {fault}. {mend}", path.display()));
}

/// The archive of the example is the one that the demo makes of the week.
#[test]
fn the_archive_is_that_of_the_week() {
    let folder = Folder::new();
    let path = made(&folder, &repository("example/week.txt"));
    let (archive, again) = [repository("example/archive.wah"), path].map(|path| words(&path)).into();
    assert!(archive == again, "another archive than the week's");
    assert_eq!(archive[..5], [2, 336, 36, 75, archive[5] - 75]);
}

#[test]
fn an_archive_is_made_word_by_word() {
    let folder = Folder::new();
    let (log, expected) = small(&folder);
    let path = folder.path("old.wah");
    let make = || archive(&["--make".as_ref(), log.as_os_str(), path.as_os_str()]);
    assert_eq!(make().answered(), "Written: 6 bitmaps of 70 half hours in WAH, 25 words.\n");
    assert_eq!(words(&path), expected);
    make().refused(&format!("{}: this file is there already: name another.", path.display()));
    let (none, path) = (folder.path("none.txt"), folder.path("none/old.wah"));
    let told = archive(&["--make".as_ref(), none.as_os_str(), path.as_os_str()]);
    told.refused(&format!("{}: there is no such file: mend its name or its folder.", none.display()));
    let told = archive(&["--make".as_ref(), log.as_os_str(), path.as_os_str()]);
    assert!(told.err.contains("this can't be written: ") && told.status == Some(1), "{told:?}");
}

#[test]
fn a_small_archive_word_by_word() {
    let folder = Folder::new();
    let (log, words) = small(&folder);
    let path = folder.write("old.wah", bytes(&words));
    let drawn = tanks(&[log.as_os_str(), "amber".as_ref(), "1".as_ref()]).answered();
    let expected = format!(
        "Archive: 6 bitmaps of 70 half hours in WAH, 25 words; it is sound, and is asked as it is.\n{drawn}\
         The log, put into EWAH, lists the same 1 half hour.\n\n\
         Rewritten in EWAH: 25 words. Rewritten back in WAH: the same 25 words again.\n\n\
         A damaged copy, in which word 21 is 80000000, is refused:\n  \
         number 10, bitmap 2 (tank 1, red), word 21: here a count of half hours without a change is 0.\n"
    );
    assert_eq!(asked(&path, &log, "amber", "1").answered(), expected);
    let out = asked(&path, &log, "red", "2").answered();
    assert!(out.contains("\nAt no time.\nThe log, put into EWAH, lists no half hour either.\n\n"), "{out}");
}

/// The same rows in other words: what is clean as a literal or in several fills.
#[test]
fn a_wasteful_archive_is_asked_and_written_anew() {
    let folder = Folder::new();
    let (log, mut words) = small(&folder);
    // one clean segment as a fill, in as many words
    words[18] = 0x8000_0001;
    let path = folder.write("old.wah", bytes(&words));
    let form = "since it was not in the library's form; its rows are the same.\n";
    let out = asked(&path, &log, "amber", "1").answered();
    assert!(out.contains(&format!("Rewritten in EWAH: 25 words. Rewritten back in WAH: 25 words, {form}")), "{out}");
    // and a run in two words
    words.splice(24.., [0, 0x8000_0002]);
    words[14] = 2;
    let path = folder.write("old.wah", bytes(&words));
    let out = asked(&path, &log, "amber", "1").answered();
    assert!(out.contains(&format!("Rewritten in EWAH: 25 words. Rewritten back in WAH: 25 words, {form}")), "{out}");
    assert!(out.starts_with("Archive: 6 bitmaps of 70 half hours in WAH, 26 words; it is sound"), "{out}");
}

/// Where every segment is mixed there is no fill to damage.
#[test]
fn an_archive_without_a_fill_has_no_damaged_copy() {
    let folder = Folder::new();
    let log = folder.write("log.txt", log_text("2026-03-02 00:00", &["gar"]));
    let path = made(&folder, &log);
    assert_eq!(words(&path), [2, 3, 3, 9, 1, 10, 1, 11, 1, 1, 2, 4]);
    let out = asked(&path, &log, "amber+red", "1").answered();
    assert!(out.ends_with("Rewritten back in WAH: the same 12 words again.\n"), "{out}");
}

/// Of any log, what is asked of its archive is what is asked of itself.
#[test]
fn an_archive_answers_as_its_log_does() {
    let mut numbers = Numbers(4);
    for case in 0..40 {
        let folder = Folder::new();
        let (rows, many) = (1 + numbers.below(200), 1 + numbers.below(6));
        let letters: Vec<String> = (0..many).map(|_| runs(&mut numbers, rows)).collect();
        let log = folder.write("log.txt", log_text(BEGINNINGS[case % BEGINNINGS.len()], &letters));
        let path = made(&folder, &log);
        let (colours, t) = (["red", "amber+red", "green"][case % 3], (1 + numbers.below(many)).to_string());
        let drawn = tanks(&[log.as_os_str(), colours.as_ref(), t.as_ref()]).answered();
        let out = asked(&path, &log, colours, &t).answered();
        assert!(
            out.contains(&format!("sound, and is asked as it is.\n{drawn}The log, put into EWAH, lists ")),
            "{out}"
        );
        assert!(out.contains(" Rewritten back in WAH: the same "), "{out}");
    }
}

/// Letters that stay for a while.
fn runs(numbers: &mut Numbers, rows: usize) -> String {
    let mut letters = String::new();
    while letters.len() < rows {
        let letter = ["g", "a", "r"][numbers.below(3)];
        letters += &letter.repeat(1 + numbers.below(70).min(rows - letters.len() - 1));
    }
    letters
}

#[test]
fn a_damaged_archive_is_refused_in_plain_words() {
    let zero = "here a count of half hours without a change is 0";
    damaged_refused(|words| words[22] = 0x8000_0000, &format!("number 10, bitmap 3 (tank 2, green), word 22: {zero}"));
    damaged_refused(|words| words[23] = 0xC000_0000, &format!("number 10, bitmap 4 (tank 2, amber), word 23: {zero}"));
    let many = "here the bitmap has more half hours than the archive, or ends with fewer";
    damaged_refused(|words| words[21] = 0x8000_0004, &format!("number 6, bitmap 2 (tank 1, red), word 21: {many}"));
    damaged_refused(|words| words[21] = 0x8000_0002, &format!("number 6, bitmap 2 (tank 1, red), word 22: {many}"));
    let pad = "here a half hour behind the last one is set";
    damaged_refused(|words| words[17] = 0x1FF, &format!("number 7, bitmap 0 (tank 1, green), word 17: {pad}"));
    let contents = "here the contents do not fit the bitmaps";
    damaged_refused(|words| words[5] = 19, &format!("number 4, bitmap 1, word 5: {contents}"));
    damaged_refused(|words| words.push(0), &format!("number 4, bitmap 0, word 25: {contents}"));
    damaged_refused(
        |words| words.truncate(14),
        "number 1, bitmap 0, word 14: the file ends here, before its contents do",
    );
    damaged_refused(|words| words.clear(), "number 1, bitmap 0, word 0: the file ends here, before its contents do");
    damaged_refused(|words| words[0] = 0x0200_0000, "number 2, bitmap 0, word 0: here an archive in WAH has a 2");
    let large = "it has more words, half hours or bitmaps than can be asked";
    damaged_refused(|words| words[1] = 1_073_741_825, &format!("number 3, bitmap 0, word 1: {large}"));
    damaged_refused(|words| words[2] = 257, &format!("number 3, bitmap 0, word 2: {large}"));
    // the most that can be asked, and more than are there
    damaged_refused(|words| words[1] = 1_073_741_824, &format!("number 6, bitmap 0 (tank 1, green), word 18: {many}"));
    damaged_refused(|words| words[2] = 256, "number 1, bitmap 0, word 25: the file ends here, before its contents do");
    // a bitmap that the log has no tank for
    let more = [2, 1, 7, 17, 1, 18, 1, 19, 1, 20, 1, 21, 1, 22, 1, 23, 1, 0, 0, 0, 0, 0, 0, 0x8000_0000];
    damaged_refused(|words| *words = more.to_vec(), &format!("number 10, bitmap 6, word 23: {zero}"));
}

#[test]
fn what_is_no_archive_of_the_log_is_refused() {
    let folder = Folder::new();
    let (log, words) = small(&folder);
    let refused = |bytes: &[u8], why: &str| {
        let path = folder.write("old.wah", bytes);
        asked(&path, &log, "amber", "1").refused(&format!("{}: {why}", path.display()));
    };
    let whole = bytes(&words);
    refused(&whole[..99], "its 99 bytes are no whole words of four: fetch the archive again.");
    refused(&bytes(&[1, 70, 0]), "this is an index in EWAH: name an archive in WAH.");
    let log_makes = "and the log makes 6 bitmaps of 70 half hours: name its own log.";
    refused(&bytes(&[2, 70, 0]), &format!("this has 0 bitmaps of 70 half hours in WAH, 3 words, {log_makes}"));
    let mut other = words.clone();
    (other[1], other[17]) = (69, 0x7F);
    refused(&bytes(&other), &format!("this has 6 bitmaps of 69 half hours in WAH, 25 words, {log_makes}"));
    archive(&[folder.path(""), log.clone(), "red".into(), "1".into()])
        .refused(&format!("{}: this is a folder: name an archive in it.", folder.path("").display()));
}

/// Another archive of as many tanks and half hours.
#[test]
fn an_archive_that_answers_otherwise_than_the_log_is_refused() {
    let folder = Folder::new();
    let (log, words) = small(&folder);
    for (place, word, which) in [
        (19, 0, "20:00: the log lists this half hour, and the archive does not"),
        (19, 3 << 9, "20:30: the archive lists this half hour, and the log does not"),
        (19, 3 << 8, "19:30: the archive lists this half hour, and the log does not"),
    ] {
        let mut other = words.clone();
        other[place] = word;
        let path = folder.write("old.wah", bytes(&other));
        asked(&path, &log, "amber", "1").refused(&format!("Mon 2 Mar 2026 {which}: name its own log."));
    }
}

#[test]
fn too_few_and_too_many_arguments() {
    let usage = "Usage: archive ARCHIVE LOG COLOURS T [--program PROGRAM], or archive --make LOG ARCHIVE.";
    for arguments in [&[][..], &["--make"], &["--make", "x"], &["x", "x", "x"], &["x", "x", "x", "x", "x", "x"]] {
        archive(arguments).refused(usage);
    }
}
