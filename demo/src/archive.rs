//! An old archive: an index in WAH of the same half hours as a log, asked as it is and rewritten. From the arguments to
//! the whole answer, or to the sentence that refuses it.

use std::ffi::{OsStr, OsString};
use std::path::Path;

use zvonurel::{Format, Refusal, ENTRY_WORDS, HEAD_WORDS, INDEX_KIND, WAH_FILL_SHIFT};

use crate::calendar::Span;
use crate::colour::Colour;
use crate::file;
use crate::index::{bitmaps, tank_and_colour, told, Asked};
use crate::log::Log;
use crate::number::count;
use crate::report::{compared, Question};

pub fn report([archive, log, colours, t]: [&OsString; 4], program: Option<&OsString>) -> Result<String, String> {
    let question = Question::read(log, colours, t)?;
    let words = read(archive, &question.log)?;
    let asked = Asked::new(Format::Wah, words, &question.colours, question.t);
    let answer = asked.answer().map_err(told)?;
    let same = same_as_log(&question, &answer.rows)?;
    let compared = compared(program, &asked, &answer)?;
    let (sound, drawn) = (sound_line(&asked.index), question.drawn(&answer));
    let rewritten = rewritten(&asked.index).map_err(told)?;
    let damaged = damaged(&asked.index, &question.log)?;
    Ok(format!("{sound}\n{drawn}{same}{compared}\n{rewritten}{damaged}"))
}

/// The words of a sound archive with the half hours and the bitmaps of the log.
pub fn read(archive: &OsStr, log: &Log<Colour>) -> Result<Vec<u32>, String> {
    let path = Path::new(archive);
    let words = file::words(path)?;
    suits(&words, log).map_err(|why| format!("{}: {why}", path.display()))?;
    Ok(words)
}

/// What is said of a sound archive.
pub fn sound_line(wah: &[u32]) -> String {
    format!("Archive: {}; it is sound, and is asked as it is.", size(wah))
}

/// Writes the bitmaps of a log as an archive.
pub fn make(log: &OsStr, archive: &OsStr) -> Result<String, String> {
    let log = file::read(Path::new(log))?;
    let words = bitmaps(&log, Format::Wah).map_err(told)?;
    file::write(Path::new(archive), &words)?;
    Ok(format!("Written: {}.\n", size(&words)))
}

/// The size of a sound archive.
fn size(wah: &[u32]) -> String {
    let [rows, bitmaps] = [wah[1], wah[2]].map(|n| n as usize);
    format!("{} of {} in WAH, {}", count(bitmaps, "bitmap"), count(rows, "half hour"), count(wah.len(), "word"))
}

/// Whether the words are a sound archive with the half hours and the bitmaps of the log.
fn suits(words: &[u32], log: &Log<Colour>) -> Result<(), String> {
    if words.first() == Some(&INDEX_KIND) {
        return Err("this is an index in EWAH: name an archive in WAH.".to_string());
    }
    zvonurel::check(words).map_err(|refusal| {
        format!("refused, {}. Fetch the archive again, or ask who keeps it.", fault(&refusal, log))
    })?;
    let (rows, bitmaps) = (log.span().rows, log.tanks.len() * Colour::ALL.len());
    if [words[1], words[2]].map(|n| n as usize) != [rows, bitmaps] {
        let (rows, bitmaps) = (count(rows, "half hour"), count(bitmaps, "bitmap"));
        return Err(format!("this has {}, and the log makes {bitmaps} of {rows}: name its own log.", size(words)));
    }
    Ok(())
}

/// A fault of an archive, for those who have not read the format.
fn fault(refusal: &Refusal, log: &Log<Colour>) -> String {
    let Refusal { number, bitmap, word, .. } = *refusal;
    let what = match number {
        Refusal::TOO_SHORT => "the file ends here, before its contents do",
        Refusal::NOT_AN_INDEX => "here an archive in WAH has a 2",
        Refusal::TOO_LARGE => "it has more words, half hours or bitmaps than can be asked",
        Refusal::BAD_CONTENTS => "here the contents do not fit the bitmaps",
        Refusal::BAD_COUNT => "here the bitmap has more half hours than the archive, or ends with fewer",
        Refusal::PAD_BIT => "here a half hour behind the last one is set",
        Refusal::NO_SEGMENTS => "here a count of half hours without a change is 0",
        _ => "here a word is wrong",
    };
    let (tank, colour) = tank_and_colour(bitmap);
    let named = log.tanks.get(tank).map(|tank| format!(" ({}, {})", tank.name.text, colour.name()));
    let named = named.filter(|_| matches!(number, Refusal::BAD_COUNT | Refusal::PAD_BIT | Refusal::NO_SEGMENTS));
    format!("number {number}, bitmap {bitmap}{}, word {word}: {what}", named.unwrap_or_default())
}

/// One line that says that the log, in EWAH, gives the same half hours, or at which one it does not.
fn same_as_log(question: &Question, rows: &[u32]) -> Result<String, String> {
    let log = question.of_log()?.answer().map_err(told)?.rows;
    same(question.log.span(), rows, &log)?;
    Ok(match rows.len() {
        0 => "The log, put into EWAH, lists no half hour either.\n".to_string(),
        n => format!("The log, put into EWAH, lists the same {}.\n", count(n, "half hour")),
    })
}

/// Whether an archive and a log list the same half hours, or the first that but one of them lists.
pub fn same(span: Span, archived: &[u32], logged: &[u32]) -> Result<(), String> {
    let same = archived.iter().zip(logged).take_while(|(archived, logged)| archived == logged).count();
    let Some(row) = archived.get(same).into_iter().chain(logged.get(same)).min() else { return Ok(()) };
    let (here, there) = if archived.get(same) == Some(row) { ("archive", "log") } else { ("log", "archive") };
    let time = span.moment(*row as usize).shown(true);
    Err(format!("{time}: the {here} lists this half hour, and the {there} does not: name its own log."))
}

/// The archive in EWAH, and that in WAH again: how many words each has.
fn rewritten(wah: &[u32]) -> Result<String, Refusal> {
    let whole = |format: Format| vec![0; format.most_new_index_words(wah[1], wah[2] as usize)];
    let (mut ewah, mut back) = (whole(Format::Ewah), whole(Format::Wah));
    let words = zvonurel::index_to_ewah(wah, &mut ewah)?;
    let again = zvonurel::index_to_wah(&ewah[..words], &mut back)?;
    let (there, again, back) = (count(words, "word"), count(again, "word"), &back[..again]);
    let back = match back == wah {
        true => format!("the same {again} again"),
        false => format!("{again}, since it was not in the library's form; its rows are the same"),
    };
    Ok(format!("Rewritten in EWAH: {there}. Rewritten back in WAH: {back}.\n"))
}

/// What is said of a copy whose first fill counts nothing; there may be no fill.
fn damaged(wah: &[u32], log: &Log<Colour>) -> Result<String, String> {
    let bodies = HEAD_WORDS + ENTRY_WORDS * wah[2] as usize;
    let Some(place) = (bodies..wah.len()).find(|place| wah[*place] >> WAH_FILL_SHIFT == 1) else {
        return Ok(String::new());
    };
    let mut copy = wah.to_vec();
    copy[place] = 1 << WAH_FILL_SHIFT;
    let Err(refusal) = zvonurel::check(&copy) else {
        return Err("The library takes a damaged archive for a sound one. Build it anew, with `build`.".to_string());
    };
    let (word, fault) = (copy[place], fault(&refusal, log));
    Ok(format!("\nA damaged copy, in which word {place} is {word:08X}, is refused:\n  {fault}.\n"))
}
