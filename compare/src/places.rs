//! Which line of the table of refusals a refusal belongs to, and how often each
//! line was reached by each call in each format.

use reference::limits::{LEAST_COLUMN, MOST_SUMMED, MOST_VALUED};
use reference::{with_mistake, Mistake};
use zvonurel::Format::{self, Ewah, Wah};
use zvonurel::{segments, Refusal, ENTRY_WORDS, HEAD_WORDS, MOST_NAMED, MOST_ROWS, WAH_FILL_SHIFT};

use crate::ask::Refused;
use crate::encode::{entry_place, format_of, FORMATS};
use crate::question::{Call, Question};
use crate::second::append;

#[derive(Debug, Clone, Copy, PartialEq, Eq)]
pub enum Place {
    Answered,
    ShortHead,
    ShortContents,
    WordZero,
    TooLong,
    Rows,
    Bitmaps,
    Start,
    Length,
    FinalEnd,
    PastBody,
    PastSegments,
    LiteralPast,
    Missing,
    PadInDirty,
    PadInPlain,
    BadNumber,
    BadSecond,
    BadRow,
    BadNth,
    ListEmpty,
    ListLong,
    ListNumber,
    ThresholdZero,
    ThresholdHigh,
    TableShort,
    TableLong,
    TableEntry,
    PlainFew,
    PlainMany,
    ColumnShort,
    ColumnLong,
    ColumnNumber,
    SecondShort,
    SecondLong,
    SecondNumber,
    NoSuchRow,
    HighRank,
    Several,
    BadAndStray,
    StrayFirst,
    StraySecond,
    StrayNoRoom,
    NoRoom,
    NoSegments,
    OtherLength,
    HighRows,
    HighWords,
    LoneWords,
    LoneRows,
    Unsound,
    Unsettled,
    SeveralBroken,
    TwelveAndThree,
    TwelveAndEight,
    TwelveAndSeven,
    TwelveAndNine,
    ThreeAndEight,
    ThreeAndSeven,
    ThreeAndNine,
    EightAndSeven,
    EightAndNine,
    SevenAndNine,
}

use Place::*;

const ALL: [(Place, &str); 63] = [
    (Answered, "- answered"),
    (ShortHead, "1 index below its head"),
    (ShortContents, "1 index below its contents"),
    (WordZero, "2 word 0 isn't a kind"),
    (TooLong, "3 index too long"),
    (Rows, "3 rows too many"),
    (Bitmaps, "3 N too large"),
    (Start, "4 wrong start"),
    (Length, "4 length past the end"),
    (FinalEnd, "4 last end before the end"),
    (PastBody, "5 dirty words pass the body"),
    (PastSegments, "6 marker, fill pass the segments"),
    (LiteralPast, "6 literal passes the segments"),
    (Missing, "6 segments missing at the end"),
    (PadInDirty, "7 pad bit in dirty word, literal"),
    (PadInPlain, "7 pad bit in a plain word"),
    (BadNumber, "8 bitmap number (first)"),
    (BadSecond, "8 bitmap number (second)"),
    (BadRow, "8 row number"),
    (BadNth, "8 nth past the count"),
    (ListEmpty, "8 list of 0"),
    (ListLong, "8 list too long"),
    (ListNumber, "8 bitmap number in a list"),
    (ThresholdZero, "8 T of 0"),
    (ThresholdHigh, "8 T above the list"),
    (TableShort, "8 table too short"),
    (TableLong, "8 table too long"),
    (TableEntry, "8 table entry not 0 or 1"),
    (PlainFew, "8 plain words too few"),
    (PlainMany, "8 plain words too many"),
    (ColumnShort, "8 column of under 2"),
    (ColumnLong, "8 column too long"),
    (ColumnNumber, "8 bitmap number in a column"),
    (SecondShort, "8 second column of under 2"),
    (SecondLong, "8 second column too long"),
    (SecondNumber, "8 number in a second column"),
    (NoSuchRow, "8 row that doesn't exist"),
    (HighRank, "8 k above the rows that exist"),
    (Several, "8 several of these at once"),
    (BadAndStray, "8 where 11 holds too"),
    (StrayFirst, "11 stray row, first column"),
    (StraySecond, "11 stray row, second column"),
    (StrayNoRoom, "11 stray row where 9 holds too"),
    (NoRoom, "9 answer doesn't fit"),
    (NoSegments, "10 fill of no segments"),
    (OtherLength, "12 buffer of another length"),
    (HighRows, "12 rows past the limit"),
    (HighWords, "12 words past the buffer"),
    (LoneWords, "12 words without rows"),
    (LoneRows, "12 rows without words"),
    (Unsound, "12 body unsound or of other rows"),
    (Unsettled, "12 body not settled"),
    (SeveralBroken, "12 several of these at once"),
    (TwelveAndThree, "12 where 3 holds too"),
    (TwelveAndEight, "12 where 8 holds too"),
    (TwelveAndSeven, "12 where 7 holds too"),
    (TwelveAndNine, "12 where 9 holds too"),
    (ThreeAndEight, "3 where 8 holds too"),
    (ThreeAndSeven, "3 where 7 holds too"),
    (ThreeAndNine, "3 where 9 holds too"),
    (EightAndSeven, "8 where 7 holds too"),
    (EightAndNine, "8 where 9 holds too"),
    (SevenAndNine, "7 where 9 holds too"),
];

/// Two refusals of a batch at once: the one that is due and the other. The mistake gives this one, where both hold; so
/// the reference tells. 3 is seldom due without 8, so that comes last.
const BOTH: [(Mistake, u32, u32, Place); 10] = [
    (Mistake::BatchSevenBeforeTwelve, 12, 7, TwelveAndSeven),
    (Mistake::BatchNineBeforeTwelve, 12, 9, TwelveAndNine),
    (Mistake::BatchThreeBeforeTwelve, 12, 3, TwelveAndThree),
    (Mistake::BatchEightBeforeTwelve, 12, 8, TwelveAndEight),
    (Mistake::BatchSevenBeforeThree, 3, 7, ThreeAndSeven),
    (Mistake::BatchNineBeforeThree, 3, 9, ThreeAndNine),
    (Mistake::BatchEightBeforeThree, 3, 8, ThreeAndEight),
    (Mistake::BatchSevenBeforeEight, 8, 7, EightAndSeven),
    (Mistake::BatchNineBeforeEight, 8, 9, EightAndNine),
    (Mistake::BatchNineBeforeSeven, 7, 9, SevenAndNine),
];

/// Can this call be refused so, in this format? An index whose word 0 is no kind is counted with EWAH.
fn possible(place: Place, call: Call, format: Format) -> bool {
    if call.of_batches() {
        return format == Ewah && possible_in_batches(place, call);
    }
    let body = call.of_body() || call.of_index();
    match place {
        Answered => true,
        WordZero => call.of_index() && format == Ewah,
        ShortHead | ShortContents | TooLong | Bitmaps => call.of_index(),
        Start | Length | FinalEnd => call.of_index(),
        Rows => true,
        PastBody => body && format == Ewah,
        NoSegments | LiteralPast => body && format == Wah,
        PastSegments | Missing | PadInDirty => body,
        PadInPlain | PlainFew | PlainMany => call == Call::Compress,
        BadNumber => call.of_index() && !call.of_list() && !call.of_column() && !call.of_whole(),
        BadSecond => call.of_two(),
        BadRow => call.of_value() || matches!(call, Call::BodyRow | Call::Row),
        BadNth => matches!(call, Call::BodyNth | Call::Nth),
        ListEmpty | ListLong | ListNumber => call.of_list(),
        ThresholdZero | ThresholdHigh => call == Call::Threshold,
        TableShort | TableLong | TableEntry => call == Call::Symmetric,
        ColumnShort | ColumnLong | ColumnNumber | BadAndStray | StrayFirst => call.of_column(),
        SecondShort | SecondLong | SecondNumber | StraySecond => call.of_two_columns(),
        StrayNoRoom => call.of_column() && call.writes(),
        NoSuchRow => call.of_value(),
        HighRank => call.of_ranks(),
        Several => call.of_two() || call.of_column() || matches!(call, Call::Row | Call::Threshold | Call::Symmetric),
        NoRoom => call.writes(),
        _ => false,
    }
}

fn possible_in_batches(place: Place, call: Call) -> bool {
    match place {
        Answered => true,
        Rows | PadInPlain | PlainFew | PlainMany | NoRoom => call == Call::Append,
        _ => call == Call::Append && place as usize >= OtherLength as usize,
    }
}

// ---- finding the place ----

/// The place of this result. `words` are those the question was asked of.
pub fn place_of(words: &[u32], question: &Question, refused: Option<Refused>) -> Place {
    let Some((number, bitmap, word)) = refused else {
        return Answered;
    };
    let word = word as usize;
    if question.call == Call::Append {
        return refused_batch(words, question, number);
    }
    match number {
        Refusal::TOO_SHORT if word < HEAD_WORDS => ShortHead,
        Refusal::TOO_SHORT => ShortContents,
        Refusal::NOT_AN_INDEX => WordZero,
        Refusal::TOO_LARGE if !question.call.of_index() || word == 1 => Rows,
        Refusal::TOO_LARGE if word == 0 => TooLong,
        Refusal::TOO_LARGE => Bitmaps,
        Refusal::BAD_CONTENTS if word >= entry_place(words[2] as usize) => FinalEnd,
        Refusal::BAD_CONTENTS if (word - HEAD_WORDS).is_multiple_of(ENTRY_WORDS) => Start,
        Refusal::BAD_CONTENTS => Length,
        Refusal::DIRTY_PAST_END => PastBody,
        Refusal::BAD_COUNT if word == body_end(words, question, bitmap as usize) => Missing,
        Refusal::BAD_COUNT if is_literal(words, question, word) => LiteralPast,
        Refusal::BAD_COUNT => PastSegments,
        Refusal::PAD_BIT if question.call == Call::Compress => PadInPlain,
        Refusal::PAD_BIT => PadInDirty,
        Refusal::BAD_ARGUMENT if question.call.of_column() => bad_column(words, question),
        Refusal::BAD_ARGUMENT => bad_argument(words, question),
        Refusal::NO_SEGMENTS => NoSegments,
        Refusal::STRAY_ROW => stray(words, question, bitmap, word),
        _ => NoRoom,
    }
}

/// The format that a question is about.
pub fn asked_format(words: &[u32], question: &Question) -> Format {
    match question.call.of_index() {
        true => format_of(words),
        false => question.format,
    }
}

fn is_literal(words: &[u32], question: &Question, place: usize) -> bool {
    asked_format(words, question) == Wah && words[place] >> WAH_FILL_SHIFT == 0
}

/// The place behind a body, that of a bitmap or a lone one.
fn body_end(words: &[u32], question: &Question, bitmap: usize) -> usize {
    if !question.call.of_index() {
        return words.len();
    }
    let entry = entry_place(bitmap);
    words[entry] as usize + words[entry + 1] as usize
}

/// The one thing that is wrong with the arguments, or `Several`.
fn bad_argument(words: &[u32], question: &Question) -> Place {
    let mut faults = match question.call.of_index() {
        true => bad_numbers(words, question),
        false => Vec::new(),
    };
    faults.extend(bad_others(words, question));
    match faults[..] {
        [one] => one,
        _ => Several,
    }
}

/// Those of these places whose condition holds.
fn holding<const N: usize>(all: [(bool, Place); N]) -> Vec<Place> {
    let bad = all.into_iter().filter(|(bad, _)| *bad);
    bad.map(|(_, place)| place).collect()
}

/// What is wrong with the bitmap numbers and the row asked of an index.
fn bad_numbers(words: &[u32], question: &Question) -> Vec<Place> {
    let (call, list, n) = (question.call, &question.list, words[2]);
    let bad = |at: usize| list.get(at).is_some_and(|&k| k >= n);
    holding([
        (!call.of_list() && bad(0), BadNumber),
        (call.of_two() && bad(1), BadSecond),
        (call == Call::Row && question.number >= words[1], BadRow),
        (call == Call::Nth && !bad(0), BadNth),
        (call.of_list() && list.is_empty(), ListEmpty),
        (call.of_list() && list.len() > MOST_NAMED, ListLong),
        (call.of_list() && list.iter().any(|&k| k >= n), ListNumber),
    ])
}

/// What is wrong with other arguments.
fn bad_others(words: &[u32], question: &Question) -> Vec<Place> {
    let (call, table) = (question.call, &question.table);
    let (length, t) = (question.list.len(), question.number as usize);
    let segments = segments(question.rows);
    // No T fits an empty list, so there it is the list that counts.
    let threshold = call == Call::Threshold && length > 0;
    let symmetric = call == Call::Symmetric;
    let compress = call == Call::Compress;
    holding([
        (call == Call::BodyRow, BadRow),
        (call == Call::BodyNth, BadNth),
        (compress && words.len() < segments, PlainFew),
        (compress && words.len() > segments, PlainMany),
        (threshold && t == 0, ThresholdZero),
        (threshold && t > length, ThresholdHigh),
        (symmetric && table.len() < length + 1, TableShort),
        (symmetric && table.len() > length + 1, TableLong),
        (symmetric && table.iter().any(|&e| e > 1), TableEntry),
    ])
}

// ---- batches ----

/// A state that isn't of its buffer.
const STATE_MISMATCH: u32 = 12;

/// Refused with two numbers due, or with this one alone.
fn refused_batch(words: &[u32], question: &Question, number: u32) -> Place {
    if number == STATE_MISMATCH && broken_state(question) == HighRows {
        // 3 holds too, always.
        return HighRows;
    }
    let both = BOTH.iter().find(|&&(mistake, due, other, _)| {
        due == number && with_mistake(mistake, || batch_number(words, question)) == Some(other)
    });
    if let Some(&(_, _, _, place)) = both {
        return place;
    }
    match number {
        Refusal::TOO_LARGE => Rows,
        Refusal::BAD_ARGUMENT if words.len() < segments(question.rows) => PlainFew,
        Refusal::BAD_ARGUMENT => PlainMany,
        Refusal::PAD_BIT => PadInPlain,
        Refusal::NO_ROOM => NoRoom,
        _ => broken_state(question),
    }
}

/// The number that the reference refuses a batch with.
fn batch_number(words: &[u32], question: &Question) -> Option<u32> {
    let (mut state, mut buffer) = (question.state, question.before.clone());
    append(words, question.rows, &mut state, &mut buffer).err().map(|refusal| refusal.number)
}

/// What is wrong with a state that is refused with 12.
fn broken_state(question: &Question) -> Place {
    let (state, buffer) = (question.state, &question.before);
    let faults = holding([
        (state.room != buffer.len() as u64, OtherLength),
        (state.rows > MOST_ROWS.into(), HighRows),
        (state.words > buffer.len() as u64, HighWords),
    ]);
    match faults[..] {
        [] => broken_body(state.rows as u32, &buffer[..state.words as usize]),
        [one] => one,
        _ => SeveralBroken,
    }
}

fn broken_body(rows: u32, body: &[u32]) -> Place {
    match (rows, body.len()) {
        (0, _) => LoneWords,
        (_, 0) => LoneRows,
        _ if reference::check_body(body, rows, reference::Format::Ewah).is_err() => Unsound,
        _ => Unsettled,
    }
}

// ---- columns ----

/// Would this list be refused for a stray row, asked of a row that exists?
fn has_stray(words: &[u32], list: &[u32]) -> bool {
    let row = list.first().and_then(|&exists| reference::nth(words, exists, 0).ok());
    let refused = row.and_then(|row| reference::value(words, list, row).err());
    refused.is_some_and(|refusal| refusal.number == Refusal::STRAY_ROW)
}

/// Like `bad_argument`, but a stray besides has a place of its own.
fn bad_column(words: &[u32], question: &Question) -> Place {
    let (call, list, second) = (question.call, &question.list, &question.second);
    if has_stray(words, list) || has_stray(words, second) {
        return BadAndStray;
    }
    let unknown = |list: &[u32]| list.iter().any(|&k| k >= words[2]);
    let two = call.of_two_columns();
    let most = if call.of_value() { MOST_VALUED } else { MOST_SUMMED };
    let faults = holding([
        (list.len() < LEAST_COLUMN, ColumnShort),
        (list.len() > most, ColumnLong),
        (unknown(list), ColumnNumber),
        (two && second.len() < LEAST_COLUMN, SecondShort),
        (two && second.len() > most, SecondLong),
        (unknown(second), SecondNumber),
        (call.of_value() && question.number >= words[1], BadRow),
    ]);
    match faults[..] {
        [] if call.of_ranks() => HighRank,
        [] => NoSuchRow,
        [one] => one,
        _ => Several,
    }
}

/// Whose stray it is. Where the buffer can't even take the contents, or a word, 9 holds as well.
fn stray(words: &[u32], question: &Question, bitmap: u32, row: usize) -> Place {
    let (list, second) = (&question.list, &question.second);
    let more = usize::from(matches!(question.call, Call::Sum | Call::SignedDifference));
    let bitmaps = list.len().max(second.len()) + more;
    let least = if question.call.of_ranks() { 1 } else { entry_place(bitmaps) };
    if question.call.writes() && question.room < least {
        return StrayNoRoom;
    }
    let first = list[1..].contains(&bitmap) && reference::row(words, list[0], row as u32).is_ok_and(|row| !row.set);
    match first {
        true => StrayFirst,
        false => StraySecond,
    }
}

// ---- counting ----

/// Comparisons by place, call and format.
pub struct Reached([[[u64; FORMATS.len()]; Call::ALL.len()]; ALL.len()]);

impl Reached {
    pub fn new() -> Reached {
        Reached([[[0; FORMATS.len()]; Call::ALL.len()]; ALL.len()])
    }

    pub fn add(&mut self, place: Place, call: Call, format: Format) {
        self.0[place as usize][call as usize][format as usize] += 1;
    }

    pub fn add_all(&mut self, other: &Reached) {
        let own = self.0.as_flattened_mut().as_flattened_mut();
        own.iter_mut().zip(other.0.as_flattened().as_flattened()).for_each(|(own, other)| *own += other);
    }

    fn count(&self, place: Place, call: Call, format: Format) -> u64 {
        self.0[place as usize][call as usize][format as usize]
    }

    /// Prints the table; true if every place was reached by every call that can, in each format.
    pub fn print(&self) -> bool {
        println!("{:32} {:>11} {:>11}  calls", "refusal", "EWAH", "WAH");
        let mut missed = Vec::new();
        for (place, name) in ALL {
            let [ewah, wah] = FORMATS.map(|f| Call::ALL.map(|call| self.count(place, call, f)).iter().sum::<u64>());
            let (mut can, mut did) = (0, 0);
            for (call, format) in Call::ALL.into_iter().flat_map(|call| FORMATS.map(|format| (call, format))) {
                let (possible, count) = (possible(place, call, format), self.count(place, call, format));
                can += u32::from(possible);
                did += u32::from(possible && count > 0);
                if possible && count == 0 {
                    missed.push(format!("{name}: never by {call:?} in {format:?}"));
                }
            }
            println!("{name:32} {ewah:>11} {wah:>11}  {did} of {can}");
        }
        for call in Call::ALL.into_iter().filter(|call| call.writes()) {
            let [ewah, wah] = FORMATS.map(|format| self.count(NoRoom, call, format));
            println!("{:32} {ewah:>11} {wah:>11}", format!("9 by {call:?}"));
        }
        for line in &missed {
            println!("NOT REACHED  {line}");
        }
        missed.is_empty()
    }
}
