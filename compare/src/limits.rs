//! What is shown once at the limits, with the times of both: bodies of the most rows, lists of the most numbers over
//! them, and answers that are indexes as long as an index may be, and longer.

use zvonurel::{segments, Format, MOST_CLEAN, MOST_COLUMN, MOST_NAMED, MOST_ROWS, WORD_BITS};

use crate::ask::{timed_library, timed_reference, Refused, Value};
use crate::batches::{rows_of, Writer};
use crate::encode::{index_in, one_run, settled, FORMATS};
use crate::question::{Call, Question};
use crate::too_long::{self, Long};

/// What was asked, and whether all was alike.
struct Limits {
    asked: usize,
    alike: bool,
}

pub fn run() -> bool {
    let mut limits = Limits { asked: 0, alike: true };
    println!("{:34} {:>12} {:>12}", "", "library", "reference");
    for format in FORMATS {
        let bodies = Bodies::of(format);
        bodies.alone(&mut limits);
        bodies.in_batches(&mut limits);
        bodies.in_an_index(&mut limits);
    }
    for format in FORMATS {
        limits.long(&too_long::sum(format));
    }
    // In EWAH it is a fixed case.
    limits.long(&too_long::difference(Format::Wah));
    limits.long(&too_long::to_ewah());
    for fits in [false, true] {
        limits.long(&too_long::many_to_wah(fits));
        limits.long(&too_long::two_to_wah(fits));
    }
    println!("{} comparisons, {}; {}", limits.asked, if limits.alike { "no difference" } else { "NOT ALIKE" }, peak());
    limits.alike
}

/// The most memory that was in use.
fn peak() -> String {
    let status = std::fs::read_to_string("/proc/self/status").unwrap_or_default();
    let line = status.lines().find_map(|line| line.strip_prefix("VmHWM:"));
    format!("peak memory {}", line.unwrap_or(" unknown").trim())
}

impl Limits {
    /// Asks both and prints the seconds. The result is the library's.
    fn ask(&mut self, name: &str, words: &[u32], question: Question) -> Result<Value, Refused> {
        let (library, own) = timed_library(words, &question);
        let (reference, other) = timed_reference(words, &question, None);
        self.asked += 1;
        println!("{name:34} {own:>10.6} s {other:>10.3} s");
        if library != reference {
            self.alike = false;
            println!("DIFFERENCE  {}", question.text());
            println!("library    {:?}", library.result);
            println!("reference  {:?}", reference.result);
        }
        library.result
    }

    /// A fact that was worked out by other means.
    fn holds(&mut self, what: &str, fact: bool) {
        if !fact {
            self.alike = false;
            println!("DOES NOT HOLD  {what}");
        }
    }

    fn long(&mut self, long: &Long) {
        println!("\n{}, {} words, from an index of {}", long.name, long.need, long.index.len());
        for room in long.rooms() {
            let told = self.ask(&format!("  buffer of {room}"), &long.index, long.question.clone().room(room));
            self.holds("what is due", told == long.due(room));
        }
    }

    /// The first rows of columns of two slices and of the most, in an index of four bitmaps of which the second has all
    /// rows.
    fn ranks(&mut self, index: &[u32]) {
        let longest: Vec<u32> = [1].into_iter().chain([0, 3, 2].into_iter().cycle()).take(MOST_COLUMN).collect();
        for list in [&[1, 3, 2][..], &longest] {
            for k in [0, 1, MOST_ROWS / 2, MOST_ROWS - 1, MOST_ROWS, MOST_ROWS + 1] {
                for question in Question::ranks(list, k) {
                    let name = format!("  {:?} {k}, {} slices", question.call, list.len() - 1);
                    self.ask(&name, index, question.room(4 * index.len())).ok();
                }
            }
        }
    }
}

/// Bodies of the most rows.
struct Bodies {
    format: Format,
    /// What each is, and its plain words.
    all: Vec<(&'static str, Vec<u32>, Vec<u32>)>,
}

/// Runs of ones and of zeros in turns, of as many segments as a marker counts and of one more.
fn in_turns(format: Format) -> Vec<u32> {
    let (mut body, mut value, mut left) = (Vec::new(), true, format.segments(MOST_ROWS));
    for length in [MOST_CLEAN, MOST_CLEAN + 1].into_iter().cycle() {
        let length = length.min(left);
        body.extend(one_run(format, value, length));
        left -= length;
        value = !value;
        if left == 0 {
            break;
        }
    }
    body
}

impl Bodies {
    /// No row, all, one in the middle, and runs.
    fn of(format: Format) -> Bodies {
        let count = segments(MOST_ROWS);
        let middle = (MOST_ROWS / 2) as usize;
        let mut one = vec![0; count];
        one[middle / WORD_BITS] = 1 << (middle % WORD_BITS);
        let runs = in_turns(format);
        let mut plain = vec![0; count];
        let expand = match format {
            Format::Ewah => zvonurel::expand,
            Format::Wah => zvonurel::wah::expand,
        };
        expand(&runs, MOST_ROWS, &mut plain).expect("a sound body");
        let whole = |value| one_run(format, value, format.segments(MOST_ROWS));
        let all = vec![
            ("no row", whole(false), vec![0; count]),
            ("all rows", whole(true), vec![u32::MAX; count]),
            ("one row", settled(&one, MOST_ROWS, format), one),
            ("runs", runs, plain),
        ];
        Bodies { format, all }
    }

    /// Each by itself.
    fn alone(&self, limits: &mut Limits) {
        for (name, body, plain) in &self.all {
            println!("\n{:?}, {MOST_ROWS} rows, {name}: {} words", self.format, body.len());
            let of = |call: Call| Question::lone(call, self.format, MOST_ROWS);
            let set = plain.iter().map(|word| word.count_ones()).sum::<u32>();
            let last = (0..).zip(plain).filter(|(_, word)| **word != 0).last();
            let last = last.map_or(MOST_ROWS - 1, |(at, word): (u32, &u32)| at * WORD_BITS as u32 + word.ilog2());
            limits.ask("  check", body, of(Call::CheckBody)).ok();
            let count = limits.ask("  count", body, of(Call::BodyCount));
            limits.holds("the count", count == Ok(Value::Number(set)));
            limits.ask("  nth, the last set row", body, of(Call::BodyNth).number(set.wrapping_sub(1))).ok();
            limits.ask("  row, the same", body, of(Call::BodyRow).number(last)).ok();
            limits.ask("  expand", body, of(Call::Expand).room(plain.len())).ok();
            let compressed = limits.ask("  compress", plain, of(Call::Compress).room(body.len()));
            limits.holds("that it is the canonical form", compressed == Ok(Value::Words(body.len())));
            for (name, call) in [("  to EWAH", Call::BodyToEwah), ("  to WAH", Call::BodyToWah)] {
                limits.ask(name, body, of(call).room(4 * body.len() + 9_999)).ok();
            }
        }
    }

    /// All rows but those of a day in one batch, and then the day, and a row more. Only EWAH is written so.
    fn in_batches(&self, limits: &mut Limits) {
        const DAY: u32 = 48;
        const FIRST: u32 = MOST_ROWS - DAY;
        for (name, body, plain) in self.all.iter().filter(|_| self.format == Format::Ewah) {
            println!("\n{MOST_ROWS} rows in batches, {name}");
            let (first, day) = (rows_of(plain, 0, FIRST), rows_of(plain, FIRST as usize, DAY));
            let writer = Writer::with(0, &[], body.len() + 9);
            let question = |writer: &Writer, rows| Question::append(writer.state, &writer.buffer, rows);
            limits.ask("  all but a day", &first, question(&writer, FIRST)).ok();
            let writer = Writer::with(FIRST, &settled(&first, FIRST, Format::Ewah), 9);
            let told = limits.ask("  the day", &day, question(&writer, DAY));
            limits.holds("that all are written", told == Ok(Value::Words(body.len())));
            limits.ask("  a row too many", &rows_of(&day, 0, DAY + 1), question(&writer, DAY + 1)).ok();
        }
    }

    /// All four in an index: lists of three numbers and of the most, and the index rewritten.
    fn in_an_index(&self, limits: &mut Limits) {
        let bodies: Vec<&[u32]> = self.all.iter().map(|(_, body, _)| &body[..]).collect();
        let index = index_in(self.format, MOST_ROWS, &bodies);
        println!("\n{:?}, an index of these: {} words", self.format, index.len());
        limits.ask("  check", &index, Question::new(Call::Check)).ok();
        let most: Vec<u32> = (0..MOST_NAMED as u32).map(|at| at % bodies.len() as u32).collect();
        for list in [&[1, 2, 3][..], &most] {
            let of = |call: Call| Question::new(call).list(list).room(2 * index.len());
            let length = list.len() as u32;
            for t in [1, length / 2 + 1, length] {
                let name = format!("  threshold {t} of {length}");
                limits.ask(&name, &index, of(Call::Threshold).number(t)).ok();
            }
            let table: Vec<u32> = (0..=length).map(|c| u32::from(c % 3 == 0)).collect();
            limits.ask(&format!("  symmetric of {length}"), &index, of(Call::Symmetric).table(&table)).ok();
            limits.ask(&format!("  histogram of {length}"), &index, of(Call::Histogram)).ok();
        }
        for call in Call::PAIRINGS {
            let columns = Question::pair(call, &[1, 3, 2], &[1, 1]).room(4 * index.len());
            limits.ask(&format!("  {call:?}"), &index, columns).ok();
        }
        limits.ranks(&index);
        for (name, call) in [("  to EWAH", Call::IndexToEwah), ("  to WAH", Call::IndexToWah)] {
            limits.ask(name, &index, Question::new(call).room(4 * index.len() + 9_999)).ok();
        }
    }
}
