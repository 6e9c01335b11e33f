//! Runs the program on many inputs and compares its output, byte for byte, with the reference's, and of the fixed inputs
//! looks at each write.

use std::collections::BTreeMap;
use std::io::Write;
use std::process::{Command, Stdio};
use std::time::Instant;

use zvonurel::Format::{self, Ewah, Wah};
use zvonurel::{Refusal, MOST_BITMAPS, MOST_ROWS};

use crate::counting::mixed_words;
use crate::encode::{entry_place, fill, full, index_in, last_mask, marker, one_run};
use crate::generate::{generate, Form};
use crate::random::Random;
use crate::samples::{Samples, SAMPLES};
use crate::writes::{are_whole, writes};

/// The most bytes that the program reads.
const MOST_BYTES: usize = 65_536;

/// Far more bytes than these.
const FAR_BYTES: usize = 200_000;

/// The longest output of which each write is looked at.
const MOST_WATCHED: usize = 4_000_000;

const WORD_BYTES: usize = size_of::<u32>();

/// What the program writes for this input.
fn output(program: &str, input: &[u8]) -> Vec<u8> {
    let mut child =
        Command::new(program).stdin(Stdio::piped()).stdout(Stdio::piped()).spawn().expect("the program starts");
    let mut stdin = child.stdin.take().expect("it has an input");
    let bytes = input.to_vec();
    // Input that it leaves unread is no fault.
    let feeder = std::thread::spawn(move || stdin.write_all(&bytes).ok());
    let told = child.wait_with_output().expect("it ends");
    feeder.join().expect("the input was fed");
    // Answered or refused, it ends with 0.
    assert!(told.status.success(), "the program ended with {}", told.status);
    told.stdout
}

/// T and an index, lowest byte first.
fn question(t: u32, index: &[u32]) -> Vec<u8> {
    std::iter::once(&t).chain(index).flat_map(|word| word.to_le_bytes()).collect()
}

/// One bitmap with this body.
fn single(format: Format, rows: u32, body: &[u32]) -> Vec<u32> {
    index_in(format, rows, &[body])
}

/// Idle markers before a body, or fills of one segment, so that the whole input has so many bytes.
fn padded(format: Format, bytes: usize) -> Vec<u8> {
    let words = bytes / WORD_BYTES - 1 - entry_place(1);
    match format {
        Ewah => {
            let last = [marker(false, 0, 1), 0x5];
            question(1, &single(Ewah, 4, &[&vec![0; words - last.len()][..], &last].concat()))
        }
        Wah => {
            let fills = vec![fill(false, 1); words - 1];
            question(1, &single(Wah, (Wah.segment_rows() * words) as u32, &[&fills[..], &[0x5]].concat()))
        }
    }
}

/// As many rows as are listed: those of the longest bitmap would be gigabytes of text.
const LISTED_ROWS: u32 = 16_777_216;

/// All rows of a long bitmap.
fn all_rows(format: Format) -> Vec<u8> {
    question(1, &single(format, LISTED_ROWS, &one_run(format, true, format.segments(LISTED_ROWS))))
}

/// The longest bitmap there can be, with no row and with the last one alone; and a row more.
fn most_rows(format: Format) -> [Vec<u8>; 3] {
    let before = format.segments(MOST_ROWS) - 1;
    let last = 1 << ((MOST_ROWS - 1) as usize % format.segment_rows());
    let none = one_run(format, false, before + 1);
    let one = [one_run(format, false, before), dirty(format, &[last])].concat();
    let over = question(1, &single(format, MOST_ROWS + 1, &none));
    [question(1, &single(format, MOST_ROWS, &none)), question(1, &single(format, MOST_ROWS, &one)), over]
}

/// So many bitmaps, that all have row 3 of 5, and a threshold that just so many reach.
fn every_bitmap(format: Format, bitmaps: u32) -> Vec<u8> {
    question(bitmaps, &index_in(format, 5, &vec![dirty(format, &[0x8]); bitmaps as usize]))
}

/// Dirty words under one marker, or literals.
fn dirty(format: Format, words: &[u32]) -> Vec<u32> {
    match format {
        Ewah => [&[marker(false, 0, words.len())], words].concat(),
        Wah => words.iter().map(|word| word & full(Wah)).collect(),
    }
}

/// One bitmap of so many mixed segments: as many set rows as the program says before it lists them.
fn mixed(format: Format, segments: usize) -> Vec<u8> {
    let words = mixed_words(&mut Random::for_case(0, segments as u64), segments);
    question(1, &single(format, (format.segment_rows() * segments) as u32, &dirty(format, &words)))
}

/// All rows, as a run and with a dirty word at the end, and half of the last segment's: with every number of pads.
fn tails(format: Format) -> Vec<Vec<u8>> {
    let mut inputs = Vec::new();
    for rows in 1..=130 {
        let count = format.segments(rows);
        let last = last_mask(rows, format);
        let ending = |word| [one_run(format, true, count - 1), dirty(format, &[word])].concat();
        inputs.push(single(format, rows, &one_run(format, true, count)));
        inputs.push(single(format, rows, &one_run(format, true, count + 1)));
        for word in [last, last & 0x5555_5555, u32::MAX] {
            inputs.push(single(format, rows, &ending(word)));
        }
        inputs.push(index_in(format, rows, &[one_run(format, true, count), ending(last)]));
    }
    inputs.iter().flat_map(|index| [1, 2].map(|t| question(t, index))).collect()
}

/// LOOPED with every T, cut at every word, and each word changed.
fn looped(samples: &Samples) -> Vec<Vec<u8>> {
    let looped = samples.looped;
    let mut inputs: Vec<Vec<u8>> = (0..=4).map(|t| question(t, looped)).collect();
    for at in 0..looped.len() {
        for to in [0, 1, 2, 3, looped[at].wrapping_sub(1), looped[at] + 1, 0x1000_0000, 0x8000_0000, u32::MAX] {
            let mut words = looped.to_vec();
            words[at] = to;
            inputs.push(question(2, &words));
        }
    }
    inputs.extend((0..looped.len()).map(|n| question(2, &looped[..n])));
    inputs.extend(samples.bodies.iter().map(|body| question(1, &single(samples.format, 40, body))));
    inputs
}

/// Inputs that every run tries, of one format.
fn fixed_in(samples: &Samples) -> Vec<Vec<u8>> {
    let format = samples.format;
    let mut inputs = looped(samples);
    let kind = format.index_kind();
    inputs.extend([0, 1].map(|t| question(t, &[kind, 7, 0])));
    inputs.extend([&[][..], &[0]].map(|body| question(1, &single(format, 0, body))));
    inputs.extend([MOST_BYTES - WORD_BYTES, MOST_BYTES].map(|bytes| padded(format, bytes)));
    inputs.extend([MOST_BYTES - 1, MOST_BYTES - 2].map(|n| padded(format, MOST_BYTES)[..n].to_vec()));
    inputs.push(all_rows(format));
    inputs.extend(most_rows(format));
    inputs.extend([MOST_BITMAPS, MOST_BITMAPS + 1].map(|bitmaps| every_bitmap(format, bitmaps)));
    inputs.extend(tails(format));
    inputs.extend([63, 64, 65, 127, 128, 129, 511, 512, 513, 1_024, 16_000].map(|count| mixed(format, count)));
    inputs
}

/// Inputs that every run tries.
fn fixed() -> Vec<Vec<u8>> {
    let mut inputs: Vec<Vec<u8>> = (0..=5).map(|n| vec![1; n]).collect();
    inputs.extend([MOST_BYTES + 1, MOST_BYTES + WORD_BYTES, FAR_BYTES].map(|n| vec![0; n]));
    inputs.extend(SAMPLES.iter().flat_map(fixed_in));
    inputs
}

/// The first word of a refusal's line, or what an answer begins with.
fn kind(told: &[u8]) -> String {
    let line = told.split(|b| *b == b'\n').next().unwrap_or(&[]);
    let text = String::from_utf8_lossy(line).into_owned();
    match text.split(' ').collect::<Vec<_>>()[..] {
        ["refused", number, ..] => format!("refused {number}"),
        _ => "answered".to_string(),
    }
}

/// The indexes of a seed's cases, and the fixed inputs. Fails on a difference, or if a refusal from 1 to 8, or 10, was
/// not reached.
pub fn run(program: &str, seed: u64, cases: u64) -> bool {
    let begun = Instant::now();
    let mut inputs = fixed();
    let watched = inputs.len();
    for case in 0..cases {
        let mut random = Random::for_case(seed, case);
        let input = generate(&mut random, false);
        let t = random.between(0, input.bitmaps as usize + 1) as u32;
        if input.form == Form::Index {
            inputs.push(question(t, &input.words));
        }
    }
    let mut reached = BTreeMap::new();
    for (i, input) in inputs.iter().enumerate() {
        let (told, expected) = (output(program, input), reference::program(input));
        if told != expected {
            println!("DIFFERENCE  input {i} of {} bytes: {:?}", input.len(), &input[..input.len().min(200)]);
            println!("program    {:?}", String::from_utf8_lossy(&told[..told.len().min(200)]));
            println!("reference  {:?}", String::from_utf8_lossy(&expected[..expected.len().min(200)]));
            return false;
        }
        if i < watched && told.len() <= MOST_WATCHED {
            let parts = writes(program, input);
            if parts.concat() != told || !are_whole(&parts) {
                let lengths: Vec<usize> = parts.iter().map(Vec::len).collect();
                println!("DIFFERENCE  input {i} of {} bytes: it is written in parts of {lengths:?} bytes", input.len());
                return false;
            }
        }
        *reached.entry(kind(&told)).or_insert(0) += 1;
    }
    println!(
        "{} inputs of the program in {:.1} s, no difference: {reached:?}",
        inputs.len(),
        begun.elapsed().as_secs_f64()
    );
    (Refusal::TOO_SHORT..=Refusal::BAD_ARGUMENT)
        .chain([Refusal::NO_SEGMENTS])
        .all(|number| reached.contains_key(&format!("refused {number}")))
        && reached.contains_key("answered")
}
