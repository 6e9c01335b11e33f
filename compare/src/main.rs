//! Compares the library with the reference on made-up inputs.

mod ask;
mod batch_cases;
mod batches;
mod cases;
mod changes;
mod choose;
mod choose_batches;
mod choose_columns;
mod choose_ranks;
mod columns;
mod corners;
mod counting;
mod draft;
mod encode;
mod fixed;
mod generate;
mod library;
mod limits;
mod lists;
mod mutate;
mod parallel;
mod pieces;
mod places;
mod program;
mod question;
mod random;
mod ranks;
mod readings;
mod samples;
mod second;
mod session;
mod shrink;
mod tail;
mod tails;
mod tear;
mod too_long;
mod walk;
mod writes;

use std::process::ExitCode;

use crate::session::Difference;

const HELP: &str = "\
compare SEED CASES [--mutate] [--long] [--only CASE] [--program PATH]
compare --limits

Makes CASES indexes and bodies, in EWAH or in WAH, and indexes of columns beside
some of them, always the same for one SEED, asks every question of the library
and of the reference, and compares the results and the whole buffers. Bodies are
also walked from piece to piece, by the answers on their rows, what was made of
two columns is held against their values, and a column's largest and smallest
rows against the values of the others. Each case has rows in batches too: the
writer's states are compared, states that aren't its own are tried, and what
comes of the batches is held against all rows written at once. Then come the
readings (examples with known answers) and a few fixed cases, and a table of the
refusals that were reached in each format. All cores are used. Exit code 1: a
difference, or a refusal never reached.

--mutate     builds one mistake after another into the reference; each has to
             show as a difference within CASES cases, or in the fixed ones; for
             mistakes about batches, only these are asked
--long       indexes with the most bitmaps and some ten thousand rows (some
             seconds each)
--only CASE  this one case alone, without the fixed ones and the table
--program PATH  gives the cases' indexes to the program at PATH, and compares
             what it writes with the reference; of the fixed inputs each write too:
             the head, or the line of a refusal, is one, and chunks are whole lines
--limits     instead of cases: bodies of the most rows, lists of the most numbers
             over them, and indexes as long as they may be and longer, with the
             seconds of both and the peak of memory (minutes, gigabytes)";

pub struct Options {
    seed: u64,
    cases: u64,
    first: u64,
    mutate: bool,
    long: bool,
    only: bool,
    program: Option<String>,
}

fn options() -> Option<Options> {
    let args: Vec<String> = std::env::args().skip(1).collect();
    let mut options = Options {
        seed: args.first()?.parse().ok()?,
        cases: args.get(1)?.parse().ok()?,
        first: 0,
        mutate: false,
        long: false,
        only: false,
        program: None,
    };
    let mut rest = args[2..].iter();
    while let Some(arg) = rest.next() {
        match arg.as_str() {
            "--mutate" => options.mutate = true,
            "--long" => options.long = true,
            "--program" => options.program = Some(rest.next()?.clone()),
            "--only" => {
                options.first = rest.next()?.parse().ok()?;
                options.cases = options.first + 1;
                options.only = true;
            }
            _ => return None,
        }
    }
    Some(options)
}

fn main() -> ExitCode {
    ask::tell_own_panics();
    let good = if std::env::args().skip(1).eq(["--limits"]) {
        limits::run()
    } else if let Some(options) = options() {
        match (&options.program, options.mutate) {
            (Some(path), _) => program::run(path, options.seed, options.cases),
            (None, true) => mutate::run(&options),
            (None, false) => cases::run(&options),
        }
    } else {
        println!("{HELP}");
        return ExitCode::from(2);
    };
    match good {
        true => ExitCode::SUCCESS,
        false => ExitCode::FAILURE,
    }
}

pub fn print_difference(difference: &Difference) {
    let (library, reference) = (&difference.library, &difference.reference);
    println!("call       {}", difference.question.text());
    println!("words      {}", hexadecimal(&difference.words));
    println!("library    {:?}", library.result);
    println!("reference  {:?}", reference.result);
    if library.state != reference.state {
        println!("the states differ");
        println!("library    {:?}", library.state);
        println!("reference  {:?}", reference.state);
    }
    let mut pairs = library.buffer.iter().zip(&reference.buffer);
    if let Some(at) = pairs.position(|(a, b)| a != b) {
        println!("the buffers differ from word {at} on");
        println!("library    {}", hexadecimal(&library.buffer[at..]));
        println!("reference  {}", hexadecimal(&reference.buffer[at..]));
    }
}

/// Words in hexadecimal, equal ones taken together, a long row cut short.
pub fn hexadecimal(words: &[u32]) -> String {
    let mut text = format!("({})", words.len());
    let runs = words.chunk_by(|a, b| a == b);
    for (shown, run) in runs.enumerate() {
        text += &match run.len() {
            _ if shown == 200 => return text + " ..",
            1 => format!(" {:x}", run[0]),
            length => format!(" {:x}*{length}", run[0]),
        };
    }
    text
}
