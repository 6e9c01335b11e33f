//! Questions on WAH beside the same on EWAH, and rewriting from one to the other.

use std::hint::black_box;

use zvonurel::{Format, Refusal};

use crate::baseline::Plain;
use crate::calls::{self, baselines, plain_answer};
use crate::inputs::{self, Data, Kind, TANKS};
use crate::rows;
use crate::timing::best_seconds;

/// The rows that are asked, and those that are rewritten.
const ROWS: u32 = 1_000_000;
const REWRITTEN: u32 = 16_777_216;

#[derive(Debug, Clone, Copy, PartialEq, Eq)]
enum Call {
    Threshold,
    Check,
    Count,
    BodyCount,
    Expand,
    Compress,
    ToWah,
    ToEwah,
}

const CALLS: [(Call, &str); 8] = [
    (Call::Threshold, "wah_threshold"),
    (Call::Check, "wah_check"),
    (Call::Count, "wah_count"),
    (Call::BodyCount, "wah_body_count"),
    (Call::Expand, "wah_expand"),
    (Call::Compress, "wah_compress"),
    (Call::ToWah, "to_wah"),
    (Call::ToEwah, "to_ewah"),
];

/// The questions that are asked of both formats.
const PAIRS: [(Call, calls::Call); 6] = [
    (Call::Threshold, calls::Call::Threshold),
    (Call::Check, calls::Call::Check),
    (Call::Count, calls::Call::Count),
    (Call::BodyCount, calls::Call::BodyCount),
    (Call::Expand, calls::Call::Expand),
    (Call::Compress, calls::Call::Compress),
];

impl Call {
    fn name(self) -> &'static str {
        CALLS[self as usize].1
    }

    fn named(name: &str) -> Option<Call> {
        CALLS.iter().find(|(_, its)| *its == name).map(|(call, _)| *call)
    }
}

/// The same bitmaps in both formats.
struct Both {
    /// In EWAH, and as plain words.
    ewah: Data,
    /// The index in WAH.
    wah: Vec<u32>,
}

impl Both {
    fn new(kind: Kind, rows: u32, bitmaps: usize) -> Both {
        Both::of(Data::new(kind, rows, bitmaps))
    }

    fn of(ewah: Data) -> Both {
        let wah = rows::index_in(Format::Wah, &ewah);
        Both { ewah, wah }
    }

    /// Room for any answer of these rows.
    fn buffer(&self) -> Vec<u32> {
        let most = [Format::Ewah, Format::Wah].map(|format| format.most_body_words(self.ewah.rows));
        vec![0; most[0].max(most[1])]
    }

    /// The words of all bodies in WAH.
    fn words(&self) -> usize {
        inputs::words(&self.wah, self.ewah.bitmaps)
    }

    /// How many stretches the bitmaps make together in WAH.
    fn stretches(&self) -> u32 {
        let answer = zvonurel::threshold(&self.wah, &self.ewah.list, self.ewah.t, &mut self.buffer());
        answer.expect("a sound question").stretches
    }
}

/// The library's call, once. Its own function, so that a profiler can find it.
#[inline(never)]
fn measured_call(call: Call, both: &Both, out: &mut [u32]) -> Result<u64, Refusal> {
    let Both { ewah, wah } = both;
    let (index, rows) = (black_box(&wah[..]), ewah.rows);
    Ok(match call {
        Call::Threshold => zvonurel::threshold(index, &ewah.list, ewah.t, out)?.words as u64,
        Call::Check => zvonurel::check(index).map(|()| 0)?,
        Call::Count => zvonurel::count(index, 0)?.into(),
        Call::BodyCount => zvonurel::wah::body_count(inputs::body(index, 0), rows)?.into(),
        Call::Expand => zvonurel::wah::expand(inputs::body(index, 0), rows, out)? as u64,
        Call::Compress => zvonurel::wah::compress(rows, black_box(ewah.plain(0)), out)? as u64,
        Call::ToWah => zvonurel::to_wah(black_box(ewah.body(0)), rows, out)? as u64,
        Call::ToEwah => zvonurel::wah::to_ewah(inputs::body(index, 0), rows, out)? as u64,
    })
}

/// One call and nothing else, for a profiler.
pub fn one(call: &str, kind: &str, rows: &str, bitmaps: &str, repeats: &str) -> Option<()> {
    let named = Call::named(call)?;
    let (kind, rows, bitmaps, repeats) = inputs::arguments([kind, rows, bitmaps, repeats], 1)?;
    let both = Both::of(Data::keeping(1, kind, rows, bitmaps));
    let mut out = both.buffer();
    for _ in 0..repeats {
        let result = measured_call(named, &both, black_box(&mut out));
        black_box(result).expect("a sound question");
    }
    let (ewah, wah) = (both.ewah.words(), both.words());
    println!("{call} {} rows {rows} bitmaps {bitmaps} words {wah}, in EWAH {ewah}: {repeats} times", kind.name());
    Some(())
}

/// All questions on all inputs, and then rewriting.
pub fn table() {
    println!("ns are per row; x is the other time / that of the call on WAH");
    for kind in Kind::ALL {
        let both = Both::new(kind, ROWS, TANKS);
        let Data { bitmaps, t, .. } = both.ewah;
        println!("\n{} input, {ROWS} rows, {bitmaps} bitmaps, T {t}", kind.name());
        println!("  EWAH {} words, {} stretches", both.ewah.words(), both.ewah.stretches());
        println!("  WAH {} words, {} stretches", both.words(), both.stretches());
        for (call, beside) in PAIRS {
            line(call, beside, &both);
        }
    }
    for kind in [Kind::Quiet, Kind::Dense] {
        rewriting(&Both::new(kind, REWRITTEN, 1));
    }
}

/// The best time of a call.
fn call_seconds(call: Call, both: &Both, out: &mut [u32]) -> f64 {
    best_seconds(|| {
        let result = measured_call(call, both, black_box(out));
        black_box(result).expect("a sound question");
    })
}

/// Times a call on WAH, the same on EWAH, and the first of its plain programs, and prints the line.
fn line(call: Call, beside: calls::Call, both: &Both) {
    let (data, mut out) = (&both.ewah, both.buffer());
    let expected = plain_answer(beside, data, &mut out);
    assert!(answer(call, both, &mut out) == expected, "{} disagrees with {}", call.name(), beside.name());
    let own = call_seconds(call, both, &mut out);
    let ewah = best_seconds(|| {
        let result = calls::measured_call(beside, data, black_box(&mut out));
        black_box(result).expect("a sound question");
    });
    let per_row = |seconds: f64| seconds * 1e9 / f64::from(data.rows);
    let other = |name: &str, seconds| format!(" | {name} {:.5} ns, x {:.2}", per_row(seconds), seconds / own);
    let mut text = format!("  {:14}{:12.2} us {:10.5} ns", call.name(), own * 1e6, per_row(own));
    text += &other(&format!("EWAH's {}", beside.name()), ewah);
    // what adds up an index adds up the one in EWAH
    if let Some((name, plain)) = baselines(beside).into_iter().next().filter(|_| call != Call::Check) {
        let mut words = Plain::new(data.segments());
        let seconds = best_seconds(|| plain(black_box(data), black_box(&mut words)));
        assert!(expected.is_none_or(|expected| expected == words), "{name} disagrees with {}", call.name());
        text += &other(name, seconds);
    }
    println!("{text}");
}

/// The answer of a call on WAH in plain words, as `plain_answer` has that of the call on EWAH.
fn answer(call: Call, both: &Both, out: &mut [u32]) -> Option<Plain> {
    let mut plain = Plain::new(both.ewah.segments());
    let result = measured_call(call, both, out).expect("a sound question");
    match call {
        Call::Threshold => {
            zvonurel::wah::expand(&out[..result as usize], both.ewah.rows, &mut plain.words).ok()?;
        }
        Call::Count | Call::BodyCount => plain.tally[0] = result as u32,
        Call::Expand => plain.words.copy_from_slice(&out[..both.ewah.segments()]),
        Call::Check | Call::Compress | Call::ToWah | Call::ToEwah => return None,
    }
    Some(plain)
}

/// The same words by two other calls: expanded by one, and compressed by the other.
fn two_calls(call: Call, both: &Both, plain: &mut [u32], out: &mut [u32]) -> Result<usize, Refusal> {
    let rows = both.ewah.rows;
    if call == Call::ToWah {
        zvonurel::expand(black_box(both.ewah.body(0)), rows, plain)?;
        zvonurel::wah::compress(rows, plain, out)
    } else {
        zvonurel::wah::expand(black_box(inputs::body(&both.wah, 0)), rows, plain)?;
        zvonurel::compress(rows, plain, out)
    }
}

/// Times bitmap 0 rewritten either way, in all, for each word that is written and for each plain word, beside expanding
/// and compressing it.
fn rewriting(both: &Both) {
    let (data, mut out) = (&both.ewah, both.buffer());
    let [ewah, wah] = [data.body(0), inputs::body(&both.wah, 0)];
    let (kind, segments) = (data.kind.name(), data.segments());
    println!("\nrewriting, {kind} body, {} rows, {segments} plain words", data.rows);
    println!("  EWAH {} words, WAH {} words", ewah.len(), wah.len());
    let mut plain = vec![0; segments];
    for (call, expected) in [(Call::ToWah, wah), (Call::ToEwah, ewah)] {
        let written = measured_call(call, both, &mut out).expect("a sound question") as usize;
        assert!(out[..written] == *expected, "{}: other words", call.name());
        let written = two_calls(call, both, &mut plain, &mut out).expect("a sound question");
        assert!(out[..written] == *expected, "{}: other words by two calls", call.name());
        let seconds = call_seconds(call, both, &mut out);
        let two = best_seconds(|| _ = black_box(two_calls(call, both, &mut plain, black_box(&mut out))));
        let ns = |words: usize| seconds * 1e9 / words as f64;
        println!(
            "  {:14}{:12.2} us {:10.4} ns a word written {:10.4} ns a plain word | expand, compress {:.2} us, x {:.2}",
            call.name(),
            seconds * 1e6,
            ns(written),
            ns(segments),
            two * 1e6,
            two / seconds
        );
    }
}
