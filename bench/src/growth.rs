//! How the times grow with rows, bitmaps and words.

use crate::calls::Call;
use crate::inputs::Kind;

/// One measured time of the library.
pub struct Figure {
    pub call: Call,
    pub kind: Kind,
    pub rows: u32,
    pub bitmaps: usize,
    pub words: usize,
    pub stretches: u32,
    pub seconds: f64,
}

const SHOWN: [Call; 4] = [Call::Check, Call::Threshold, Call::Symmetric, Call::Histogram];

/// A few lines for the calls that read every body.
pub fn growth(figures: &[Figure]) {
    println!("\ngrowth of the library's times (words of the bodies; figures in the order above)");
    for call in SHOWN {
        for kind in Kind::ALL {
            let own: Vec<&Figure> = figures.iter().filter(|f| f.call == call && f.kind == kind).collect();
            if !own.is_empty() {
                print_growth(&own);
            }
        }
    }
}

fn print_growth(own: &[&Figure]) {
    let mut text = format!("  {:10} {:6}", own[0].call.name(), own[0].kind.name());
    let (first, last) = (own[0], own[own.len() - 1]);
    // Most rows, fewest against most bitmaps.
    let fewest = own.iter().find(|f| f.rows == last.rows);
    if let Some(few) = fewest.filter(|f| f.bitmaps != last.bitmaps) {
        text += &format!(
            " {} to {} bitmaps (words x {:.1}): time x {:.1};",
            few.bitmaps,
            last.bitmaps,
            last.words as f64 / few.words as f64,
            last.seconds / few.seconds
        );
    }
    // Most bitmaps, fewest against most rows.
    let shortest = own.iter().find(|f| f.bitmaps == last.bitmaps);
    if let Some(short) = shortest.filter(|_| first.rows != last.rows) {
        text += &format!(
            " rows x {:.0} (words x {:.1}): time x {:.1};",
            f64::from(last.rows) / f64::from(short.rows),
            last.words as f64 / short.words as f64,
            last.seconds / short.seconds
        );
    }
    println!("{}", text.trim_end());
    let list = |by: fn(&Figure) -> f64| {
        let each = own.iter().map(|f| format!("{:.2}", f.seconds * 1e9 / by(f)));
        each.collect::<Vec<String>>().join(" ")
    };
    println!("    ns per word {}", list(|f| f.words as f64));
    if first.call != Call::Check {
        let steps = list(|f| f64::from(f.stretches) * f.bitmaps as f64);
        println!("    ns per stretch and bitmap {steps}");
    }
}
