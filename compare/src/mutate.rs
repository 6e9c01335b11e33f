//! Mistakes built into the reference, one after another, each of which has to show.

use reference::Mistake;

use crate::ask::Value;
use crate::cases::{run_batches, run_case, Job};
use crate::parallel::in_order;
use crate::session::Session;
use crate::{batch_cases, fixed, too_long, Options};

/// One line for each mistake, in order; true if all are noticed.
pub fn run(options: &Options) -> bool {
    let mut all = true;
    let mistake = |at: usize| noticed(Mistake::ALL[at], options);
    in_order(Mistake::ALL.len(), mistake, |(line, good)| {
        println!("{line}");
        all &= good;
    });
    all
}

/// What is told of a mistake, and whether it was noticed.
fn noticed(mistake: Mistake, options: &Options) -> (String, bool) {
    let mut session = Session::new(Some(mistake));
    let Some(case) = shown(&mut session, mistake, options) else {
        return (format!("NOT CAUGHT  {mistake:?} in {} cases", options.cases), false);
    };
    let difference = session.difference.expect("there is one");
    let (name, asked, call) = (format!("{mistake:?}"), session.comparisons, difference.question.call);
    let how = match difference.reference.result {
        Ok(Value::Panicked(_)) => ", by a panic",
        _ => "",
    };
    (format!("{name:24} case {case:>5}, comparison {asked:>7}, by {call:?}{how}"), true)
}

/// The first case that shows this mistake. What can't show it isn't asked.
fn shown(session: &mut Session, mistake: Mistake, options: &Options) -> Option<String> {
    let cases = Job::Cases(options.first..options.cases);
    let jobs = match too_long::showing(mistake) {
        Some(case) => vec![Job::Fixed(case)],
        None if mistake.of_append() => vec![cases, Job::Fixed(batch_cases::run)],
        None => [cases].into_iter().chain(fixed::PARTS.map(Job::Fixed)).collect(),
    };
    let run = |session: &mut Session, case| match mistake.of_append() {
        true => run_batches(session, options, case),
        false => run_case(session, options, case),
    };
    let asked = jobs.iter().filter(|job| !options.only || matches!(job, Job::Cases(_)));
    asked.into_iter().find_map(|job| job.run(session, run))
}
