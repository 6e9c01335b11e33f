//! The cases of a seed and the fixed ones, on all cores.

use std::ops::Range;
use std::sync::atomic::{AtomicBool, Ordering::Relaxed};
use std::time::Instant;

use crate::choose::ask_all;
use crate::choose_batches::ask_batches;
use crate::choose_columns::ask_columns;
use crate::generate::generate;
use crate::parallel::in_order;
use crate::random::Random;
use crate::session::Session;
use crate::shrink::shrink;
use crate::{columns, fixed, print_difference, readings, Options};

/// One case in so many has an index of columns too.
const COLUMNS_IN: usize = 2;

/// Sets a writer's numbers apart from the other ones of its case.
const BATCHES: u64 = 1 << 63;

/// Asks all of one case.
pub fn run_case(session: &mut Session, options: &Options, case: u64) {
    let mut random = Random::for_case(options.seed, case);
    let input = generate(&mut random, options.long);
    ask_all(session, &input, &mut random);
    if random.one_in(COLUMNS_IN) {
        let columns = columns::generate(&mut random, options.long);
        ask_columns(session, &columns, &mut random);
    }
    run_batches(session, options, case);
}

/// Asks what the writer of one case is asked.
pub fn run_batches(session: &mut Session, options: &Options, case: u64) {
    ask_batches(session, &mut Random::for_case(options.seed ^ BATCHES, case));
}

/// A part of the fixed cases, or cases by their numbers.
pub enum Job {
    Fixed(fn(&mut Session)),
    Cases(Range<u64>),
}

impl Job {
    /// Asks all of it, up to a difference; then the name of the case with that one.
    pub fn run(&self, session: &mut Session, run_case: impl Fn(&mut Session, u64)) -> Option<String> {
        match self {
            Job::Fixed(part) => {
                part(session);
                session.difference.as_ref().map(|_| "fixed".to_string())
            }
            Job::Cases(cases) => {
                let differs = |&case: &u64| {
                    run_case(session, case);
                    session.difference.is_some()
                };
                cases.clone().find(differs).map(|case| case.to_string())
            }
        }
    }
}

/// So many cases are one job.
const IN_A_JOB: u64 = 20;

/// Fixed cases first, of these the longest.
fn jobs(options: &Options) -> Vec<Job> {
    let parts = if options.only { &[][..] } else { &fixed::PARTS };
    let firsts = (options.first..options.cases).step_by(IN_A_JOB as usize);
    let cases = firsts.map(|first| Job::Cases(first..options.cases.min(first + IN_A_JOB)));
    parts.iter().rev().map(|&part| Job::Fixed(part)).chain(cases).collect()
}

/// Asks all, and tells the first case with a difference, and a fixed one only if there is none.
pub fn run(options: &Options) -> bool {
    let begun = Instant::now();
    let jobs = jobs(options);
    let found = AtomicBool::new(false);
    let job = |at: usize| {
        let mut session = Session::new(None);
        // The cases before one with a difference were begun before it.
        if found.load(Relaxed) {
            return (session, None);
        }
        let case = jobs[at].run(&mut session, |session, case| run_case(session, options, case));
        found.fetch_or(case.is_some() && matches!(jobs[at], Job::Cases(_)), Relaxed);
        (session, case)
    };
    let (mut all, mut differences) = (Session::new(None), Vec::new());
    in_order(jobs.len(), job, |(session, case)| {
        all.add(&session);
        differences.extend(case.zip(session.difference));
    });
    differences.sort_by_key(|(case, _)| case == "fixed");
    if let Some((case, difference)) = differences.into_iter().next() {
        println!("DIFFERENCE  seed {}, case {case}", options.seed);
        print_difference(&shrink(difference, None));
        return false;
    }
    println!(
        "seed {}, {} cases{} in {:.1} s: {} comparisons, no difference",
        options.seed,
        options.cases - options.first,
        if options.only { "" } else { " and the fixed ones" },
        begun.elapsed().as_secs_f64(),
        all.comparisons
    );
    options.only || readings::run() & all.reached.print()
}
