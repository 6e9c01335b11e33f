//! Jobs on all cores.

use std::collections::BTreeMap;
use std::sync::atomic::{AtomicUsize, Ordering::Relaxed};
use std::sync::mpsc::channel;
use std::thread::{available_parallelism, scope};

/// Does so many jobs side by side, begun in order, and takes what comes of each in the same order.
pub fn in_order<T: Send>(jobs: usize, job: impl Fn(usize) -> T + Sync, mut take: impl FnMut(T)) {
    let next = AtomicUsize::new(0);
    let (sender, done) = channel();
    scope(|threads| {
        for _ in 0..available_parallelism().map_or(1, usize::from).min(jobs) {
            let sender = sender.clone();
            threads.spawn(|| {
                let sender = sender;
                while let Some(at) = Some(next.fetch_add(1, Relaxed)).filter(|at| *at < jobs) {
                    sender.send((at, job(at))).expect("it is waited for");
                }
            });
        }
        drop(sender);
        let (mut early, mut due) = (BTreeMap::new(), 0);
        for (at, result) in done {
            early.insert(at, result);
            while let Some(result) = early.remove(&due) {
                take(result);
                due += 1;
            }
        }
    });
}

#[cfg(test)]
mod tests {
    use super::*;
    use std::thread::sleep;
    use std::time::Duration;

    #[test]
    fn all_in_order() {
        for jobs in [0, 1, 2, 100] {
            let mut taken = Vec::new();
            let job = |at| {
                // The first ones are done last.
                sleep(Duration::from_micros(100 * (20 - u64::min(at as u64, 20))));
                at
            };
            in_order(jobs, job, |at| taken.push(at));
            assert_eq!(taken, (0..jobs).collect::<Vec<_>>());
        }
    }
}
