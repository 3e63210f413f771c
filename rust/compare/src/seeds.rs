//! Many seeds, on all processors.
//!
//! `ROADTHRUM_SEED` names the only seed to run, to see a failure again. `ROADTHRUM_FIRST_SEED` names another first one, for cases that
//! nobody has run yet.

use crate::Tally;
use std::ops::Range;
use std::sync::atomic::{AtomicU64, Ordering};
use std::thread;

pub struct Seeds {
    seeds: Range<u64>,
}

impl Seeds {
    /// So many seeds, unless the environment says otherwise.
    pub fn new(count: u64) -> Seeds {
        if let Some(seed) = from_environment("ROADTHRUM_SEED") {
            return Seeds { seeds: seed..seed + 1 };
        }
        let first = from_environment("ROADTHRUM_FIRST_SEED").unwrap_or(0);
        Seeds { seeds: first..first + count }
    }

    /// Whether one seed is run alone, of which not all can be expected to be seen.
    pub fn one_alone(&self) -> bool {
        self.seeds.end - self.seeds.start == 1
    }

    /// Runs all seeds and gives all that was seen. Panics with the first failure, and with the seed that gives it again.
    pub fn run(&self, work: impl Fn(u64) -> Result<Tally, String> + Sync) -> Tally {
        let next = AtomicU64::new(self.seeds.start);
        let threads = thread::available_parallelism().map_or(1, |threads| threads.get());
        let seen = thread::scope(|scope| {
            let running: Vec<_> = (0..threads).map(|_| scope.spawn(|| self.run_some(&next, &work))).collect();
            running.into_iter().map(|thread| thread.join().expect("the seed is named above")).collect::<Vec<_>>()
        });
        let mut all = Tally::default();
        for result in seen {
            match result {
                Ok(tally) => all.add(tally),
                Err(failure) => panic!("{failure}"),
            }
        }
        println!("seeds {} to {}:\n{all}", self.seeds.start, self.seeds.end - 1);
        all
    }

    /// Runs seeds as long as there are any left. A failure leaves none to the other threads.
    fn run_some(&self, next: &AtomicU64, work: &impl Fn(u64) -> Result<Tally, String>) -> Result<Tally, String> {
        let mut all = Tally::default();
        loop {
            let seed = next.fetch_add(1, Ordering::Relaxed);
            if seed >= self.seeds.end {
                return Ok(all);
            }
            let _naming = NamedInPanic(seed);
            match work(seed) {
                Ok(tally) => all.add(tally),
                Err(failure) => {
                    next.store(self.seeds.end, Ordering::Relaxed);
                    return Err(format!("{}\n{failure}", again(seed)));
                }
            }
        }
    }
}

fn from_environment(name: &str) -> Option<u64> {
    let value = std::env::var(name).ok()?;
    Some(value.parse().unwrap_or_else(|_| panic!("{name} is no number: {value}")))
}

fn again(seed: u64) -> String {
    format!("seed {seed}; run this test again with ROADTHRUM_SEED={seed}")
}

/// Says which seed it was when the work on it panics.
struct NamedInPanic(u64);

impl Drop for NamedInPanic {
    fn drop(&mut self) {
        if thread::panicking() {
            eprintln!("{}", again(self.0));
        }
    }
}
