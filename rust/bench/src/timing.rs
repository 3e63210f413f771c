//! How long things take.

use std::hint::black_box;
use std::time::{Duration, Instant};

/// How often a thing is run at least, and how long all its runs take at least.
pub const LEAST_RUNS: usize = 5;
pub const ENOUGH: Duration = Duration::from_millis(300);

/// After this long a thing is not run again, however few its runs.
pub const TOO_MUCH: Duration = Duration::from_secs(3);

/// The times of the library and of its twin for the same thing, and that of the library as it was before, where one is named.
#[derive(Clone, Copy)]
pub struct Times {
    pub library: Duration,
    pub twin: Duration,
    pub before: Option<Duration>,
}

impl Times {
    /// How much longer than another thing each of them takes.
    pub fn less(self, other: Times) -> Times {
        Times {
            library: self.library.saturating_sub(other.library),
            twin: self.twin.saturating_sub(other.twin),
            before: self.before.zip(other.before).map(|(one, other)| one.saturating_sub(other)),
        }
    }
}

/// The least times of the library, the twin and, where it is named, the library as it was before. They take turns, so that whatever slows
/// the machine down for a while slows all of them.
pub fn in_turn<A>(mut things: Vec<impl FnMut() -> A>) -> Times {
    let mut least = vec![Duration::MAX; things.len()];
    let mut runs = Runs::default();
    while runs.go_on() {
        let times: Vec<Duration> = things.iter_mut().map(time).collect();
        runs.took(*times.iter().min().expect("something is timed"));
        least = least.iter().zip(times).map(|(least, time)| time.min(*least)).collect();
    }
    Times { library: least[0], twin: least[1], before: least.get(2).copied() }
}

/// The least time of a thing by itself.
pub fn alone<A>(mut thing: impl FnMut() -> A) -> Duration {
    let mut least = Duration::MAX;
    let mut runs = Runs::default();
    while runs.go_on() {
        let one = time(&mut thing);
        least = least.min(one);
        runs.took(one);
    }
    least
}

fn time<A>(thing: &mut impl FnMut() -> A) -> Duration {
    let begin = Instant::now();
    black_box(thing());
    begin.elapsed()
}

/// How often a thing was run, and how long that took.
#[derive(Default)]
struct Runs {
    number: usize,
    time: Duration,
}

impl Runs {
    fn go_on(&self) -> bool {
        self.time < TOO_MUCH && (self.number < LEAST_RUNS || self.time < ENOUGH)
    }

    fn took(&mut self, time: Duration) {
        self.number += 1;
        self.time += time;
    }
}
