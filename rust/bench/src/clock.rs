//! Taking times.

use std::hint::black_box;
use std::time::{Duration, Instant};

/// How times are taken.
pub struct Clock {
    /// How many times each side runs; the best counts.
    runs: usize,
    /// How long a run lasts at least.
    run: Duration,
}

impl Clock {
    /// Many long runs.
    pub fn patient() -> Clock {
        Clock {
            runs: 25,
            run: Duration::from_millis(4),
        }
    }

    /// One run of one call.
    pub fn hasty() -> Clock {
        Clock {
            runs: 1,
            run: Duration::ZERO,
        }
    }

    /// The best times of one call of two sides, in nanoseconds. The sides take turns, so that
    /// whatever else the machine does falls on both.
    pub fn race<T>(
        &self,
        one: &mut impl FnMut() -> T,
        other: &mut impl FnMut() -> T,
    ) -> (f64, f64) {
        let calls = (self.warm_up(one), self.warm_up(other));
        let mut best = (f64::INFINITY, f64::INFINITY);
        for _ in 0..self.runs {
            best.0 = best.0.min(per_call(one, calls.0));
            best.1 = best.1.min(per_call(other, calls.1));
        }
        best
    }

    /// Calls until the calls of one run last long enough, and says how many those are.
    fn warm_up<T>(&self, side: &mut impl FnMut() -> T) -> u32 {
        let mut calls = 1;
        while calls < 1 << 24 && time(side, calls) < self.run {
            calls *= 2;
        }
        calls
    }
}

/// How long some calls take.
fn time<T>(side: &mut impl FnMut() -> T, calls: u32) -> Duration {
    let begin = Instant::now();
    for _ in 0..calls {
        black_box(side());
    }
    begin.elapsed()
}

/// How many nanoseconds one of some calls takes.
fn per_call<T>(side: &mut impl FnMut() -> T, calls: u32) -> f64 {
    time(side, calls).as_nanos() as f64 / f64::from(calls)
}
