//! Timing: batches of calls in turn, the quickest of many.

use std::time::{Duration, Instant};

use crate::interface::{Call, Calls, Lent};

/// How much is measured: rounds over all races, and the batches of each race in a round. Rounds lie far apart in time, so that another
/// program that takes the processor for a while doesn't spoil all of them.
#[derive(Clone, Copy)]
pub struct Effort {
    pub rounds: usize,
    pub batches: usize,
}

impl Effort {
    pub const FULL: Effort = Effort {
        rounds: 10,
        batches: 20,
    };
    pub const QUICK: Effort = Effort {
        rounds: 3,
        batches: 8,
    };
    /// One race for a profiler.
    pub const LONG: Effort = Effort {
        rounds: 1,
        batches: 1_500,
    };
}

/// The least time of a batch when its size is chosen.
const BATCH: Duration = Duration::from_millis(1);

/// An implementation with buffers of its own and the size of its batches.
struct Runner {
    subject: &'static dyn Calls,
    lent: Lent,
    repeats: usize,
    quickest: Duration,
}

/// Implementations that are given the same list of calls.
pub struct Race {
    calls: Vec<Call>,
    runners: Vec<Runner>,
}

impl Runner {
    /// Runs the list of calls as often as a batch has it.
    fn batch(&mut self, calls: &[Call]) -> Duration {
        let start = Instant::now();
        for _ in 0..self.repeats {
            for call in calls {
                self.subject.call(call, &mut self.lent);
            }
        }
        start.elapsed()
    }
}

impl Race {
    pub fn new(subjects: &[&'static dyn Calls], calls: Vec<Call>, lent: &Lent) -> Self {
        let runner = |subject: &&'static dyn Calls| {
            let mut runner = Runner {
                subject: *subject,
                lent: lent.clone(),
                repeats: 1,
                quickest: Duration::MAX,
            };
            while runner.batch(&calls) < BATCH {
                runner.repeats *= 2;
            }
            runner
        };
        let runners = subjects.iter().map(runner).collect();
        Race { calls, runners }
    }

    /// Some batches of each in turn. Buffers stay as the call before left them.
    pub fn run(&mut self, batches: usize) {
        for _ in 0..batches {
            for runner in &mut self.runners {
                runner.quickest = runner.quickest.min(runner.batch(&self.calls));
            }
        }
    }

    /// Nanoseconds a call for each implementation.
    pub fn figures(&self) -> Vec<f64> {
        let per_call = |runner: &Runner| {
            let calls = (runner.repeats * self.calls.len()) as f64;
            runner.quickest.as_nanos() as f64 / calls
        };
        self.runners.iter().map(per_call).collect()
    }
}
