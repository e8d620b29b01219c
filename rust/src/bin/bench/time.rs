//! The measuring of times.

use std::time::Instant;

/// The best time of each batch of calls over all rounds, so that a round which something else disturbed does not count.
#[derive(Clone, Default)]
pub struct Best {
    batches: Vec<f64>,
    at: usize,
    calls: usize,
}

impl Best {
    /// Starts a round.
    pub fn again(&mut self) {
        (self.at, self.calls) = (0, 0);
    }

    /// Times the next batch of a round.
    pub fn time(&mut self, calls: usize, batch: impl FnOnce()) {
        let began = Instant::now();
        batch();
        let ns = began.elapsed().as_nanos() as f64;
        match self.batches.get_mut(self.at) {
            Some(best) => *best = best.min(ns),
            None => self.batches.push(ns),
        }
        self.at += 1;
        self.calls += calls;
    }

    /// Nanoseconds a call.
    pub fn each(&self) -> f64 {
        self.batches.iter().sum::<f64>() / self.calls as f64
    }

    /// The highest ratio of a batch's time over that of the same batch in another.
    pub fn highest_over(&self, other: &Best) -> f64 {
        self.batches.iter().zip(&other.batches).map(|(own, other)| own / other).fold(0.0, f64::max)
    }
}
