//! Every call on the two towns of the tables, for each k.

use crate::rivals::Engine;
use crate::time::Best;
use crate::work::{Plan, Work, LARGEST};
use std::hint::black_box;

/// The calls that are measured, in the order of the columns' values.
pub const CALLS: [&str; 10] = [
    "report, another cell",
    "report, nine of ten in the same cell",
    "search",
    "add",
    "remove",
    "roster",
    "open",
    "count",
    "holder",
    "scoring",
];

const ROUNDS: usize = 9;
const MOVES: usize = 100_000;
const ROSTERS: usize = 20;
const COUNTS: usize = 20;
const OPENS: usize = 10;
/// How many calls are timed together.
const BATCH: usize = 1_000;

/// One town: nanoseconds a call for each call and engine, in the order of the engines.
pub struct Measured {
    pub plan: Plan,
    pub k: u32,
    pub zones: usize,
    pub entries: usize,
    pub engines: Vec<&'static str>,
    pub times: [Vec<f64>; CALLS.len()],
    /// Nanoseconds a test of the library's tables.
    pub soundness: f64,
}

impl Measured {
    /// The time of a call by an engine, where the engine is there.
    pub fn time(&self, call: &str, engine: &str) -> Option<f64> {
        let call = CALLS.iter().position(|&name| name == call)?;
        let engine = self.engines.iter().position(|&name| name == engine)?;
        Some(self.times[call][engine])
    }
}

/// Each zone removed from the full town and added again.
fn zones(engine: &mut dyn Engine, work: &Work, adds: &mut Best, removes: &mut Best) {
    for &(zone, r) in &work.zones {
        removes.time(1, || engine.remove(zone));
        adds.time(1, || engine.add(zone, r));
    }
}

/// All zones in turn, again and again within a batch: one count or holder is short beside a look at the clock.
fn asks(work: &Work, best: &mut Best, ask: impl Fn()) {
    let times = BATCH / work.zones.len() + 1;
    for _ in 0..COUNTS {
        best.time(times * work.zones.len(), || (0..times).for_each(|_| ask()));
    }
}

fn opens(engine: &mut dyn Engine, work: &Work, best: &mut Best) {
    for _ in 0..OPENS {
        best.time(1, || engine.clear());
        work.zones.iter().take(3).for_each(|&(zone, r)| engine.add(zone, r));
    }
    engine.clear();
    work.fill(engine);
}

/// One round of all calls.
fn round(engine: &mut dyn Engine, work: &Work, best: &mut [Best; CALLS.len()]) {
    best.iter_mut().for_each(Best::again);
    let [far, near, search, add, remove, roster, open, count, holder, scoring] = best;
    for (moves, best) in [(&work.far, far), (&work.near, near)] {
        work.place(engine);
        moves.chunks(BATCH).for_each(|batch| best.time(batch.len(), || engine.report_all(batch)));
    }
    for batch in work.spots.chunks(BATCH) {
        search.time(batch.len(), || engine.search_all(batch));
        scoring.time(batch.len(), || engine.score_all(batch));
    }
    zones(engine, work, add, remove);
    for _ in 0..ROSTERS {
        roster.time(work.zones.len(), || engine.roster_all(&work.zones));
    }
    asks(work, count, || engine.count_all(&work.zones));
    asks(work, holder, || engine.hold_all(&work.zones));
    opens(engine, work, open);
}

/// Nanoseconds a test of the library's tables.
fn soundness(library: &dyn Engine) -> f64 {
    let mut best = Best::default();
    for _ in 0..10 * ROUNDS {
        best.again();
        best.time(1, || assert!(black_box(library.is_sound()), "the library's tables are sound"));
    }
    best.each()
}

/// Measures a town: the zones that its entries have room for stand in it.
pub fn measure(plan: Plan, k: u32, seed: u64) -> Measured {
    let mut work = Work::new(plan, seed, MOVES);
    let entries = work.fit(plan, k, 0);
    let mut engines = plan.engines(k);
    for engine in &mut engines {
        work.fill(engine.as_mut());
        zones(engine.as_mut(), &work, &mut Best::default(), &mut Best::default());
    }
    work.compare(&mut engines);
    let mut best: Vec<[Best; CALLS.len()]> = vec![Default::default(); engines.len()];
    for _ in 0..ROUNDS {
        for (engine, best) in engines.iter_mut().zip(&mut best) {
            round(engine.as_mut(), &work, best);
        }
    }
    work.compare_zones(&mut engines);
    Measured {
        plan,
        k,
        zones: work.zones.len(),
        entries,
        engines: engines.iter().map(|engine| engine.name()).collect(),
        times: std::array::from_fn(|call| best.iter().map(|best| best[call].each()).collect()),
        soundness: soundness(engines[0].as_ref()),
    }
}

/// The largest town: how many zones and entries, and nanoseconds a test of its tables.
pub fn largest(seed: u64) -> (usize, usize, f64) {
    let mut work = Work::new(LARGEST, seed, 0);
    let entries = work.fit(LARGEST, 5, 0);
    let mut library = LARGEST.library(5);
    work.fill(&mut library);
    (work.zones.len(), entries, soundness(&library))
}
