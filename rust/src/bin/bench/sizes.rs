//! Zones of three sizes added to a full town, and removed again.

use crate::random::Random;
use crate::rivals::{Engine, Squares};
use crate::time::Best;
use crate::work::{Plan, Work};
use unwadegiro::Rectangle;

pub const KS: [u32; 3] = [0, 2, 5];
const ROUNDS: usize = 9;
/// How many moves are compared with the zone in the town.
const MOVES: usize = 2_000;
/// In how many places a zone is tried.
const PLACES: usize = 20;

/// The sizes: what they are called, and the side, which the town's own bounds.
pub const SIZES: [(&str, u32); 3] = [("1 × 1", 1), ("50 × 50", 50), ("whole town", 256)];

/// Nanoseconds an add and a remove, for each engine.
pub struct Times {
    pub add: Vec<f64>,
    pub remove: Vec<f64>,
}

pub struct Size {
    pub plan: Plan,
    pub k: u32,
    pub size: &'static str,
    pub engines: Vec<&'static str>,
    /// How many zones and entries there are without the zone; none where it does not fit into the entries.
    pub times: Option<(usize, usize, Times)>,
}

/// The most squares that a cut of some rectangles has; none where one does not fit.
fn squares(plan: Plan, k: u32, some: &[Rectangle]) -> Option<usize> {
    let mut town = plan.library(k).0;
    let mut most = 0;
    for &r in some {
        most = most.max(town.add(0, r).ok()?.squares as usize);
        town.clear();
    }
    Some(most)
}

/// Adds a zone in each place and removes it again, on each engine.
fn times(engines: &mut [Box<dyn Engine>], number: u32, places: &[Rectangle]) -> Times {
    let mut best: Vec<[Best; 2]> = vec![Default::default(); engines.len()];
    for _ in 0..ROUNDS {
        for (engine, best) in engines.iter_mut().zip(&mut best) {
            best.iter_mut().for_each(Best::again);
            for &r in places {
                best[0].time(1, || engine.add(number, r));
                best[1].time(1, || engine.remove(number));
            }
        }
    }
    let of = |which: usize| best.iter().map(|best| best[which].each()).collect();
    Times { add: of(0), remove: of(1) }
}

pub fn measure(plan: Plan, k: u32, (size, side): (&'static str, u32), seed: u64) -> Size {
    let side = side.min(plan.side);
    let random = &mut Random::new(seed);
    let places: Vec<Rectangle> = (0..PLACES).map(|_| plan.anywhere(random, side, side)).collect();
    let (shape, room) = (plan.shape(k), plan.room);
    let mut engines: Vec<Box<dyn Engine>> = vec![
        Box::new(plan.library(k)),
        Box::new(Squares::<false>::new(shape, room)),
        Box::new(Squares::<true>::new(shape, room)),
    ];
    let names = engines.iter().map(|engine| engine.name()).collect();
    let times = squares(plan, k, &places).map(|asked| {
        let number = room.zones / 2;
        let mut work = Work::new(plan, seed, MOVES);
        work.zones.retain(|&(zone, _)| zone != number);
        let entries = work.fit(plan, k, asked);
        engines.iter_mut().for_each(|engine| work.fill(engine.as_mut()));
        let times = times(&mut engines, number, &places);
        let zones = work.zones.len();
        work.zones.push((number, places[0]));
        engines.iter_mut().for_each(|engine| engine.add(number, places[0]));
        work.compare(&mut engines);
        (zones, entries, times)
    });
    Size { plan, k, size, engines: names, times }
}
