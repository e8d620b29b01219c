//! Reports and adds as a town has more zones, more cars or more cells.

use crate::random::Random;
use crate::rivals::Engine;
use crate::time::Best;
use crate::work::{Plan, Work, LARGEST};
use unwadegiro::{Capacities, Rectangle};

/// The k of all these towns: the smallest is one block.
pub const K: u32 = 4;
const ROUNDS: usize = 9;
const MOVES: usize = 20_000;
const BATCH: usize = 1_000;
/// The side of the zone that is added, and in how many places.
pub const ADDED: u32 = 10;
const PLACES: usize = 20;

/// What grows; the others stay at the values of `plan`.
#[derive(Clone, Copy, PartialEq)]
pub enum Axis {
    Zones,
    Cars,
    Side,
}

pub const AXES: [Axis; 3] = [Axis::Zones, Axis::Cars, Axis::Side];

impl Axis {
    pub fn name(self) -> &'static str {
        match self {
            Axis::Zones => "zones",
            Axis::Cars => "cars",
            Axis::Side => "side",
        }
    }

    pub fn values(self) -> Vec<u32> {
        let (least, most) = match self {
            Axis::Zones => (1, 256),
            Axis::Cars => (1, 1024),
            Axis::Side => (16, 256),
        };
        (0..11).map(|power| 1 << power).filter(|value| (least..=most).contains(value)).collect()
    }

    fn plan(self, value: u32) -> Plan {
        let of = |axis, others| if self == axis { value } else { others };
        let (zones, cars, side) = (of(Axis::Zones, 192), of(Axis::Cars, 1024), of(Axis::Side, 256));
        // on average the zones together have as many cells as the town
        let longest = (2.0 * side as f64 / (zones as f64).sqrt()).round() as u32;
        let room = Capacities { zones, cars, ..LARGEST.room };
        Plan { name: "Growing", side, room, longest: longest.clamp(1, side) }
    }
}

/// Nanoseconds a report to another cell and an add, for each engine.
pub struct Point {
    pub value: u32,
    pub report: Vec<f64>,
    pub add: Vec<f64>,
}

pub struct Growth {
    pub axis: Axis,
    pub engines: Vec<&'static str>,
    pub points: Vec<Point>,
}

/// Adds a zone of one size in each place, in the stead of one that stood.
fn adds(engine: &mut dyn Engine, (zone, stood): (u32, Rectangle), places: &[Rectangle], best: &mut Best) {
    for &r in places {
        engine.remove(zone);
        best.time(1, || engine.add(zone, r));
    }
    engine.remove(zone);
    engine.add(zone, stood);
}

fn point(axis: Axis, value: u32, seed: u64) -> (Vec<&'static str>, Point) {
    let plan = axis.plan(value);
    let mut work = Work::new(plan, seed, MOVES);
    work.fit(plan, K, 0);
    assert_eq!(work.zones.len(), plan.room.zones as usize, "all zones fit");
    let random = &mut Random::new(seed);
    let places: Vec<Rectangle> = (0..PLACES).map(|_| plan.anywhere(random, ADDED, ADDED)).collect();
    let mut engines = plan.engines(K);
    engines.iter_mut().for_each(|engine| work.fill(engine.as_mut()));
    let mut best: Vec<[Best; 2]> = vec![Default::default(); engines.len()];
    for _ in 0..ROUNDS {
        for (engine, best) in engines.iter_mut().zip(&mut best) {
            best.iter_mut().for_each(Best::again);
            work.place(engine.as_mut());
            for batch in work.far.chunks(BATCH) {
                best[0].time(batch.len(), || engine.report_all(batch));
            }
            adds(engine.as_mut(), work.zones[work.zones.len() / 2], &places, &mut best[1]);
        }
    }
    work.compare(&mut engines);
    let of = |which: usize| best.iter().map(|best| best[which].each()).collect();
    (engines.iter().map(|engine| engine.name()).collect(), Point { value, report: of(0), add: of(1) })
}

pub fn measure(axis: Axis, seed: u64) -> Growth {
    let (mut engines, mut points) = (Vec::new(), Vec::new());
    for value in axis.values() {
        let (names, point) = point(axis, value, seed);
        engines = names;
        points.push(point);
    }
    Growth { axis, engines, points }
}
