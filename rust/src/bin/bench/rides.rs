//! Zones that ride, beside the same zones removed and added at their new places.

use crate::rivals::{Engine, Squares};
use crate::sizes::KS;
use crate::time::Best;
use crate::work::{compare_spots, Plan, Work, LARGEST, PLANS};
use std::hint::black_box;
use unwadegiro::{cut, Position, Rectangle, Ridden};

const ROUNDS: usize = 9;
/// How many zones of a town ride, at most.
pub const MOST: usize = 40;
/// How many moves are compared when all rides are done; half as many searches after each ride.
const MOVES: usize = 200;

/// A ride: what it is called, and how far it goes for a zone that is so long that way.
pub type Ride = (&'static str, fn(u32) -> u32);

pub const ONE: Ride = ("by one cell", |_| 1);
const ACROSS: Ride = ("across the town", |_| LARGEST.side);

/// The rides of the zones that every benchmark lays.
pub const RIDES: [Ride; 5] =
    [ONE, ("by half its length", |long| long / 2), ("by its length", |long| long), ACROSS, ("by nothing", |_| 0)];

/// The zones that ride.
#[derive(Clone, Copy, PartialEq)]
pub enum Riders {
    Laid,
    Cell,
    Column,
    Row,
}

impl Riders {
    pub fn name(self) -> &'static str {
        match self {
            Riders::Laid => "sides of at least 2",
            Riders::Cell => "1 × 1",
            Riders::Column => "all but a column",
            Riders::Row => "all but a row",
        }
    }

    fn rides(self) -> &'static [Ride] {
        match self {
            Riders::Laid => &RIDES,
            Riders::Cell => &[ONE, ACROSS],
            _ => &[ONE],
        }
    }

    /// The zone that covers nearly the whole town.
    fn widest(self, side: u32) -> Option<Rectangle> {
        match self {
            Riders::Column => Some(Rectangle { a: 0, b: 0, w: side - 1, h: side }),
            Riders::Row => Some(Rectangle { a: 0, b: 0, w: side, h: side - 1 }),
            _ => None,
        }
    }

    /// Halves a plan's side until the widest zone fits into the entries.
    fn plan(self, plan: Plan, k: u32) -> Plan {
        match self.widest(plan.side) {
            Some(r) if squares(plan, k, r).is_none() => {
                let side = plan.side / 2;
                self.plan(Plan { side, longest: plan.longest.min(side), ..plan }, k)
            }
            _ => plan,
        }
    }

    /// Makes every fifth zone one of a cell, or the middle one the widest, which then is the first to be added.
    fn lay(self, work: &mut Work, side: u32) {
        if self == Riders::Cell {
            work.zones.iter_mut().step_by(5).for_each(|(_, r)| (r.w, r.h) = (1, 1));
        }
        if let Some(r) = self.widest(side) {
            let (zone, _) = work.zones.remove(work.zones.len() / 2);
            work.zones.insert(0, (zone, r));
        }
    }

    /// Those among the zones.
    fn among(self, zones: &[(u32, Rectangle)], side: u32) -> Vec<(u32, Rectangle)> {
        let rides = |r: Rectangle| match self {
            Riders::Laid => r.w > 1 && r.h > 1,
            Riders::Cell => r.w == 1 && r.h == 1,
            _ => Some(r) == self.widest(side),
        };
        zones.iter().copied().filter(|&(_, r)| rides(r)).collect()
    }
}

/// One ride of a zone.
#[derive(Clone, Copy)]
struct Trip {
    zone: u32,
    from: Rectangle,
    to: Rectangle,
}

impl Trip {
    /// A ride to the east or the west, for zones with odd numbers to the north or the south, where there is room. It goes
    /// towards the edge that is farther off, and ends there at the latest.
    fn new((zone, from): (u32, Rectangle), (_, far): Ride, side: u32) -> Trip {
        let go = |at: u32, long: u32| {
            let (back, on) = (at, side - long - at);
            if on < back {
                at - far(long).min(back)
            } else {
                at + far(long).min(on)
            }
        };
        let mut to = from;
        if from.w == side || (zone % 2 == 1 && from.h < side) {
            to.b = go(from.b, from.h);
        } else {
            to.a = go(from.a, from.w);
        }
        Trip { zone, from, to }
    }

    fn back(self) -> Trip {
        Trip { from: self.to, to: self.from, ..self }
    }

    /// Positions at the corners of both rectangles, inside and outside.
    fn corners(&self, side: u32) -> Vec<Position> {
        let mut all = Vec::new();
        for r in [self.from, self.to] {
            let ends = |at: u32, long: u32| [at.wrapping_sub(1), at, at + long - 1, at + long];
            for x in ends(r.a, r.w) {
                for y in ends(r.b, r.h) {
                    if x < side && y < side {
                        all.push(Position { x: x as f32 + 0.5, y: y as f32 + 0.5 });
                    }
                }
            }
        }
        all
    }
}

/// The trips of some zones, each there and back.
fn trips(zones: &[(u32, Rectangle)], ride: Ride, side: u32) -> Vec<Trip> {
    let there = zones.iter().map(|&zone| Trip::new(zone, ride, side));
    there.flat_map(|trip| [trip, trip.back()]).collect()
}

/// The squares of a rectangle's cut, rising; none where they do not fit into the entries.
fn squares(plan: Plan, k: u32, r: Rectangle) -> Option<Vec<u32>> {
    let mut room = vec![0; plan.room.entries as usize];
    cut(plan.shape(k), r, &mut room).ok().map(<[u32]>::to_vec)
}

/// How many squares more than its old cut the new one of a ride has, at most.
fn growth(plan: Plan, k: u32, zones: &[(u32, Rectangle)], rides: &[Ride]) -> usize {
    let many = |r| squares(plan, k, r).map_or(0, |squares| squares.len());
    let all = rides.iter().flat_map(|&ride| trips(zones, ride, plan.side));
    all.map(|trip| many(trip.to).saturating_sub(many(trip.from))).max().unwrap_or(0)
}

fn ride<'a>(engine: &'a mut dyn Engine, trip: &Trip) -> Ridden<'a> {
    let by = |from: u32, to: u32| to as i32 - from as i32;
    engine.ride(trip.zone, by(trip.from.a, trip.to.a), by(trip.from.b, trip.to.b)).expect("the library rides")
}

fn remove_and_add(engine: &mut dyn Engine, trip: &Trip) {
    engine.remove(trip.zone);
    engine.add(trip.zone, trip.to);
}

/// What some have and others have not; both rise.
fn apart(some: &[u32], others: &[u32]) -> Vec<u32> {
    some.iter().copied().filter(|one| others.binary_search(one).is_err()).collect()
}

/// Makes a ride, and compares its answer and the town with those in which the zone was removed and added. Answers how many
/// squares its old cut has, and how many of them are dropped.
fn compare(engines: &mut [Box<dyn Engine>], work: &Work, plan: Plan, k: u32, trip: &Trip) -> (usize, usize) {
    let was = engines[1].roster(trip.zone).to_vec();
    engines[1..].iter_mut().for_each(|engine| remove_and_add(engine.as_mut(), trip));
    let is = engines[1].roster(trip.zone).to_vec();
    let [old, new] = [trip.from, trip.to].map(|r| squares(plan, k, r).expect("a zone that fits"));
    let (dropped, taken) = (apart(&old, &new).len(), apart(&new, &old).len());
    let ridden = ride(engines[0].as_mut(), trip);
    assert_eq!((ridden.dropped as usize, ridden.taken as usize), (dropped, taken), "squares of a ride");
    assert_eq!(ridden.entered, apart(&is, &was), "cars that entered by a ride");
    assert_eq!(ridden.left, apart(&was, &is), "cars that left by a ride");
    compare_spots(&trip.corners(plan.side), engines);
    compare_spots(&work.spots, engines);
    work.compare_zones(engines);
    (old.len(), dropped)
}

/// Times all trips: rides by the first engine, and a remove and an add by each other.
fn times(engines: &mut [Box<dyn Engine>], trips: &[Trip]) -> Vec<Best> {
    let mut best = vec![Best::default(); engines.len()];
    for _ in 0..ROUNDS {
        for (way, (engine, best)) in engines.iter_mut().zip(&mut best).enumerate() {
            best.again();
            for trip in trips {
                best.time(1, || match way {
                    0 => _ = black_box(ride(engine.as_mut(), trip)),
                    _ => remove_and_add(engine.as_mut(), trip),
                });
            }
        }
    }
    best
}

/// One kind of rides in one town.
pub struct Rides {
    pub plan: Plan,
    pub k: u32,
    pub riders: Riders,
    pub ride: &'static str,
    /// How many zones stand, how many entries they take, and how many zones ride.
    pub zones: usize,
    pub entries: usize,
    pub many: usize,
    /// How many squares a cut has, and how many of them a ride exchanges, on average.
    pub squares: f64,
    pub exchanged: f64,
    /// Nanoseconds a ride, and a remove and an add by the library, by hand, and by hand, counting.
    pub times: Vec<f64>,
    /// The highest ratio of one ride over remove and add by the library.
    pub highest: f64,
}

fn measure(plan: Plan, k: u32, riders: Riders, seed: u64) -> Vec<Rides> {
    let plan = riders.plan(plan, k);
    let (side, shape, room) = (plan.side, plan.shape(k), plan.room);
    let mut work = Work::new(plan, seed, MOVES);
    riders.lay(&mut work, side);
    let asked = growth(plan, k, &riders.among(&work.zones, side), riders.rides());
    let entries = work.fit(plan, k, asked);
    let mut engines: Vec<Box<dyn Engine>> = vec![
        Box::new(plan.library(k)),
        Box::new(plan.library(k)),
        Box::new(Squares::<false>::new(shape, room)),
        Box::new(Squares::<true>::new(shape, room)),
    ];
    engines.iter_mut().for_each(|engine| work.fill(engine.as_mut()));
    let mut zones = riders.among(&work.zones, side);
    zones.truncate(MOST);
    let mut all = Vec::new();
    for &ride in riders.rides() {
        let trips = trips(&zones, ride, side);
        let seen = trips.iter().map(|trip| compare(&mut engines, &work, plan, k, trip));
        let (squares, exchanged) = seen.fold((0, 0), |sum, one| (sum.0 + one.0, sum.1 + one.1));
        let best = times(&mut engines, &trips);
        let mean = |sum: usize| sum as f64 / trips.len() as f64;
        all.push(Rides {
            plan,
            k,
            riders,
            ride: ride.0,
            zones: work.zones.len(),
            entries,
            many: zones.len(),
            squares: mean(squares),
            exchanged: mean(exchanged),
            times: best.iter().map(Best::each).collect(),
            highest: best[0].highest_over(&best[1]),
        });
    }
    work.compare(&mut engines);
    all
}

/// The zones that every benchmark lays on the large town and the largest, then the smallest and the widest on all towns.
pub fn all(seed: u64) -> Vec<Rides> {
    let large = PLANS.into_iter().filter(|plan| plan.name == "Large");
    let mut towns: Vec<(Plan, u32)> = large.flat_map(|plan| (0..=5).map(move |k| (plan, k))).collect();
    towns.push((LARGEST, 5));
    let mut all: Vec<Rides> = towns.iter().flat_map(|&(plan, k)| measure(plan, k, Riders::Laid, seed)).collect();
    let mut towns: Vec<(Plan, u32)> = PLANS.into_iter().flat_map(|plan| KS.map(|k| (plan, k))).collect();
    towns.push((LARGEST, 5));
    for (plan, k) in towns {
        for riders in [Riders::Cell, Riders::Column, Riders::Row] {
            all.extend(measure(plan, k, riders, seed));
        }
    }
    all
}
