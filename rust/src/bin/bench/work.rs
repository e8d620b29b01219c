//! Towns, and the zones, cars and moves in them.

use crate::random::Random;
use crate::rivals::{Cells, Engine, Library, Move, RTree, Scan, Squares};
use unwadegiro::{Capacities, Position, Rectangle, Refusal, Shape, Town};

/// A town's size, in cells, what it has room for, and the longest side of a zone.
#[derive(Clone, Copy)]
pub struct Plan {
    pub name: &'static str,
    pub side: u32,
    pub room: Capacities,
    pub longest: u32,
}

pub const PLANS: [Plan; 2] = [
    Plan { name: "Small", side: 64, room: Capacities { zones: 16, cars: 64, entries: 2048 }, longest: 50 },
    Plan { name: "Large", side: 256, room: Capacities { zones: 192, cars: 1024, entries: 16384 }, longest: 50 },
];

/// All capacities at their bounds. With these sides all zones stand, and take nearly all entries.
pub const LARGEST: Plan =
    Plan { name: "Largest", side: 256, room: Capacities { zones: 256, cars: 1024, entries: 16384 }, longest: 38 };

impl Plan {
    pub fn shape(&self, k: u32) -> Shape {
        Shape { k, p: self.side >> k, q: self.side >> k }
    }

    /// A town with no zone and no car, for each engine that is there; the library is the first.
    pub fn engines(&self, k: u32) -> Vec<Box<dyn Engine>> {
        let (shape, room) = (self.shape(k), self.room);
        let mut all: Vec<Box<dyn Engine>> =
            vec![Box::new(self.library(k)), Box::new(Scan::new(room)), Box::new(Cells::new(shape, room))];
        if let Some(tree) = RTree::new(room) {
            all.push(Box::new(tree));
        }
        all.push(Box::new(Squares::<false>::new(shape, room)));
        all.push(Box::new(Squares::<true>::new(shape, room)));
        all
    }

    pub fn library(&self, k: u32) -> Library {
        Library(Town::open(self.shape(k), self.room).expect("a shape and capacities within the bounds"))
    }

    /// A rectangle of some size anywhere.
    pub fn anywhere(&self, random: &mut Random, w: u32, h: u32) -> Rectangle {
        Rectangle { a: random.below(self.side - w + 1), b: random.below(self.side - h + 1), w, h }
    }
}

pub struct Work {
    pub zones: Vec<(u32, Rectangle)>,
    pub places: Vec<Move>,
    /// Each to another cell.
    pub far: Vec<Move>,
    /// Nine of ten in the same cell.
    pub near: Vec<Move>,
    pub spots: Vec<Position>,
}

fn within(random: &mut Random, (x, y): (u32, u32)) -> Position {
    let mut part = || random.below(1 << 12) as f32 / 4096.0;
    Position { x: x as f32 + part(), y: y as f32 + part() }
}

/// Another cell: one step away, or any, once in a hundred times.
fn step(random: &mut Random, side: u32, (x, y): (u32, u32)) -> (u32, u32) {
    loop {
        let new = if random.once_in(100) {
            (random.below(side), random.below(side))
        } else {
            ((x + random.below(3)).wrapping_sub(1), (y + random.below(3)).wrapping_sub(1))
        };
        if new != (x, y) && new.0 < side && new.1 < side {
            return new;
        }
    }
}

/// Reports of all cars in turn, of which those that `stays` picks keep to their cell.
fn moves(
    random: &mut Random,
    side: u32,
    places: &[Move],
    many: usize,
    mut stays: impl FnMut(&mut Random) -> bool,
) -> Vec<Move> {
    let mut cells: Vec<(u32, u32)> = places.iter().map(|(_, at)| (at.x as u32, at.y as u32)).collect();
    let mut all = Vec::with_capacity(many);
    for turn in 0..many {
        let car = turn % cells.len();
        if !stays(random) {
            cells[car] = step(random, side, cells[car]);
        }
        all.push((car as u32, within(random, cells[car])));
    }
    all
}

/// Compares the zones that hold some positions, and whether any does.
pub fn compare_spots(spots: &[Position], engines: &mut [Box<dyn Engine>]) {
    let (library, rivals) = engines.split_first_mut().expect("the library at least");
    for &at in spots {
        let some = library.scores(at);
        let answer = library.search(at);
        assert_eq!(!answer.is_empty(), some, "search and scoring");
        for rival in rivals.iter_mut() {
            let name = rival.name();
            assert_eq!(some, rival.scores(at), "library and {}, a scoring", name);
            assert_eq!(answer, rival.search(at), "library and {}, a search", name);
        }
    }
}

impl Work {
    /// A zone for each number, a place for each car, and many moves of both kinds.
    pub fn new(plan: Plan, seed: u64, many: usize) -> Work {
        let random = &mut Random::new(seed);
        let mut zones = Vec::new();
        for zone in 0..plan.room.zones {
            let (w, h) = (random.between(1, plan.longest), random.between(1, plan.longest));
            zones.push((zone, plan.anywhere(random, w, h)));
        }
        let anywhere = |random: &mut Random| {
            let at = (random.below(plan.side), random.below(plan.side));
            within(random, at)
        };
        let places: Vec<Move> = (0..plan.room.cars).map(|car| (car, anywhere(random))).collect();
        let spots = (0..many / 2).map(|_| anywhere(random)).collect();
        let far = moves(random, plan.side, &places, many, |_| false);
        let near = moves(random, plan.side, &places, many, |random| !random.once_in(10));
        Work { zones, places, far, near, spots }
    }

    /// Leaves out the zones that the entries have no room for beside those which are asked for. Answers how many entries the
    /// others take.
    pub fn fit(&mut self, plan: Plan, k: u32, asked: usize) -> usize {
        let (mut town, mut entries) = (plan.library(k).0, 0);
        self.zones.retain(|&(zone, r)| match town.add(zone, r) {
            Ok(added) => {
                let sum = entries + added.squares as usize;
                let fits = sum + asked <= plan.room.entries as usize;
                if fits {
                    entries = sum;
                } else {
                    town.remove(zone).expect("it was added");
                }
                fits
            }
            Err(refusal) => {
                assert_eq!(refusal, Refusal::NoRoom);
                false
            }
        });
        entries
    }

    /// Puts all cars where they begin.
    pub fn place(&self, engine: &mut dyn Engine) {
        engine.report_all(&self.places);
    }

    pub fn fill(&self, engine: &mut dyn Engine) {
        self.zones.iter().for_each(|&(zone, r)| engine.add(zone, r));
        self.place(engine);
    }

    /// Compares every answer of all engines on the same calls.
    pub fn compare(&self, engines: &mut [Box<dyn Engine>]) {
        let (library, rivals) = engines.split_first_mut().expect("the library at least");
        for moves in [&self.far, &self.near] {
            for &(car, at) in self.places.iter().chain(moves) {
                let answer = library.report(car, at);
                for rival in rivals.iter_mut() {
                    let name = rival.name();
                    assert_eq!(answer, rival.report(car, at), "library and {}, a report", name);
                }
            }
        }
        for &(car, _) in &self.places {
            for rival in rivals.iter() {
                let name = rival.name();
                assert_eq!(library.where_is(car), rival.where_is(car), "library and {}, where a car is", name);
            }
        }
        compare_spots(&self.spots, engines);
        self.compare_zones(engines);
    }

    /// Compares the rosters, counts and holders.
    pub fn compare_zones(&self, engines: &mut [Box<dyn Engine>]) {
        let (library, rivals) = engines.split_first_mut().expect("the library at least");
        for &(zone, _) in &self.zones {
            let (count, holder) = (library.count(zone), library.holder(zone));
            let answer = library.roster(zone);
            assert_eq!(answer.len() as u32, count, "roster and count");
            for rival in rivals.iter_mut() {
                let name = rival.name();
                assert_eq!(count, rival.count(zone), "library and {}, a count", name);
                assert_eq!(holder, rival.holder(zone), "library and {}, a holder", name);
                assert_eq!(answer, rival.roster(zone), "library and {}, a roster", name);
            }
        }
        assert!(library.is_sound(), "the library's tables are sound");
    }
}
