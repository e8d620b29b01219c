//! Containment-encoded squares by hand.

use super::cars::{cell, mirrored, Bounds, Cars, Zones, ABSENT};
use super::cut::{Cut, Grid};
use super::lists::Lists;
use super::rosters::Rosters;
use super::Engine;
use unwadegiro::{Capacities, Position, Rectangle, Shape, Standing};

pub struct Squares<const COUNTING: bool> {
    cars: Cars,
    rosters: Rosters<COUNTING>,
    zones: Vec<Rectangle>,
    bounds: Vec<Bounds>,
    grid: Grid,
    lists: Lists,
    cut: Cut,
    entered: Zones,
    left: Zones,
}

const NOWHERE: Rectangle = Rectangle { a: 0, b: 0, w: 0, h: 0 };

impl<const COUNTING: bool> Squares<COUNTING> {
    pub fn new(shape: Shape, room: Capacities) -> Self {
        let grid = Grid::new(shape);
        Squares {
            cars: Cars::new(room.cars),
            rosters: Rosters::new(room),
            zones: vec![NOWHERE; room.zones as usize],
            bounds: vec![Bounds::NONE; room.zones as usize],
            lists: Lists::new(grid.below[shape.k as usize + 1], room.entries),
            cut: Cut::new(room.entries),
            grid,
            entered: Zones::new(),
            left: Zones::new(),
        }
    }

    /// The zones on the lists of all squares of a cell.
    fn gather(&mut self, cell: u32) {
        self.entered.clear();
        let mut number = self.grid.number(cell);
        for &below in self.grid.below[..=self.grid.shape.k as usize].iter().rev() {
            for &zone in self.lists.list(below + number) {
                self.entered.insert(zone as u32);
            }
            number >>= 2;
        }
    }

    /// The zones on the lists of the squares in which two cells differ, but for those that hold the other cell.
    #[inline(always)]
    fn differ(&mut self, old: u32, new: u32) {
        self.entered.clear();
        self.left.clear();
        let (mut from, mut to) = (self.grid.number(old), self.grid.number(new));
        let (was, now) = (mirrored(old), mirrored(new));
        // SAFETY: zones are below the capacity.
        let holds = |zone: u8, cell| unsafe { self.bounds.get_unchecked(zone as usize) }.holds(cell);
        for &below in self.grid.below[..=self.grid.shape.k as usize].iter().rev() {
            if from == to {
                break;
            }
            for &zone in self.lists.list(below + to) {
                if !holds(zone, was) {
                    self.entered.insert(zone as u32);
                }
            }
            for &zone in self.lists.list(below + from) {
                if !holds(zone, now) {
                    self.left.insert(zone as u32);
                }
            }
            (from, to) = (from >> 2, to >> 2);
        }
    }
}

impl<const COUNTING: bool> Engine for Squares<COUNTING> {
    fn name(&self) -> &'static str {
        if COUNTING {
            "by hand, counting"
        } else {
            "by hand"
        }
    }

    fn add(&mut self, zone: u32, r: Rectangle) {
        self.zones[zone as usize] = r;
        self.bounds[zone as usize] = Bounds::new(r);
        self.rosters.add(zone, r, &self.cars.cells);
        self.lists.add(zone, self.cut.write(&self.grid, r));
    }

    fn remove(&mut self, zone: u32) {
        self.rosters.remove(zone);
        self.lists.remove(zone, self.cut.write(&self.grid, self.zones[zone as usize]));
    }

    #[inline(always)]
    fn report(&mut self, car: u32, at: Position) -> (&[u32], &[u32]) {
        let (old, new) = self.cars.move_to(car, at);
        if old == new {
            return (&[], &[]);
        }
        if old == ABSENT {
            self.gather(new);
            self.left.clear();
        } else {
            self.differ(old, new);
        }
        self.rosters.turn(car, self.entered.all(), self.left.all());
        (self.entered.all(), self.left.all())
    }

    fn search(&mut self, at: Position) -> &[u32] {
        self.gather(cell(at));
        self.entered.all()
    }

    fn scores(&self, at: Position) -> bool {
        let mut number = self.grid.number(cell(at));
        for &below in self.grid.below[..=self.grid.shape.k as usize].iter().rev() {
            if !self.lists.list(below + number).is_empty() {
                return true;
            }
            number >>= 2;
        }
        false
    }

    fn roster(&mut self, zone: u32) -> &[u32] {
        self.rosters.list(zone)
    }

    fn count(&self, zone: u32) -> u32 {
        self.rosters.count(zone)
    }

    fn holder(&self, zone: u32) -> Standing {
        self.rosters.holder(zone)
    }

    fn where_is(&self, car: u32) -> Position {
        self.cars.where_is(car)
    }

    fn clear(&mut self) {
        self.cars.clear();
        self.rosters.clear();
        self.lists.clear();
    }
}
