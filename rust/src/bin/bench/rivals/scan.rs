//! Every zone that stands compared with the cells, sixteen at once where the compiler does so.

use super::cars::{cell, Cars, Zones, ABSENT};
use super::rosters::Rosters;
use super::Engine;
use unwadegiro::{Capacities, Position, Rectangle, Standing};

const LANES: usize = 16;
type Lanes = [u8; LANES];

/// The rectangles of sixteen zones that stand.
#[derive(Clone, Copy, Default)]
struct Group {
    a: Lanes,
    b: Lanes,
    // width and height less 1
    w: Lanes,
    h: Lanes,
}

impl Group {
    /// Whether each zone holds a cell: 1 or 0.
    #[inline(always)]
    fn hold(&self, cell: u32) -> Lanes {
        let (x, y, mut out) = (cell as u8, (cell >> 16) as u8, [0; LANES]);
        for (at, out) in out.iter_mut().enumerate() {
            let columns = x.wrapping_sub(self.a[at]) <= self.w[at];
            let rows = y.wrapping_sub(self.b[at]) <= self.h[at];
            *out = (columns & rows) as u8;
        }
        out
    }
}

/// The zones that stand, lowest first, and their rectangles.
#[derive(Default)]
struct Table {
    zones: Vec<(u32, Rectangle)>,
    groups: Vec<Group>,
    // 1 for each that the last look found, 0 for each other
    what: Vec<Lanes>,
}

impl Table {
    fn find(&self, zone: u32) -> usize {
        self.zones.partition_point(|&(other, _)| other < zone)
    }

    fn add(&mut self, zone: u32, r: Rectangle) {
        let at = self.find(zone);
        self.zones.insert(at, (zone, r));
        self.group();
    }

    fn remove(&mut self, zone: u32) {
        let at = self.find(zone);
        self.zones.remove(at);
        self.group();
    }

    fn group(&mut self) {
        self.groups.clear();
        for zones in self.zones.chunks(LANES) {
            let mut group = Group::default();
            for (at, (_, r)) in zones.iter().enumerate() {
                (group.a[at], group.b[at]) = (r.a as u8, r.b as u8);
                (group.w[at], group.h[at]) = ((r.w - 1) as u8, (r.h - 1) as u8);
            }
            self.groups.push(group);
        }
        self.what.resize(self.groups.len(), [0; LANES]);
    }

    /// Looks which zones hold a cell. Whether any does.
    #[inline(always)]
    fn hold(&mut self, cell: u32) -> bool {
        let mut any = [0; LANES];
        for (group, what) in self.groups.iter().zip(&mut self.what) {
            *what = group.hold(cell);
            any.iter_mut().zip(what).for_each(|(any, what)| *any |= *what);
        }
        any != [0; LANES]
    }

    /// Looks which zones hold one of two cells and not the other. Whether any does.
    #[inline(always)]
    fn differ(&mut self, old: u32, new: u32) -> bool {
        let (x, y, was_x, was_y) = (new as u8, (new >> 16) as u8, old as u8, (old >> 16) as u8);
        let mut any = [0; LANES];
        for (group, what) in self.groups.iter().zip(&mut self.what) {
            for at in 0..LANES {
                let (a, b, w, h) = (group.a[at], group.b[at], group.w[at], group.h[at]);
                let now = (x.wrapping_sub(a) <= w) & (y.wrapping_sub(b) <= h);
                let was = (was_x.wrapping_sub(a) <= w) & (was_y.wrapping_sub(b) <= h);
                what[at] = (now != was) as u8;
                any[at] |= what[at];
            }
        }
        any != [0; LANES]
    }

    /// The zones that the last look found.
    #[inline(always)]
    fn each(&self, mut found: impl FnMut(u32, &Rectangle)) {
        for (zones, what) in self.zones.chunks(LANES).zip(&self.what) {
            let mut bytes = u128::from_le_bytes(*what);
            while bytes != 0 {
                let at = bytes.trailing_zeros() as usize / 8;
                // the lanes behind the last zone are of no zone
                if let Some((zone, r)) = zones.get(at) {
                    found(*zone, r);
                }
                bytes &= !(0xFF << (8 * at));
            }
        }
    }
}

pub struct Scan {
    cars: Cars,
    rosters: Rosters<false>,
    table: Table,
    entered: Zones,
    left: Zones,
}

impl Scan {
    pub fn new(room: Capacities) -> Scan {
        let (cars, rosters) = (Cars::new(room.cars), Rosters::new(room));
        Scan { cars, rosters, table: Table::default(), entered: Zones::new(), left: Zones::new() }
    }
}

impl Engine for Scan {
    fn name(&self) -> &'static str {
        "scan"
    }

    fn add(&mut self, zone: u32, r: Rectangle) {
        self.rosters.add(zone, r, &self.cars.cells);
        self.table.add(zone, r);
    }

    fn remove(&mut self, zone: u32) {
        self.rosters.remove(zone);
        self.table.remove(zone);
    }

    #[inline(always)]
    fn report(&mut self, car: u32, at: Position) -> (&[u32], &[u32]) {
        self.entered.clear();
        self.left.clear();
        let (old, new) = self.cars.move_to(car, at);
        if old == new {
            return (&[], &[]);
        }
        let some = if old == ABSENT { self.table.hold(new) } else { self.table.differ(old, new) };
        if some {
            let (x, y, entered, left) = (new & 0xFFFF, new >> 16, &mut self.entered, &mut self.left);
            self.table.each(|zone, r| {
                let now = x.wrapping_sub(r.a) < r.w && y.wrapping_sub(r.b) < r.h;
                let list = if now { &mut *entered } else { &mut *left };
                list.push(zone);
            });
            self.rosters.turn(car, self.entered.all(), self.left.all());
        }
        (self.entered.all(), self.left.all())
    }

    fn search(&mut self, at: Position) -> &[u32] {
        self.entered.clear();
        if self.table.hold(cell(at)) {
            self.table.each(|zone, _| self.entered.push(zone));
        }
        self.entered.all()
    }

    fn scores(&self, at: Position) -> bool {
        let at = cell(at);
        let (last, others) = match self.table.groups.split_last() {
            Some(both) => both,
            None => return false,
        };
        let many = self.table.zones.len() - LANES * others.len();
        others.iter().any(|group| group.hold(at) != [0; LANES]) || last.hold(at)[..many].contains(&1)
    }

    fn roster(&mut self, zone: u32) -> &[u32] {
        self.rosters.list(zone)
    }

    fn count(&self, zone: u32) -> u32 {
        self.rosters.count(zone)
    }

    fn holder(&self, zone: u32) -> Standing {
        self.rosters.holder(zone)
    }

    fn where_is(&self, car: u32) -> Position {
        self.cars.where_is(car)
    }

    fn clear(&mut self) {
        self.cars.clear();
        self.rosters.clear();
        self.table = Table::default();
    }
}
