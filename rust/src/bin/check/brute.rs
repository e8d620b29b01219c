//! A town by the definitions of the requests: zones, last positions and teams are kept, everything else is worked out each
//! time.

use crate::calls::Call;
use std::collections::{HashMap, HashSet};
use unwadegiro::{Capacities, Rectangle, Shape, LEVEL};

/// A cell: its column and row.
pub type Cell = (u32, u32);

/// Teams are numbered from 0 to this.
pub const LAST_TEAM: u32 = 7;

/// How many numbers a zone has in the tallies: its count, one for each team, and its holder.
pub const TALLY: usize = 10;

pub fn allowed(s: Shape) -> bool {
    let within = |blocks: u32| blocks >= 1 && (blocks as u64) << s.k <= 256;
    s.k <= 5 && within(s.p) && within(s.q)
}

pub fn roomy(room: Capacities) -> bool {
    (1..=256).contains(&room.zones) && (1..=1024).contains(&room.cars) && (1..=16384).contains(&room.entries)
}

pub fn columns(s: Shape) -> u32 {
    s.p << s.k
}

pub fn rows(s: Shape) -> u32 {
    s.q << s.k
}

/// How many squares a level has.
pub fn squares_on(s: Shape, level: u32) -> u32 {
    s.p * s.q * 4u32.pow(level)
}

/// The number of the square of a level that has a cell: 4^level times the block, and the local number.
pub fn number(s: Shape, level: u32, (x, y): Cell) -> u32 {
    let side = 1 << s.k;
    let block = x / side + y / side * s.p;
    let top = |low: u32| low >> (s.k - level);
    let (top_x, top_y) = (top(x % side), top(y % side));
    let mut local = 0;
    for rank in 0..level {
        local += (top_x >> rank & 1) << (2 * rank);
        local += (top_y >> rank & 1) << (2 * rank + 1);
    }
    4u32.pow(level) * block + local
}

pub fn fits(s: Shape, r: Rectangle) -> bool {
    let within = |from: u32, many: u32, side: u32| many != 0 && from as u64 + many as u64 <= side as u64;
    within(r.a, r.w, columns(s)) && within(r.b, r.h, rows(s))
}

pub fn holds(r: Rectangle, (x, y): Cell) -> bool {
    let within = |from: u32, many: u32, at: u32| from <= at && (at as u64) < from as u64 + many as u64;
    within(r.a, r.w, x) && within(r.b, r.h, y)
}

/// Whether the square with this corner and side lies wholly inside: its first and last cell do.
fn inside(r: Rectangle, (x, y): Cell, side: u32) -> bool {
    holds(r, (x, y)) && holds(r, (x + side - 1, y + side - 1))
}

/// The cut of a rectangle that fits, every square of every level tested.
pub fn cut(s: Shape, r: Rectangle) -> Vec<u32> {
    let mut all = Vec::new();
    for level in 0..=s.k {
        let side = 1 << (s.k - level);
        let first = all.len();
        for y in (0..rows(s)).step_by(side as usize) {
            for x in (0..columns(s)).step_by(side as usize) {
                let parent = (x - x % (2 * side), y - y % (2 * side));
                if inside(r, (x, y), side) && (level == 0 || !inside(r, parent, 2 * side)) {
                    all.push(level * LEVEL + number(s, level, (x, y)));
                }
            }
        }
        all[first..].sort_unstable();
    }
    all
}

/// The cell of a coordinate by its bits, none where it is not on the map. The value is n / 2^149 in whole numbers. At the
/// side's end it is in the last cell.
pub fn coordinate(bits: u32, side: u32) -> Option<u32> {
    let (sign, e, f) = (bits >> 31, bits >> 23 & 255, bits & 0x7F_FFFF);
    let zero = e == 0 && f == 0;
    if sign == 1 && !zero || e == 255 {
        return None;
    }
    let (n, doubled) = if e == 0 { (f as u64, 0) } else { (0x80_0000 + f as u64, e - 1) };
    // floor(n * 2^doubled / 2^149), and whether that is all of it; n is below 2^24
    let (floor, whole) = match doubled {
        0..=124 => (0, n == 0),
        125..=149 => (n >> (149 - doubled), n % (1 << (149 - doubled)) == 0),
        150..=170 => (n << (doubled - 149), true),
        _ => (u64::MAX, true),
    };
    let at_end = floor == side as u64 && whole;
    if at_end {
        return Some(side - 1);
    }
    (floor < side as u64).then_some(floor as u32)
}

/// The cell of a position by its bits.
pub fn cell(s: Shape, at: [u32; 2]) -> Option<Cell> {
    Some((coordinate(at[0], columns(s))?, coordinate(at[1], rows(s))?))
}

/// What a call answers: a refusal or 0, its values, and the lists that it writes.
#[derive(Debug, Default, PartialEq)]
pub struct Answer {
    pub refusal: u32,
    pub values: Vec<u32>,
    pub lists: Vec<Vec<u32>>,
}

fn refused(refusal: u32) -> Answer {
    Answer { refusal, ..Answer::default() }
}

fn done(values: Vec<u32>, lists: Vec<Vec<u32>>) -> Answer {
    Answer { refusal: 0, values, lists }
}

fn count(list: &[u32]) -> u32 {
    list.len() as u32
}

/// The team from 1 on that has more cars than each other from 1 on, 0 where there is none. `cars` has one number a team.
fn holder(cars: &[u32]) -> u32 {
    let leads = |&team: &usize| (1..cars.len()).all(|other| other == team || cars[other] < cars[team]);
    (1..cars.len()).find(leads).unwrap_or(0) as u32
}

/// A car on the map: its position's bits, and its team, which in unsound tables may be above 7.
#[derive(Clone, Copy, Debug)]
pub struct Car {
    pub at: [u32; 2],
    pub team: u32,
}

#[derive(Clone, Debug)]
pub struct Brute {
    pub shape: Shape,
    pub room: Capacities,
    pub zones: Vec<Option<Rectangle>>,
    pub cars: Vec<Option<Car>>,
    // cuts worked out before: a cut follows from shape and rectangle alone
    cuts: HashMap<Rectangle, Vec<u32>>,
}

impl Brute {
    pub fn new(shape: Shape, room: Capacities) -> Brute {
        let (zones, cars) = (vec![None; room.zones as usize], vec![None; room.cars as usize]);
        Brute { shape, room, zones, cars, cuts: HashMap::new() }
    }

    pub fn cut(&mut self, r: Rectangle) -> &[u32] {
        if self.cuts.len() > 2000 {
            self.cuts.clear();
        }
        let shape = self.shape;
        self.cuts.entry(r).or_insert_with(|| cut(shape, r))
    }

    /// How many entries the standing zones have.
    pub fn standing(&mut self) -> u32 {
        let mut sum = 0;
        for at in 0..self.zones.len() {
            if let Some(r) = self.zones[at].filter(|&r| fits(self.shape, r)) {
                sum += count(self.cut(r));
            }
        }
        sum
    }

    pub fn zones_at(&self, at: Cell) -> Vec<u32> {
        let held = |zone: &u32| self.zones[*zone as usize].is_some_and(|r| holds(r, at));
        (0..self.room.zones).filter(held).collect()
    }

    pub fn car_cell(&self, car: u32) -> Option<Cell> {
        self.cars[car as usize].and_then(|car| cell(self.shape, car.at))
    }

    pub fn in_zone(&self, zone: u32, car: u32) -> bool {
        match (self.zones[zone as usize], self.car_cell(car)) {
            (Some(r), Some(at)) => holds(r, at),
            _ => false,
        }
    }

    pub fn roster(&self, r: Rectangle) -> Vec<u32> {
        (0..self.room.cars).filter(|&car| self.car_cell(car).is_some_and(|at| holds(r, at))).collect()
    }

    /// A zone's numbers, each car looked for; all 0 where it does not stand.
    pub fn tally(&self, zone: u32) -> [u32; TALLY] {
        let inside = self.zones[zone as usize].map_or(vec![], |r| self.roster(r));
        let mut all = [0; TALLY];
        all[0] = count(&inside);
        for team in 0..=LAST_TEAM {
            let of_team = |car: &&u32| self.cars[**car as usize].is_some_and(|car| car.team == team);
            all[1 + team as usize] = inside.iter().filter(of_team).count() as u32;
        }
        all[TALLY - 1] = holder(&all[1..TALLY - 1]);
        all
    }

    /// Twice the levels on which two cells lie in different squares.
    fn differing(&self, old: Cell, new: Cell) -> u32 {
        let differ = |&level: &u32| number(self.shape, level, old) != number(self.shape, level, new);
        2 * count(&(0..=self.shape.k).filter(differ).collect::<Vec<_>>())
    }

    fn add(&mut self, zone: u32, r: Rectangle) -> Answer {
        if zone >= self.room.zones {
            return refused(4);
        }
        if self.zones[zone as usize].is_some() {
            return refused(6);
        }
        if !fits(self.shape, r) {
            return refused(9);
        }
        let squares = count(self.cut(r));
        if self.standing() + squares > self.room.entries {
            return refused(12);
        }
        done(vec![squares, count(&self.roster(r))], vec![])
    }

    fn standing_zone(&self, zone: u32) -> Result<Rectangle, u32> {
        let record = self.zones.get(zone as usize).ok_or(4u32)?;
        record.ok_or(7)
    }

    fn placed_car(&self, car: u32) -> Result<Car, u32> {
        let record = self.cars.get(car as usize).ok_or(5u32)?;
        record.ok_or(8)
    }

    fn short(&self, buffers: &[usize]) -> bool {
        buffers.iter().any(|&length| length < self.room.zones as usize)
    }

    /// The rectangle of a zone that rides, by sums of whole numbers; none where a corner would be below 0 or past 32 bits.
    fn ridden(r: Rectangle, by: [i32; 2]) -> Option<Rectangle> {
        let moved = |from: u32, by: i32| u32::try_from(from as i64 + by as i64).ok();
        Some(Rectangle { a: moved(r.a, by[0])?, b: moved(r.b, by[1])?, ..r })
    }

    fn ride(&mut self, zone: u32, by: [i32; 2], buffers: &[usize]) -> Answer {
        let old = match self.standing_zone(zone) {
            Ok(r) => r,
            Err(refusal) => return refused(refusal),
        };
        let Some(new) = Brute::ridden(old, by).filter(|&r| fits(self.shape, r)) else { return refused(9) };
        if buffers.iter().any(|&length| length < self.room.cars as usize) {
            return refused(11);
        }
        // a zone that does not fit stands on unsound tables alone, where the numbers mean nothing
        let was = if fits(self.shape, old) { self.cut(old).to_vec() } else { vec![] };
        let is = self.cut(new).to_vec();
        if self.standing() - count(&was) + count(&is) > self.room.entries {
            return refused(12);
        }
        let without = |list: &[u32], other: &[u32]| -> Vec<u32> {
            let other: HashSet<u32> = other.iter().copied().collect();
            list.iter().copied().filter(|number| !other.contains(number)).collect()
        };
        let (before, after) = (self.roster(old), self.roster(new));
        let (entered, left) = (without(&after, &before), without(&before, &after));
        let values = [without(&was, &is), without(&is, &was), entered.clone(), left.clone()];
        done(values.map(|list| count(&list)).to_vec(), vec![entered, left])
    }

    fn report(&self, car: u32, team: u32, at: [u32; 2], buffers: &[usize]) -> Answer {
        if car >= self.room.cars {
            return refused(5);
        }
        if team > LAST_TEAM || self.cars[car as usize].is_some_and(|car| car.team != team) {
            return refused(15);
        }
        let Some(new) = cell(self.shape, at) else { return refused(10) };
        if self.short(buffers) {
            return refused(11);
        }
        let holding = self.zones_at(new);
        let Some(old) = self.car_cell(car) else {
            return done(vec![self.shape.k + 1, count(&holding), 0], vec![holding, vec![]]);
        };
        let held = self.zones_at(old);
        let without = |list: &[u32], other: &[u32]| -> Vec<u32> {
            list.iter().copied().filter(|zone| !other.contains(zone)).collect()
        };
        let (entered, left) = (without(&holding, &held), without(&held, &holding));
        done(vec![self.differing(old, new), count(&entered), count(&left)], vec![entered, left])
    }

    fn leave(&self, car: u32, buffers: &[usize]) -> Answer {
        if let Err(refusal) = self.placed_car(car) {
            return refused(refusal);
        }
        if self.short(buffers) {
            return refused(11);
        }
        let left: Vec<u32> = (0..self.room.zones).filter(|&zone| self.in_zone(zone, car)).collect();
        done(vec![self.shape.k + 1, count(&left)], vec![left])
    }

    fn search(&self, at: [u32; 2], buffers: &[usize]) -> Answer {
        let Some(at) = cell(self.shape, at) else { return refused(10) };
        if self.short(buffers) {
            return refused(11);
        }
        let found = self.zones_at(at);
        done(vec![self.shape.k + 1, count(&found)], vec![found])
    }

    /// Whether a standing zone's cut has the square of a level in which a cell lies.
    fn in_a_cut(&self, level: u32, (x, y): Cell) -> bool {
        let corner = |side: u32| (x - x % side, y - y % side);
        let side = 1 << (self.shape.k - level);
        let taken =
            |r: Rectangle| inside(r, corner(side), side) && (level == 0 || !inside(r, corner(2 * side), 2 * side));
        self.zones.iter().flatten().any(|&r| taken(r))
    }

    fn scoring(&self, at: [u32; 2]) -> Answer {
        let Some(at) = cell(self.shape, at) else { return refused(10) };
        let k = self.shape.k;
        let levels = (0..=k).find(|up| self.in_a_cut(k - up, at)).map_or(k + 1, |up| up + 1);
        done(vec![!self.zones_at(at).is_empty() as u32, levels], vec![])
    }

    fn list(&self, zone: u32, buffers: &[usize]) -> Answer {
        let r = match self.standing_zone(zone) {
            Ok(r) => r,
            Err(refusal) => return refused(refusal),
        };
        if buffers[0] < self.room.cars as usize {
            return refused(11);
        }
        let cars = self.roster(r);
        done(vec![count(&cars)], vec![cars])
    }

    /// What a call on this town's tables answers; on unsound tables only its refusal means something.
    pub fn answer(&mut self, call: &Call, buffers: &[usize]) -> Answer {
        match *call {
            Call::Add { zone, r } => self.add(zone, r),
            Call::Remove { zone } => match self.standing_zone(zone) {
                Ok(_) => done(vec![], vec![]),
                Err(refusal) => refused(refusal),
            },
            Call::Ride { zone, by } => self.ride(zone, by, buffers),
            Call::Report { car, team, at } => self.report(car, team, at, buffers),
            Call::Leave { car } => self.leave(car, buffers),
            Call::Search { at } => self.search(at, buffers),
            Call::Scoring { at } => self.scoring(at),
            Call::Roster { zone } => self.list(zone, buffers),
            Call::Count { zone } => match self.standing_zone(zone) {
                Ok(_) => done(self.tally(zone)[..1].to_vec(), vec![]),
                Err(refusal) => refused(refusal),
            },
            Call::Holder { zone } => match self.standing_zone(zone) {
                Ok(_) => done(self.tally(zone)[1..].to_vec(), vec![]),
                Err(refusal) => refused(refusal),
            },
            Call::Where { car } => match self.placed_car(car) {
                Ok(car) => done(car.at.to_vec(), vec![]),
                Err(refusal) => refused(refusal),
            },
            Call::Sound => done(vec![1], vec![]),
            _ => unreachable!("a call that asks no town"),
        }
    }

    /// Does what an accepted call does.
    pub fn apply(&mut self, call: &Call) {
        match *call {
            Call::Add { zone, r } => self.zones[zone as usize] = Some(r),
            Call::Remove { zone } => self.zones[zone as usize] = None,
            Call::Ride { zone, by } => {
                let zone = &mut self.zones[zone as usize];
                *zone = zone.and_then(|r| Brute::ridden(r, by));
            }
            Call::Report { car, team, at } => self.cars[car as usize] = Some(Car { at, team }),
            Call::Leave { car } => self.cars[car as usize] = None,
            _ => {}
        }
    }
}

/// What a call answers that asks no town, but a shape and lengths.
pub fn answer_shape(call: &Call, lengths: [usize; 8], buffers: &[usize]) -> Answer {
    let (Call::Open { shape, .. }
    | Call::Lengths { shape, .. }
    | Call::Number { shape, .. }
    | Call::Square { shape, .. }
    | Call::Cut { shape, .. }) = *call
    else {
        unreachable!("a call that asks a town")
    };
    if !allowed(shape) {
        return refused(1);
    }
    match *call {
        Call::Open { room, .. } | Call::Lengths { room, .. } if !roomy(room) => refused(2),
        Call::Open { room, .. } if lengths != crate::layout::lengths(shape, room) => refused(3),
        Call::Open { .. } => done(vec![], vec![]),
        Call::Lengths { room, .. } => {
            done(crate::layout::lengths(shape, room).map(|length| length as u32).to_vec(), vec![])
        }
        Call::Number { level, x, y, .. } => {
            if level > shape.k || x >= columns(shape) || y >= rows(shape) {
                return refused(13);
            }
            let side = 1 << (shape.k - level);
            if x % side != 0 || y % side != 0 {
                return refused(13);
            }
            done(vec![number(shape, level, (x, y))], vec![])
        }
        Call::Square { level, number, .. } => square(shape, level, number),
        Call::Cut { r, .. } => {
            if !fits(shape, r) {
                return refused(9);
            }
            let squares = cut(shape, r);
            if buffers[0] < squares.len() {
                return refused(11);
            }
            done(vec![count(&squares)], vec![squares])
        }
        _ => unreachable!(),
    }
}

/// The square of a number: the one whose corner has it.
fn square(s: Shape, level: u32, wanted: u32) -> Answer {
    if level > s.k || wanted >= squares_on(s, level) {
        return refused(13);
    }
    let side = 1u32 << (s.k - level);
    for y in (0..rows(s)).step_by(side as usize) {
        for x in (0..columns(s)).step_by(side as usize) {
            if number(s, level, (x, y)) == wanted {
                return done(vec![x, y, side], vec![]);
            }
        }
    }
    unreachable!("every number below the count is a square's")
}

#[cfg(test)]
mod tests {
    use super::*;

    const TOWN: Shape = Shape { k: 2, p: 4, q: 4 };

    #[test]
    fn the_documents_numbers() {
        assert_eq!([2, 1, 0].map(|level| number(TOWN, level, (10, 11))), [174, 43, 10]);
        let squares = cut(TOWN, Rectangle { a: 5, b: 2, w: 8, h: 12 });
        assert_eq!([0, 1, 2].map(|level| squares.iter().filter(|&&code| code / LEVEL == level).count()), [2, 10, 24]);
        assert_eq!(cut(TOWN, Rectangle { a: 0, b: 0, w: 1, h: 1 }), [2 * LEVEL]);
        assert_eq!(cut(Shape { k: 0, p: 3, q: 2 }, Rectangle { a: 1, b: 0, w: 2, h: 2 }), [1, 2, 4, 5]);
        let town = Brute::new(TOWN, Capacities { zones: 1, cars: 1, entries: 1 });
        assert_eq!(town.differing((8, 8), (9, 8)), 2);
        assert_eq!(town.differing((1, 1), (5, 1)), 6);
        assert!(allowed(Shape { k: 5, p: 8, q: 1 }) && !allowed(Shape { k: 5, p: 9, q: 1 }));
    }

    fn half(cell: u32) -> u32 {
        (cell as f32 + 0.5).to_bits()
    }

    #[test]
    fn the_numbers_of_a_zone() {
        let mut town = Brute::new(TOWN, Capacities { zones: 2, cars: 3, entries: 64 });
        town.apply(&Call::Add { zone: 1, r: Rectangle { a: 5, b: 2, w: 8, h: 12 } });
        for (car, team, x) in [(0, 7, 4), (1, 0, 5), (2, 2, 12)] {
            town.apply(&Call::Report { car, team, at: [half(x), half(13)] });
        }
        assert_eq!([0, 1].map(|zone| town.tally(zone)), [[0; TALLY], [2, 1, 0, 1, 0, 0, 0, 0, 0, 2]]);
        town.apply(&Call::Report { car: 2, team: 2, at: [half(13), half(13)] });
        town.apply(&Call::Leave { car: 0 });
        assert_eq!([0, 1].map(|zone| town.tally(zone)), [[0; TALLY], [1, 1, 0, 0, 0, 0, 0, 0, 0, 0]]);
        let told = [0, 1, 2].map(|zone| town.answer(&Call::Count { zone }, &[]));
        assert_eq!(told, [refused(7), done(vec![1], vec![]), refused(4)]);
        let told = [0, 1, 2].map(|zone| town.answer(&Call::Holder { zone }, &[]));
        assert_eq!(told, [refused(7), done(vec![1, 0, 0, 0, 0, 0, 0, 0, 0], vec![]), refused(4)]);
    }

    #[test]
    fn a_zone_that_rides() {
        let mut town = Brute::new(TOWN, Capacities { zones: 2, cars: 3, entries: 36 });
        town.apply(&Call::Add { zone: 1, r: Rectangle { a: 5, b: 2, w: 8, h: 12 } });
        for (car, x, y) in [(0, 5, 3), (1, 10, 11), (2, 13, 3)] {
            town.apply(&Call::Report { car, team: 0, at: [half(x), half(y)] });
        }
        let mut told = |x, y| town.answer(&Call::Ride { zone: 1, by: [x, y] }, &[3, 3]);
        assert_eq!(told(1, 0), done(vec![24, 6, 1, 1], vec![vec![2], vec![0]]));
        assert_eq!(told(-5, -2), done(vec![36, 6, 0, 1], vec![vec![], vec![1]]));
        assert_eq!(told(0, 0), done(vec![0, 0, 0, 0], vec![vec![], vec![]]));
        assert_eq!(told(2, 0).values, [30, 30, 1, 1]);
        let refusals =
            [(4, 0), (-6, 0), (0, 3), (0, -3), (i32::MIN, 0), (0, i32::MAX)].map(|(x, y)| told(x, y).refusal);
        assert_eq!((refusals, told(0, 1).refusal), ([9; 6], 12));
        let short = [[2, 3], [3, 2]].map(|room| town.answer(&Call::Ride { zone: 1, by: [1, 0] }, &room).refusal);
        assert_eq!(short, [11, 11]);
        town.apply(&Call::Ride { zone: 1, by: [1, 0] });
        assert_eq!(town.zones[1], Some(Rectangle { a: 6, b: 2, w: 8, h: 12 }));
    }

    #[test]
    fn whether_a_position_scores() {
        let mut town = Brute::new(TOWN, Capacities { zones: 2, cars: 1, entries: 64 });
        town.apply(&Call::Add { zone: 1, r: Rectangle { a: 5, b: 2, w: 8, h: 12 } });
        let mut told = |x, y| town.answer(&Call::Scoring { at: [half(x), half(y)] }, &[]);
        assert_eq!([(5, 3), (6, 2), (10, 11)].map(|(x, y)| told(x, y).values), [[1, 1], [1, 2], [1, 3]]);
        assert_eq!([told(4, 3), told(16, 3)], [done(vec![0, 3], vec![]), refused(10)]);
        // a cell that two zones hold: the smaller square comes first
        town.apply(&Call::Add { zone: 0, r: Rectangle { a: 10, b: 11, w: 1, h: 1 } });
        assert_eq!(town.answer(&Call::Scoring { at: [half(10), half(11)] }, &[]).values, [1, 1]);
    }

    #[test]
    fn the_holder_of_a_zone() {
        assert_eq!(holder(&[9, 0, 0, 0, 0, 0, 0, 0]), 0);
        assert_eq!(holder(&[9, 0, 0, 0, 0, 0, 0, 1]), 7);
        assert_eq!(holder(&[9, 2, 0, 2, 0, 0, 0, 1]), 0);
        assert_eq!(holder(&[0, 3, 2, 2, 0, 0, 0, 0]), 1);
        assert_eq!(holder(&[0, 2, 2, 0, 0, 3, 0, 3]), 0);
    }

    #[test]
    fn the_team_of_a_car() {
        let mut town = Brute::new(TOWN, Capacities { zones: 1, cars: 1, entries: 1 });
        let (on, off) = ([half(1), half(1)], [half(16), half(1)]);
        let got = |town: &mut Brute, car, team, at| town.answer(&Call::Report { car, team, at }, &[0, 0]).refusal;
        assert_eq!([7, 8, u32::MAX].map(|team| got(&mut town, 0, team, on)), [11, 15, 15]);
        assert_eq!([7, 8].map(|team| got(&mut town, 0, team, off)), [10, 15]);
        assert_eq!(got(&mut town, 1, 8, off), 5);
        for stored in [2, 8] {
            town.cars[0] = Some(Car { at: on, team: stored });
            let should = if stored == 2 { [15, 11, 15] } else { [15; 3] };
            assert_eq!([1, 2, 8].map(|team| got(&mut town, 0, team, on)), should);
        }
    }

    #[test]
    fn the_cell_of_a_float() {
        let on = [
            (0x3F7F_FFFF, Some(0)),
            (1, Some(0)),
            (0x8000_0000, Some(0)),
            (0x3F80_0000, Some(1)),
            (0x437F_FFFF, Some(255)),
            (0x4380_0000, Some(255)),
        ];
        let off = [0x4380_0001, 0x8000_0001, 0xBF80_0000, 0x7F80_0000].map(|bits| (bits, None));
        for (bits, cell) in on.into_iter().chain(off) {
            assert_eq!(coordinate(bits, 256), cell);
        }
        for bits in (0..0x4400_0000).step_by(997) {
            let value = f32::from_bits(bits);
            assert_eq!(coordinate(bits, 256), (value <= 256.0).then_some((value as u32).min(255)));
        }
        for side in 1..=256 {
            let end = (side as f32).to_bits();
            let about = [end - 1, end, end + 1].map(|bits| coordinate(bits, side));
            assert_eq!(about, [Some(side - 1), Some(side - 1), None]);
        }
    }
}
