//! The calls, and random ones.

use crate::brute::{cell, columns, rows, Brute};
use crate::random::Random;
use unwadegiro::{Capacities, Rectangle, Shape};

/// A call and its numbers. Positions are the floats' bits.
#[derive(Clone, Copy, Debug)]
pub enum Call {
    Open { shape: Shape, room: Capacities },
    Add { zone: u32, r: Rectangle },
    Remove { zone: u32 },
    Ride { zone: u32, by: [i32; 2] },
    Report { car: u32, team: u32, at: [u32; 2] },
    Leave { car: u32 },
    Search { at: [u32; 2] },
    Scoring { at: [u32; 2] },
    Roster { zone: u32 },
    Count { zone: u32 },
    Holder { zone: u32 },
    Where { car: u32 },
    Sound,
    Lengths { shape: Shape, room: Capacities },
    Number { shape: Shape, level: u32, x: u32, y: u32 },
    Square { shape: Shape, level: u32, number: u32 },
    Cut { shape: Shape, r: Rectangle },
}

/// What is fixed about each kind of call.
pub struct Kind {
    pub name: &'static str,
    /// How many values it answers.
    pub fields: usize,
    /// How many buffers it is lent.
    pub buffers: usize,
    /// The refusals that it meets.
    pub refusals: &'static [u32],
}

const fn kind(name: &'static str, fields: usize, buffers: usize, refusals: &'static [u32]) -> Kind {
    Kind { name, fields, buffers, refusals }
}

pub const KINDS: [Kind; 17] = [
    kind("open", 0, 0, &[1, 2, 3]),
    kind("add", 2, 0, &[3, 4, 6, 9, 12]),
    kind("remove", 0, 0, &[3, 4, 7]),
    kind("ride", 4, 2, &[3, 4, 7, 9, 11, 12]),
    kind("report", 3, 2, &[3, 5, 15, 10, 11]),
    kind("leave", 2, 1, &[3, 5, 8, 11]),
    kind("search", 2, 1, &[3, 10, 11]),
    kind("scoring", 2, 0, &[3, 10]),
    kind("roster", 1, 1, &[3, 4, 7, 11]),
    kind("count", 1, 0, &[3, 4, 7]),
    kind("holder", 9, 0, &[3, 4, 7]),
    kind("where", 2, 0, &[3, 5, 8]),
    kind("sound", 1, 0, &[3]),
    kind("lengths", 8, 0, &[1, 2]),
    kind("number", 1, 0, &[1, 13]),
    kind("square", 3, 0, &[1, 13]),
    kind("cut", 1, 1, &[1, 9, 11]),
];

impl Call {
    pub fn index(&self) -> usize {
        match self {
            Call::Open { .. } => 0,
            Call::Add { .. } => 1,
            Call::Remove { .. } => 2,
            Call::Ride { .. } => 3,
            Call::Report { .. } => 4,
            Call::Leave { .. } => 5,
            Call::Search { .. } => 6,
            Call::Scoring { .. } => 7,
            Call::Roster { .. } => 8,
            Call::Count { .. } => 9,
            Call::Holder { .. } => 10,
            Call::Where { .. } => 11,
            Call::Sound => 12,
            Call::Lengths { .. } => 13,
            Call::Number { .. } => 14,
            Call::Square { .. } => 15,
            Call::Cut { .. } => 16,
        }
    }

    pub fn kind(&self) -> &'static Kind {
        &KINDS[self.index()]
    }

    /// Whether it is lent a town's tables, and asks what stands in them.
    pub fn asks_town(&self) -> bool {
        (1..=12).contains(&self.index())
    }

    /// Which tables it may change, in their order.
    pub fn changes(&self) -> [bool; 8] {
        match self {
            Call::Open { .. } => [true; 8],
            Call::Add { .. } | Call::Remove { .. } | Call::Ride { .. } => {
                [false, true, false, false, true, true, true, true]
            }
            Call::Report { .. } => [false, false, true, true, false, false, true, true],
            Call::Leave { .. } => [false, false, true, false, false, false, true, true],
            _ => [false; 8],
        }
    }
}

/// How large a town is.
#[derive(Clone, Copy, PartialEq)]
pub enum Size {
    Small,
    Middle,
    Large,
}

pub fn shape(random: &mut Random, size: Size) -> Shape {
    let k = random.below(6);
    let most = 256 >> k;
    let mut side = || match size {
        Size::Small => random.between(1, most.min((16 >> k).max(2))),
        Size::Middle => random.between(1, most.min((64 >> k).max(3))),
        Size::Large => {
            if random.once_in(2) {
                most
            } else {
                random.between(1, most)
            }
        }
    };
    let (p, q) = (side(), side());
    Shape { k, p, q }
}

pub fn capacities(random: &mut Random, size: Size) -> Capacities {
    let [zones, cars, entries] = match size {
        Size::Small => [8, 12, 400],
        Size::Middle => [40, 100, 3000],
        Size::Large => [256, 1024, 16384],
    };
    let mut room = |most: u32| match random.below(8) {
        0 => 1,
        1 | 2 => most,
        _ => random.between(1, most),
    };
    Capacities { zones: room(zones), cars: room(cars), entries: room(entries) }
}

/// A number near the edges of 32 bits.
fn edge(random: &mut Random) -> u32 {
    match random.below(5) {
        0 => u32::MAX - random.below(4),
        1 => 1 << random.below(32),
        2 => (1u32 << 31).wrapping_sub(random.below(3)),
        3 => random.below(4),
        _ => random.bits(),
    }
}

/// A shape that may be beyond the bounds.
fn any_shape(random: &mut Random) -> Shape {
    let mut s = shape(random, Size::Middle);
    if random.once_in(4) {
        match random.below(6) {
            0 => s.k = random.between(6, 40),
            1 => s.p = 0,
            2 => s.q = 0,
            3 => s.p = (256 >> s.k) + 1,
            4 => s.q = (256 >> s.k) + 1,
            // a product that wraps to a small one
            _ => s.p = (1u32 << 31).rotate_left(random.below(2)) >> s.k | 1,
        }
    }
    if random.once_in(12) {
        s = Shape { k: edge(random), p: edge(random), q: edge(random) };
    }
    s
}

fn any_capacities(random: &mut Random) -> Capacities {
    let mut room = capacities(random, Size::Large);
    match random.below(12) {
        0 => room.zones = random.pick(&[0, 257, u32::MAX]),
        1 => room.cars = random.pick(&[0, 1025, u32::MAX]),
        2 => room.entries = random.pick(&[0, 16385, u32::MAX]),
        _ => {}
    }
    room
}

/// A number below `room`, the last one more often, or now and then one that is not below.
fn any_below(random: &mut Random, room: u32) -> u32 {
    match random.below(24) {
        0 => random.pick(&[room, room + 1, u32::MAX, 256, 1024]).max(room),
        1..=2 => room - 1,
        _ => random.below(room),
    }
}

pub fn rectangle(random: &mut Random, s: Shape) -> Rectangle {
    let stretch = |random: &mut Random, side: u32| {
        let most = match random.below(4) {
            0 => side,
            1 => side.min(3),
            _ => (side / 3).max(1),
        };
        let many = random.between(1, most);
        (random.between(0, side - many), many)
    };
    let ((a, w), (b, h)) = (stretch(random, columns(s)), stretch(random, rows(s)));
    let mut r = Rectangle { a, b, w, h };
    match random.below(40) {
        0 => r = Rectangle { a: 0, b: 0, w: columns(s), h: rows(s) },
        // along the blocks
        1..=4 => {
            let side = 1 << s.k;
            r = Rectangle { a: a / side * side, b: b / side * side, w: side, h: side };
        }
        // past the edge by one
        5 => r.w = columns(s) - a + 1,
        6 => r.h = rows(s) - b + 1,
        7 => r.w = 0,
        8 => r.h = 0,
        // sums that wrap
        9 => r.a = u32::MAX - random.below(w.max(2)),
        10 => r.b = u32::MAX - random.below(h.max(2)),
        11 => r.w = 0u32.wrapping_sub(a).wrapping_add(random.below(3)),
        12 => r.h = 0u32.wrapping_sub(b).wrapping_add(random.below(3)),
        13 => r = Rectangle { a: edge(random), b: edge(random), w: edge(random), h: edge(random) },
        _ => {}
    }
    r
}

/// A float in a cell: its first number, the last before the next cell, or one between.
fn within(random: &mut Random, cell: u32) -> u32 {
    let first = (cell as f32).to_bits();
    let last = ((cell + 1) as f32).to_bits() - 1;
    if cell == 0 && random.once_in(4) {
        return 0x8000_0000;
    }
    match random.below(4) {
        0 => first,
        1 => last,
        _ => random.between(first, last),
    }
}

/// A float in a cell on a side. The last cell has the side's end too.
fn along(random: &mut Random, cell: u32, side: u32) -> u32 {
    if cell == side - 1 && random.once_in(3) {
        return (side as f32).to_bits();
    }
    within(random, cell)
}

/// A NaN's bits: of either sign, quiet or signalling, with the least payload, the largest, or any.
pub fn nan(random: &mut Random) -> u32 {
    let (sign, quiet) = (random.below(2), random.below(2));
    // without the quiet bit, a payload of 0 would be an infinity's
    let least = 1 - quiet;
    let payload = match random.below(4) {
        0 => least,
        1 => 0x3F_FFFF,
        _ => random.between(least, 0x3F_FFFF),
    };
    sign << 31 | 0x7F80_0000 | quiet << 22 | payload
}

/// Whether bits are a NaN's, told without a float.
pub fn is_nan(bits: u32) -> bool {
    bits & 0x7FFF_FFFF > 0x7F80_0000
}

/// A coordinate's bits that the map may not have.
fn odd(random: &mut Random, side: u32) -> u32 {
    let end = (side as f32).to_bits();
    match random.below(12) {
        0 => end,
        1 => end - 1,
        2 => end + 1,
        3 => 0x8000_0001,
        4 => 0x8000_0000 | within(random, 0),
        5 => random.pick(&[0x7F80_0000, 0xFF80_0000]),
        6..=7 => nan(random),
        8 => random.between(1, 0x7F_FFFF),
        9 => random.pick(&[1, 0x007F_FFFF, 0x0080_0000, 0x3F7F_FFFF, 0x3F80_0000, 0x437F_FFFF, 0x4380_0000]),
        10 => 0x7F7F_FFFF,
        _ => random.bits(),
    }
}

/// A position for a report: a step, a gate, a place in the same cell, or any.
pub fn position(random: &mut Random, s: Shape, from: Option<[u32; 2]>) -> [u32; 2] {
    let (wide, high) = (columns(s), rows(s));
    let old = from.and_then(|at| cell(s, at)).filter(|_| !random.once_in(5));
    let (x, y) = match (old, random.below(10)) {
        (None, _) => (random.below(wide), random.below(high)),
        (Some(same), 0..=1) => same,
        // a gate: the same place in another block
        (Some((x, y)), 2..=3) => {
            let low = (1 << s.k) - 1;
            ((random.below(s.p) << s.k) + (x & low), (random.below(s.q) << s.k) + (y & low))
        }
        // to a wall, or along it
        (Some((x, y)), 4) => {
            (if random.once_in(2) { wide - 1 } else { x }, if random.once_in(2) { high - 1 } else { y })
        }
        (Some((x, y)), _) => {
            let mut step = |at: u32, side: u32| (at + random.below(3)).saturating_sub(1).min(side - 1);
            (step(x, wide), step(y, high))
        }
    };
    let mut at = [along(random, x, wide), along(random, y, high)];
    if random.once_in(12) {
        at[0] = odd(random, wide);
    }
    if random.once_in(12) {
        at[1] = odd(random, high);
    }
    at
}

/// A team for a report: mostly the one that the car has, or any where it is off the map; at times one above 7.
fn team(random: &mut Random, own: Option<u32>) -> u32 {
    match random.below(24) {
        0 => random.pick(&[8, 9, 263, 1 << 31, u32::MAX - 1, u32::MAX]),
        1 => random.below(8),
        _ => own.unwrap_or_else(|| random.below(8)),
    }
}

/// A call that is lent no town's tables, or opens one.
fn call_on_shape(random: &mut Random, town: &Brute) -> Call {
    let shape = any_shape(random);
    let side = |random: &mut Random| if random.once_in(8) { edge(random) } else { random.below(256) };
    match random.below(5) {
        0 => Call::Lengths { shape, room: any_capacities(random) },
        1 => {
            let level = if random.once_in(6) { edge(random) } else { random.below(shape.k.min(5) + 1) };
            let aligned = |at: u32| {
                if level <= shape.k && shape.k <= 5 {
                    at >> (shape.k - level) << (shape.k - level)
                } else {
                    at
                }
            };
            let (mut x, mut y) = (side(random), side(random));
            if !random.once_in(5) {
                (x, y) = (aligned(x), aligned(y));
            }
            if !random.once_in(5) && crate::brute::allowed(shape) {
                (x, y) = (x % columns(shape), y % rows(shape));
            }
            Call::Number { shape, level, x, y }
        }
        2 => {
            let level = if random.once_in(8) { edge(random) } else { random.below(shape.k.min(5) + 1) };
            let inside = crate::brute::allowed(shape) && level <= shape.k;
            let number = match random.below(6) {
                0 if inside => crate::brute::squares_on(shape, level) + random.below(2),
                1 => edge(random),
                _ if inside => random.below(crate::brute::squares_on(shape, level)),
                _ => random.below(70000),
            };
            Call::Square { shape, level, number }
        }
        3 => {
            let fitting = if crate::brute::allowed(shape) { shape } else { town.shape };
            Call::Cut { shape, r: rectangle(random, fitting) }
        }
        _ => open(random, town),
    }
}

/// An open that is mostly refused: an accepted one empties the town.
fn open(random: &mut Random, town: &Brute) -> Call {
    let (mut shape, mut room) = (town.shape, town.room);
    match random.below(16) {
        0..=5 => shape = any_shape(random),
        6..=10 => room = any_capacities(random),
        11 => (shape, room) = (any_shape(random), any_capacities(random)),
        // turned: the lengths stay
        12 => (shape.p, shape.q) = (shape.q, shape.p),
        13 => {}
        _ => room.entries = (room.entries + 1).min(16384),
    }
    Call::Open { shape, room }
}

/// A zone that stands, if one is found soon.
fn standing(random: &mut Random, town: &Brute) -> u32 {
    let zone = random.below(town.room.zones);
    match town.zones[zone as usize] {
        Some(_) => zone,
        None => random.below(town.room.zones),
    }
}

/// How far a zone rides on one side of the town: not at all, a step, its width, to an end, past one, as far as the town is
/// wide, or any number.
fn way(random: &mut Random, from: u32, many: u32, side: u32) -> i32 {
    let (west, east) = (0i32.wrapping_sub(from as i32), (side as i32).wrapping_sub(from.wrapping_add(many) as i32));
    match random.below(24) {
        0..=7 => 0,
        8..=11 => random.pick(&[-1, 1]),
        12 => random.pick(&[many as i32, 0i32.wrapping_sub(many as i32)]),
        13..=15 => random.pick(&[west, east]),
        16 => random.pick(&[west.wrapping_sub(1), east.wrapping_add(1)]),
        17 => random.pick(&[side as i32, 0i32.wrapping_sub(side as i32)]),
        18 => random.pick(&[i32::MIN, i32::MIN + 1, i32::MAX, -256, 256]),
        19 => edge(random) as i32,
        _ if west < east => west.wrapping_add(random.below((east as i64 - west as i64) as u32 + 1) as i32),
        _ => 0,
    }
}

fn ride(random: &mut Random, town: &Brute) -> Call {
    let zone = if random.once_in(6) { any_below(random, town.room.zones) } else { standing(random, town) };
    let r = town.zones.get(zone as usize).copied().flatten().unwrap_or(Rectangle { a: 0, b: 0, w: 1, h: 1 });
    let by = [way(random, r.a, r.w, columns(town.shape)), way(random, r.b, r.h, rows(town.shape))];
    Call::Ride { zone, by }
}

/// A random call on a town.
pub fn call(random: &mut Random, town: &Brute) -> Call {
    let s = town.shape;
    match random.below(100) {
        0..=36 => {
            let car = any_below(random, town.room.cars);
            let from = town.cars.get(car as usize).copied().flatten();
            let team = team(random, from.map(|from| from.team));
            Call::Report { car, team, at: position(random, s, from.map(|from| from.at)) }
        }
        37..=44 => ride(random, town),
        45..=54 => {
            let mut zone = any_below(random, town.room.zones);
            if !random.once_in(6) {
                zone = town.zones.iter().position(Option::is_none).map_or(zone, |at| at as u32);
            }
            Call::Add { zone, r: rectangle(random, s) }
        }
        55..=59 => {
            let zone = if random.once_in(3) { any_below(random, town.room.zones) } else { standing(random, town) };
            Call::Remove { zone }
        }
        60..=64 => Call::Leave { car: any_below(random, town.room.cars) },
        65..=74 => {
            let car = random.below(town.room.cars);
            let at = position(random, s, town.cars[car as usize].map(|from| from.at));
            if random.once_in(2) {
                Call::Search { at }
            } else {
                Call::Scoring { at }
            }
        }
        75..=83 => {
            let zone = if random.once_in(3) { any_below(random, town.room.zones) } else { standing(random, town) };
            match random.below(3) {
                0 => Call::Roster { zone },
                1 => Call::Count { zone },
                _ => Call::Holder { zone },
            }
        }
        84..=88 => Call::Where { car: any_below(random, town.room.cars) },
        89..=91 => Call::Sound,
        _ => call_on_shape(random, town),
    }
}
