//! What stands in the tables, by docs/LAYOUT.md, worked out from the records.

use crate::brute::{allowed, cell, fits, roomy, squares_on, Brute, Car, LAST_TEAM, TALLY};
use crate::lent::Tables;
use unwadegiro::{Capacities, Rectangle, Shape, LEVEL};

pub const FREE: u32 = u32::MAX;

/// How many squares a town has.
pub fn squares(s: Shape) -> u32 {
    (0..=s.k).map(|level| squares_on(s, level)).sum()
}

/// The lengths of the tables, for a shape and capacities within the bounds.
pub fn lengths(s: Shape, room: Capacities) -> [usize; 8] {
    let Capacities { zones, cars, entries } = room;
    [6, 4 * zones, cars, 2 * cars, squares(s) + 1, entries, zones * cars, TALLY as u32 * zones]
        .map(|length| length as usize)
}

/// The keys of all standing zones, rising, then free marks; and for each place how many keys lie before it. None where
/// they do not fit into the entries.
pub fn lists(town: &mut Brute) -> Option<(Vec<u32>, Vec<u32>)> {
    let shape = town.shape;
    let mut keys = Vec::new();
    for zone in 0..town.zones.len() {
        let Some(r) = town.zones[zone] else { continue };
        for &code in town.cut(r) {
            let below: u32 = (0..code / LEVEL).map(|level| squares_on(shape, level)).sum();
            keys.push((below + code % LEVEL) * 256 + zone as u32);
        }
    }
    let room = town.room.entries as usize;
    if keys.len() > room {
        return None;
    }
    keys.sort_unstable();
    let mut starts = vec![0; squares(shape) as usize + 1];
    for key in &keys {
        starts[(key / 256) as usize + 1] += 1;
    }
    for place in 1..starts.len() {
        starts[place] += starts[place - 1];
    }
    keys.resize(room, FREE);
    Some((starts, keys))
}

/// The rosters, zone by zone.
pub fn rosters(town: &Brute) -> Vec<u8> {
    let mut all = Vec::new();
    for zone in 0..town.room.zones {
        all.extend((0..town.room.cars).map(|car| town.in_zone(zone, car) as u8));
    }
    all
}

/// The tallies, zone by zone.
pub fn tallies(town: &Brute) -> Vec<u32> {
    (0..town.room.zones).flat_map(|zone| town.tally(zone)).collect()
}

/// The records in the tables as lent; none where check 3 does not pass.
pub fn read(tables: &Tables) -> Option<Brute> {
    let &[k, p, q, zones, cars, entries] = tables.head.now() else { return None };
    let (shape, room) = (Shape { k, p, q }, Capacities { zones, cars, entries });
    if !allowed(shape) || !roomy(room) || tables.lent() != lengths(shape, room) {
        return None;
    }
    let mut town = Brute::new(shape, room);
    for (zone, record) in tables.zones.now().chunks(4).enumerate() {
        let r = Rectangle { a: record[0], b: record[1], w: record[2], h: record[3] };
        town.zones[zone] = (r.w != 0).then_some(r);
    }
    for (car, &number) in tables.cars.now().iter().enumerate() {
        let spots = tables.spots.now();
        let at = [spots[2 * car], spots[2 * car + 1]];
        town.cars[car] = number.checked_sub(1).map(|team| Car { at, team });
    }
    Some(town)
}

/// Whether tables that pass check 3 are sound.
pub fn sound(town: &mut Brute, tables: &Tables) -> bool {
    let shape = town.shape;
    if !town.zones.iter().flatten().all(|&r| fits(shape, r)) {
        return false;
    }
    if !town.cars.iter().flatten().all(|car| cell(shape, car.at).is_some() && car.team <= LAST_TEAM) {
        return false;
    }
    match lists(town) {
        None => false,
        Some((starts, entries)) => {
            tables.starts.now() == starts
                && tables.entries.now() == entries
                && tables.rosters.now() == rosters(town)
                && tables.tallies.now() == tallies(town)
        }
    }
}
