//! Who is in which zone: a bit for each zone and car, and, where counted, how many of each team, and who holds it.

use super::cars::inside;
use super::team;
use unwadegiro::{Capacities, Rectangle, Standing, Team};

/// What a zone counts.
#[derive(Clone, Copy, Default)]
struct Tally {
    count: u32,
    cars: [u32; 8],
    holder: u32,
}

/// The team from 1 to 7 with strictly more cars than each other, or 0.
fn leader(cars: &[u32; 8]) -> u32 {
    let most = cars.iter().skip(1).fold(0, |most, &many| most.max(many));
    // one team alone adds less than 32
    let sum: u32 = cars.iter().zip(16..).skip(1).map(|(&many, mark)| if many == most { mark } else { 0 }).sum();
    if most > 0 && sum < 32 {
        sum - 16
    } else {
        0
    }
}

pub struct Rosters<const COUNTING: bool> {
    // words of 64 cars a zone
    words: usize,
    bits: Vec<u64>,
    // of each word, which cars are of each team; given by the cars' numbers, no report changes them
    teams: Vec<[u64; 8]>,
    tallies: Vec<Tally>,
    listed: Vec<u32>,
}

impl<const COUNTING: bool> Rosters<COUNTING> {
    pub fn new(room: Capacities) -> Self {
        let words = (room.cars as usize + 63) / 64;
        let mut teams = vec![[0; 8]; words];
        for car in 0..room.cars {
            teams[car as usize / 64][team(car).number() as usize] |= 1 << (car % 64);
        }
        let zones = room.zones as usize;
        let tallies = vec![Tally::default(); if COUNTING { zones } else { 0 }];
        Rosters { words, bits: vec![0; zones * words], teams, tallies, listed: vec![0; 64 * words] }
    }

    fn row(&self, zone: u32) -> &[u64] {
        let from = zone as usize * self.words;
        // SAFETY: zones are below the capacity.
        unsafe { self.bits.get_unchecked(from..from + self.words) }
    }

    /// Puts a zone's roster: the cars in a rectangle.
    pub fn add(&mut self, zone: u32, r: Rectangle, cells: &[u32]) {
        let from = zone as usize * self.words;
        for (word, cells) in self.bits[from..from + self.words].iter_mut().zip(cells.chunks_exact(64)) {
            *word = inside(r, cells);
        }
        if COUNTING {
            let cars = self.counted(zone);
            self.tallies[zone as usize] = Tally { count: cars.iter().sum(), cars, holder: leader(&cars) };
        }
    }

    pub fn remove(&mut self, zone: u32) {
        let from = zone as usize * self.words;
        self.bits[from..from + self.words].fill(0);
        if COUNTING {
            self.tallies[zone as usize] = Tally::default();
        }
    }

    /// Turns a car's bits for the zones that it entered and left.
    #[inline(always)]
    pub fn turn(&mut self, car: u32, entered: &[u32], left: &[u32]) {
        for &zone in entered {
            self.turn_one(car, zone);
            if COUNTING {
                self.tally(car, zone, 1);
            }
        }
        for &zone in left {
            self.turn_one(car, zone);
            if COUNTING {
                self.tally(car, zone, u32::MAX);
            }
        }
    }

    #[inline(always)]
    fn turn_one(&mut self, car: u32, zone: u32) {
        // SAFETY: zones and cars are below their capacities.
        unsafe { *self.bits.get_unchecked_mut(zone as usize * self.words + car as usize / 64) ^= 1 << (car % 64) };
    }

    /// Moves a zone's counts by one more, or one less.
    #[inline(always)]
    fn tally(&mut self, car: u32, zone: u32, by: u32) {
        // SAFETY: zones are below the capacity.
        let tally = unsafe { self.tallies.get_unchecked_mut(zone as usize) };
        let team = (car % 8) as usize;
        tally.count = tally.count.wrapping_add(by);
        tally.cars[team] = tally.cars[team].wrapping_add(by);
        if team != 0 {
            tally.holder = leader(&tally.cars);
        }
    }

    pub fn list(&mut self, zone: u32) -> &[u32] {
        let (from, mut many) = (zone as usize * self.words, 0);
        for (at, &word) in self.bits[from..from + self.words].iter().enumerate() {
            let mut word = word;
            while word != 0 {
                // SAFETY: there is room for every car.
                unsafe { *self.listed.get_unchecked_mut(many) = 64 * at as u32 + word.trailing_zeros() };
                many += 1;
                word &= word - 1;
            }
        }
        &self.listed[..many]
    }

    pub fn count(&self, zone: u32) -> u32 {
        if COUNTING {
            // SAFETY: zones are below the capacity.
            return unsafe { self.tallies.get_unchecked(zone as usize) }.count;
        }
        self.row(zone).iter().map(|word| word.count_ones()).sum()
    }

    /// A zone's cars of each team, counted from its row.
    fn counted(&self, zone: u32) -> [u32; 8] {
        let mut cars = [0; 8];
        for (word, teams) in self.row(zone).iter().zip(&self.teams) {
            for (many, team) in cars.iter_mut().zip(teams) {
                *many += (word & team).count_ones();
            }
        }
        cars
    }

    pub fn holder(&self, zone: u32) -> Standing {
        let (cars, holder) = if COUNTING {
            // SAFETY: zones are below the capacity.
            let tally = unsafe { self.tallies.get_unchecked(zone as usize) };
            (tally.cars, tally.holder)
        } else {
            let cars = self.counted(zone);
            (cars, leader(&cars))
        };
        Standing { cars, holder: Team::new(holder).filter(|&team| team != Team::SPECTATOR) }
    }

    pub fn clear(&mut self) {
        self.bits.fill(0);
        self.tallies.fill(Tally::default());
    }
}
