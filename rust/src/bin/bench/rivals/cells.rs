//! One list of zones for each unit cell. Equal lists are kept once: a cell has its list's number.

use super::cars::{cell, Cars, Zones, ABSENT};
use super::rosters::Rosters;
use super::Engine;
use std::collections::HashMap;
use unwadegiro::{Capacities, Position, Rectangle, Shape, Standing};

/// The list with no zone.
const EMPTY: u16 = 0;
const UNKNOWN: u16 = u16::MAX;

pub struct Cells {
    cars: Cars,
    rosters: Rosters<false>,
    columns: usize,
    zones: Vec<Rectangle>,
    cells: Vec<u16>,
    lists: Vec<Vec<u8>>,
    // how many cells have each list
    uses: Vec<u32>,
    numbers: HashMap<Vec<u8>, u16>,
    free: Vec<u16>,
    // what a list becomes by the change at hand
    next: Vec<u16>,
    entered: Zones,
    left: Zones,
}

const NOWHERE: Rectangle = Rectangle { a: 0, b: 0, w: 0, h: 0 };

impl Cells {
    pub fn new(s: Shape, room: Capacities) -> Cells {
        let (columns, rows) = ((s.p << s.k) as usize, (s.q << s.k) as usize);
        Cells {
            cars: Cars::new(room.cars),
            rosters: Rosters::new(room),
            columns,
            zones: vec![NOWHERE; room.zones as usize],
            cells: vec![EMPTY; columns * rows],
            lists: vec![Vec::new()],
            uses: vec![(columns * rows) as u32],
            numbers: HashMap::from([(Vec::new(), EMPTY)]),
            free: Vec::new(),
            next: vec![UNKNOWN; UNKNOWN as usize],
            entered: Zones::new(),
            left: Zones::new(),
        }
    }

    /// The number of a list, a new one where it is new.
    fn number(&mut self, list: Vec<u8>) -> u16 {
        if let Some(&number) = self.numbers.get(&list) {
            return number;
        }
        let number = self.free.pop().unwrap_or(self.lists.len() as u16);
        assert!(number != UNKNOWN, "fewer than 65,535 different lists");
        if number as usize == self.lists.len() {
            self.lists.push(Vec::new());
            self.uses.push(0);
        }
        self.lists[number as usize].clone_from(&list);
        self.numbers.insert(list, number);
        number
    }

    /// Changes the list of each cell of a rectangle.
    fn change(&mut self, r: Rectangle, edit: impl Fn(&mut Vec<u8>)) {
        let mut met = Vec::new();
        for y in r.b..r.b + r.h {
            for x in r.a..r.a + r.w {
                let at = y as usize * self.columns + x as usize;
                let old = self.cells[at];
                if self.next[old as usize] == UNKNOWN {
                    let mut list = self.lists[old as usize].clone();
                    edit(&mut list);
                    self.next[old as usize] = self.number(list);
                    met.push(old);
                }
                let new = self.next[old as usize];
                self.cells[at] = new;
                self.uses[old as usize] -= 1;
                self.uses[new as usize] += 1;
            }
        }
        for old in met {
            self.next[old as usize] = UNKNOWN;
            if self.uses[old as usize] == 0 && old != EMPTY {
                self.numbers.remove(&self.lists[old as usize]);
                self.free.push(old);
            }
        }
    }

    #[inline(always)]
    fn list(&self, cell: u32) -> u16 {
        let (x, y) = (cell as usize & 0xFFFF, cell as usize >> 16);
        // SAFETY: a position on the map has a cell.
        unsafe { *self.cells.get_unchecked(y * self.columns + x) }
    }
}

/// Puts what one rising list has and another has not into two answers.
#[inline(always)]
fn merge(mut to: &[u8], mut from: &[u8], entered: &mut Zones, left: &mut Zones) {
    while let ([new, others @ ..], [old, rest @ ..]) = (to, from) {
        if new < old {
            entered.push(*new as u32);
            to = others;
        } else if old < new {
            left.push(*old as u32);
            from = rest;
        } else {
            (to, from) = (others, rest);
        }
    }
    to.iter().for_each(|&zone| entered.push(zone as u32));
    from.iter().for_each(|&zone| left.push(zone as u32));
}

impl Engine for Cells {
    fn name(&self) -> &'static str {
        "cells"
    }

    fn add(&mut self, zone: u32, r: Rectangle) {
        self.rosters.add(zone, r, &self.cars.cells);
        self.zones[zone as usize] = r;
        self.change(r, |list| {
            let at = list.partition_point(|&other| (other as u32) < zone);
            list.insert(at, zone as u8);
        });
    }

    fn remove(&mut self, zone: u32) {
        self.rosters.remove(zone);
        self.change(self.zones[zone as usize], |list| list.retain(|&other| other as u32 != zone));
    }

    #[inline(always)]
    fn report(&mut self, car: u32, at: Position) -> (&[u32], &[u32]) {
        self.entered.clear();
        self.left.clear();
        let (old, new) = self.cars.move_to(car, at);
        let (from, to) = (if old == ABSENT { EMPTY } else { self.list(old) }, self.list(new));
        if from == to {
            return (&[], &[]);
        }
        // SAFETY: each cell has a number of a list.
        let (to, from) = unsafe { (self.lists.get_unchecked(to as usize), self.lists.get_unchecked(from as usize)) };
        merge(to, from, &mut self.entered, &mut self.left);
        self.rosters.turn(car, self.entered.all(), self.left.all());
        (self.entered.all(), self.left.all())
    }

    fn search(&mut self, at: Position) -> &[u32] {
        self.entered.clear();
        // SAFETY: each cell has a number of a list.
        for &zone in unsafe { self.lists.get_unchecked(self.list(cell(at)) as usize) } {
            self.entered.push(zone as u32);
        }
        self.entered.all()
    }

    fn scores(&self, at: Position) -> bool {
        self.list(cell(at)) != EMPTY
    }

    fn roster(&mut self, zone: u32) -> &[u32] {
        self.rosters.list(zone)
    }

    fn count(&self, zone: u32) -> u32 {
        self.rosters.count(zone)
    }

    fn holder(&self, zone: u32) -> Standing {
        self.rosters.holder(zone)
    }

    fn where_is(&self, car: u32) -> Position {
        self.cars.where_is(car)
    }

    fn clear(&mut self) {
        self.cars.clear();
        self.rosters.clear();
        self.cells.fill(EMPTY);
        self.lists.truncate(1);
        self.uses.truncate(1);
        self.uses[0] = self.cells.len() as u32;
        self.numbers = HashMap::from([(Vec::new(), EMPTY)]);
        self.free.clear();
    }
}
