//! What can be measured: the library, and what it is measured against. The rivals check nothing.

mod cars;
mod cells;
mod cut;
mod lists;
mod rosters;
mod rtree;
mod scan;
mod squares;

pub use cells::Cells;
pub use rtree::{RTree, MISSING};
pub use scan::Scan;
pub use squares::Squares;

use std::hint::black_box;
use unwadegiro::{Position, Rectangle, Ridden, Standing, Team, Town};

/// One report: a car and where it is.
pub type Move = (u32, Position);

/// A town that can be measured. Every call is one that the library accepts. Lists are given lowest first.
pub trait Engine {
    fn name(&self) -> &'static str;
    fn add(&mut self, zone: u32, r: Rectangle);
    fn remove(&mut self, zone: u32);
    /// Moves a zone by so many columns and rows, where an engine can.
    fn ride(&mut self, _zone: u32, _columns: i32, _rows: i32) -> Option<Ridden<'_>> {
        None
    }
    /// The zones entered and left.
    fn report(&mut self, car: u32, at: Position) -> (&[u32], &[u32]);
    fn search(&mut self, at: Position) -> &[u32];
    /// Whether any zone holds a position.
    fn scores(&self, at: Position) -> bool;
    fn roster(&mut self, zone: u32) -> &[u32];
    /// How many cars are in a zone.
    fn count(&self, zone: u32) -> u32;
    /// How many cars of each team are in a zone, and who holds it.
    fn holder(&self, zone: u32) -> Standing;
    fn where_is(&self, car: u32) -> Position;
    fn clear(&mut self);
    /// Whether the tables are sound, where an engine can tell.
    fn is_sound(&self) -> bool {
        true
    }

    // Many calls by one, so that what is timed finds its function at once.

    fn report_all(&mut self, moves: &[Move]) {
        for &(car, at) in moves {
            black_box(self.report(car, at));
        }
    }

    fn search_all(&mut self, spots: &[Position]) {
        for &at in spots {
            black_box(self.search(at));
        }
    }

    fn score_all(&self, spots: &[Position]) {
        for &at in spots {
            black_box(self.scores(at));
        }
    }

    fn roster_all(&mut self, zones: &[(u32, Rectangle)]) {
        for &(zone, _) in zones {
            black_box(self.roster(zone));
        }
    }

    fn count_all(&self, zones: &[(u32, Rectangle)]) {
        for &(zone, _) in zones {
            black_box(self.count(zone));
        }
    }

    fn hold_all(&self, zones: &[(u32, Rectangle)]) {
        for &(zone, _) in zones {
            black_box(self.holder(zone));
        }
    }
}

/// The team that a car has in all engines.
fn team(car: u32) -> Team {
    Team::new(car % 8).expect("a team up to 7")
}

/// The library, through its safe calls.
pub struct Library(pub Town);

const ACCEPTED: &str = "a call that the library accepts";

impl Engine for Library {
    fn name(&self) -> &'static str {
        "library"
    }

    fn add(&mut self, zone: u32, r: Rectangle) {
        self.0.add(zone, r).expect(ACCEPTED);
    }

    fn remove(&mut self, zone: u32) {
        self.0.remove(zone).expect(ACCEPTED)
    }

    fn ride(&mut self, zone: u32, columns: i32, rows: i32) -> Option<Ridden<'_>> {
        Some(self.0.ride(zone, columns, rows).expect(ACCEPTED))
    }

    #[inline(always)]
    fn report(&mut self, car: u32, at: Position) -> (&[u32], &[u32]) {
        let reported = self.0.report(car, team(car), at).expect(ACCEPTED);
        (reported.entered, reported.left)
    }

    #[inline(always)]
    fn search(&mut self, at: Position) -> &[u32] {
        self.0.search(at).expect(ACCEPTED).zones
    }

    #[inline(always)]
    fn scores(&self, at: Position) -> bool {
        self.0.scoring(at).expect(ACCEPTED).scores
    }

    fn roster(&mut self, zone: u32) -> &[u32] {
        self.0.roster(zone).expect(ACCEPTED)
    }

    #[inline(always)]
    fn count(&self, zone: u32) -> u32 {
        self.0.count(zone).expect(ACCEPTED)
    }

    #[inline(always)]
    fn holder(&self, zone: u32) -> Standing {
        self.0.holder(zone).expect(ACCEPTED)
    }

    fn where_is(&self, car: u32) -> Position {
        self.0.where_is(car).expect(ACCEPTED)
    }

    fn clear(&mut self) {
        self.0.clear()
    }

    fn is_sound(&self) -> bool {
        self.0.is_sound()
    }
}
