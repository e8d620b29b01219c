//! Which car is in which scoring zone.
//!
//! A [`Town`] is a grid of cells with zones, which are rectangles of cells and may move, and cars, which report where they
//! are and for which [`Team`] they drive. It answers which zones a car entered and left, which cars entered and left a zone
//! that moved, which zones hold a position, whether any does, which cars are in a zone, how many, and which team holds it.
//!
//! The work is done by a library that is proved to do what its documents say; this crate owns the tables that it is lent
//! and makes its calls safe. The archive to link is made by `./archive` at the root of the repository.

mod log;
mod refusal;
mod squares;
mod town;

pub mod raw;

pub use log::Log;
pub use refusal::Refusal;
pub use squares::{cut, number, square, Rectangle, Shape, Square, LEVEL};
pub use town::{Added, Capacities, Found, Left, Position, Reported, Ridden, Scoring, Standing, Team, Town};
