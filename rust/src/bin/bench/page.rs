//! The page: what was measured, told.

use crate::growth::{ADDED, K};
use crate::rides::MOST;
use crate::rivals::MISSING;
use crate::tables::{self, All};
use crate::work::LARGEST;
use std::{fs, process::Command};

/// The processor's name, as the system gives it.
pub fn machine() -> String {
    let said = Command::new("lscpu").output().map(|out| String::from_utf8_lossy(&out.stdout).into_owned());
    let listed = fs::read_to_string("/proc/cpuinfo").unwrap_or_default();
    let text = format!("{}\n{listed}", said.unwrap_or_default());
    let field = |names: &[&str]| {
        text.lines().find_map(|line| {
            let (name, value) = line.split_once(':')?;
            names.contains(&name.trim()).then(|| value.trim().to_string())
        })
    };
    let name = field(&["Model name", "model name"]).unwrap_or_else(|| "unnamed processor".into());
    let kind = field(&["Architecture"]).unwrap_or_else(|| std::env::consts::ARCH.into());
    let many = std::thread::available_parallelism().map_or(1, |many| many.get());
    format!("{name}, {kind}, {many} processors")
}

/// What the engines are, the R-tree where it is there.
fn rivals(all: &All) -> String {
    let there = all.towns.iter().any(|one| one.engines.contains(&"R-tree"));
    let tree = if there {
        "- **R-tree** keeps the rectangles in Boost.Geometry's R-tree (C++, `rust/rtree`; nodes of at most eight, split by the
  quadratic rule, which is as fast here as an R*-tree). A step between two cells that touch asks it once, for both."
    } else {
        MISSING
    };
    format!(
        "- **scan** compares the rectangle of every zone that stands with the old and the new cell, sixteen at once: each side is
  a byte.
- **cells** has one list of zones for each unit cell. Equal lists are kept once, so that most steps compare two numbers; where
  they differ, the two lists are merged. An add or a remove changes the number of every cell of the zone.
{tree}
- **by hand** keeps lists for containment-encoded squares in one array, as the library does, and looks into the squares that
  differ: zones of 8 bits, a cell's number from two tables, a rectangle compared with a cell by one subtraction.
- **by hand, counting** is the same, and keeps for each zone what the library keeps: its count, its eight counts by team and
  its holder. It is the like of the library without checks."
    )
}

/// What the plots of growth show.
fn growing() -> String {
    format!(
        "## As a town grows

Each plot doubles one of zones, cars and side; the others stay at 192 zones, 1,024 cars and 256 × 256 cells, with k = {K}. The
zones' sides go from 1 to twice the town's side over the root of the number of zones (but not above the town's side): so the
zones together have about as many cells as the town, and a cell is in about one zone however many there are. Were the sides
fixed, more zones would lie over each cell, and an answer would grow by itself. With more zones, and in a smaller town, they
are smaller, so that a step enters and leaves more of them. What is added is a zone of {ADDED} × {ADDED}.

![A report, zones](benchmark-report-zones.svg)

![A report, cars](benchmark-report-cars.svg)

![A report, side](benchmark-report-side.svg)

![An add, zones](benchmark-add-zones.svg)

![An add, cars](benchmark-add-cars.svg)

![An add, side](benchmark-add-side.svg)
"
    )
}

/// What was measured, and how.
fn beginning(all: &All) -> String {
    format!(
        "# Benchmarks

Made by `cargo run --release --bin bench -- --write` in `rust/`, after `rtree/build`, with seed {}. Machine: {}.

Times are nanoseconds a call: calls are timed in batches, and of each batch the best of nine rounds counts. All run in one
program on the same zones, cars and moves, and every answer was compared. The library is called through the crate, with
all its checks. The others check nothing, and take the floor alone for the cell, since no position here is at an outer wall:

{}

All keep positions and rosters, the rivals a bit for each zone and car, and give the zones entered and left, lowest first. The
library and **by hand, counting** keep counts, teams and holders. The others count the bits of a roster, for a holder the bits
of each team; they know the teams beforehand, car c being of team c modulo 8. A ratio is the other's time over the library's:
above 1 the library is faster. Cars report in turn. In the first kind of moves each report is of another cell, one step away,
or any cell once in a hundred times. In the second nine of ten stay in their cell. Zones have sides from 1 to 50. A zone that
the entries have no room for is left out, for all.

![Large town](benchmark-large.svg)

![Small town](benchmark-small.svg)
",
        all.seed,
        machine(),
        rivals(all)
    )
}

fn goals(all: &All) -> String {
    format!(
        "## Goals

On the large town, for each k: the library beside squares by hand, and beside those that count.

{}
{}
The library's calls beside a scan and beside each other; with 1,024 cars a count is to be much less than a roster.

{}",
        tables::reports(all),
        tables::zones(all),
        tables::others(all)
    )
}

fn soundness(all: &All) -> String {
    let (room, side) = (LARGEST.room, LARGEST.side);
    format!(
        "## Soundness

A test of all tables, which the library alone has. The largest town has all capacities at their bounds: {} zones, {} cars,
{} entries, {side} × {side} cells.

{}",
        room.zones,
        room.cars,
        room.entries,
        tables::soundness(all)
    )
}

fn sizes(all: &All) -> String {
    format!(
        "## Add and remove by size of zone

A zone of each size is added in twenty places to a town that is otherwise as full as its entries allow, and removed again. Where
the zone's cut has more squares than the town has entries, there is no room.

{}",
        tables::both_sizes(all)
    )
}

fn rides(all: &All) -> String {
    format!(
        "## Rides

Zones ride in a town that is otherwise as full as its entries allow, there and back again. In the same run and the same places
they are removed and added, by the library and by hand, which gives no cars that entered or left. Times are microseconds, the
mean over all rides of each one's best of nine rounds. After each ride everything was compared with a town in which the zone
was removed and added, and the answer with its rosters and its cuts before and after.

Up to {MOST} zones with sides of at least 2 ride: to the east or the west, those with odd numbers to the north or the south, and
towards the edge that is farther off; across the town up to it. A zone's length is its side that way. Of the squares of a cut
those that the other cut has too stay, and the others are exchanged. On the largest town a ride by one cell is to take at most
0.6 times as long as remove and add, every other ride at most 1.1 times. These goals are for the means; beside them stands the
highest ratio of a single ride.

{}
Zones of one cell, every fifth of the town, and one zone that covers all but a column or a row, and rides by it. Where its cut
has more squares than the town has entries, the town's side is halved.

{}",
        tables::rides(all),
        tables::extreme_rides(all)
    )
}

fn scorings(all: &All) -> String {
    format!(
        "## Scoring

Whether any zone holds a position, beside the zones that do, and beside a scan.

{}",
        tables::scorings(all)
    )
}

/// The whole page.
pub fn page(all: &All) -> String {
    let parts: [fn(&All) -> String; 8] =
        [beginning, goals, soundness, |_| growing(), sizes, rides, scorings, tables::tables];
    parts.map(|part| part(all)).join("\n").trim_end().to_owned() + "\n"
}
