//! What was measured, as tables.

use crate::growth::Growth;
use crate::measure::{Measured, CALLS};
use crate::rides::{Riders, Rides, ONE, RIDES};
use crate::sizes::Size;
use crate::work::{LARGEST, PLANS};
use std::fmt::Write;

/// All that was measured.
pub struct All {
    pub seed: u64,
    pub towns: Vec<Measured>,
    pub sizes: Vec<Size>,
    pub rides: Vec<Rides>,
    pub growth: Vec<Growth>,
    /// The largest town: zones, entries, and nanoseconds a test of its tables.
    pub largest: (usize, usize, f64),
}

fn number(ns: f64) -> String {
    if ns < 1000.0 {
        format!("{ns:.1}")
    } else {
        format!("{ns:.0}")
    }
}

/// One row of a table.
fn row(page: &mut String, fields: &[String]) {
    let _ = writeln!(page, "| {} |", fields.join(" | "));
}

fn heading(page: &mut String, fields: &[String]) {
    row(page, fields);
    let _ = writeln!(page, "|{}", "---|".repeat(fields.len()));
}

fn words(fields: &[&str]) -> Vec<String> {
    fields.iter().map(|&field| field.to_string()).collect()
}

/// The heading of times: the library, and each rival with its ratio.
fn engines(first: &[&str], names: &[&str]) -> Vec<String> {
    let mut fields = words(first);
    fields.push(names[0].to_string());
    for name in &names[1..] {
        fields.extend([name.to_string(), "ratio".to_string()]);
    }
    fields
}

/// The library's time, and each rival's with the ratio over it.
fn times(times: &[f64]) -> Vec<String> {
    let mut fields = vec![number(times[0])];
    for rival in &times[1..] {
        fields.extend([number(*rival), format!("{:.2}", rival / times[0])]);
    }
    fields
}

/// One table for each town and call.
pub fn tables(all: &All) -> String {
    let mut page = String::new();
    for plan in PLANS {
        let of: Vec<&Measured> = all.towns.iter().filter(|one| one.plan.name == plan.name).collect();
        let (side, room) = (plan.side, plan.room);
        let _ = writeln!(
            page,
            "## {} town: {side} × {side} cells, {} zones, {} cars, {} entries\n",
            plan.name, room.zones, room.cars, room.entries
        );
        heading(&mut page, &words(&["k", "zones that stand", "entries in use"]));
        for one in &of {
            row(&mut page, &[one.k.to_string(), one.zones.to_string(), one.entries.to_string()]);
        }
        for (call, name) in CALLS.iter().enumerate() {
            let _ = writeln!(page, "\n**{name}**, ns a call\n");
            heading(&mut page, &engines(&["k"], &of[0].engines));
            for one in &of {
                row(&mut page, &[vec![one.k.to_string()], times(&one.times[call])].concat());
            }
        }
        page.push('\n');
    }
    page
}

fn met(value: f64, yes: bool) -> String {
    format!("{value:.2}, {}", if yes { "met" } else { "not met" })
}

/// One time over another.
fn over(one: &Measured, (call, engine): (&str, &str), (below, under): (&str, &str)) -> f64 {
    let time = |call, engine| one.time(call, engine).expect("a call and an engine that are always there");
    time(call, engine) / time(below, under)
}

const FAR: &str = CALLS[0];
const NEAR: &str = CALLS[1];
const COUNTING: &str = "by hand, counting";

/// A table of what was aimed at, a row for each k of the large town.
fn aims(all: &All, names: &[&str], fields: impl Fn(&Measured) -> Vec<String>) -> String {
    let mut page = String::new();
    heading(&mut page, &[words(&["k"]), words(names)].concat());
    for one in all.towns.iter().filter(|one| one.plan.name == "Large") {
        row(&mut page, &[vec![one.k.to_string()], fields(one)].concat());
    }
    page
}

/// The library over the two by hand, with the first at most some bound.
fn beside(one: &Measured, call: &str, most: f64) -> [String; 2] {
    let hand = over(one, (call, "library"), (call, "by hand"));
    let counting = over(one, (call, "library"), (call, COUNTING));
    [met(hand, hand <= most), format!("{counting:.2}")]
}

/// What was aimed at for reports.
pub fn reports(all: &All) -> String {
    let names = [
        "report, another cell: library over by hand (at most 1.3)",
        "over by hand, counting",
        "report, nine of ten in the same cell: library over by hand (at most 1.6)",
        "over by hand, counting",
    ];
    aims(all, &names, |one| [beside(one, FAR, 1.3), beside(one, NEAR, 1.6)].concat())
}

/// What was aimed at for adds and removes.
pub fn zones(all: &All) -> String {
    let names = [
        "add: library over by hand (at most 1)",
        "over by hand, counting",
        "remove: library over by hand (at most 1)",
        "over by hand, counting",
    ];
    aims(all, &names, |one| [beside(one, "add", 1.0), beside(one, "remove", 1.0)].concat())
}

/// What else was aimed at.
pub fn others(all: &All) -> String {
    let names = [
        "scan over library (at least 8)",
        "add over report (below 100)",
        "remove over report (below 100)",
        "roster over count (at least 10)",
    ];
    aims(all, &names, |one| {
        let scan = over(one, (FAR, "scan"), (FAR, "library"));
        let add = over(one, ("add", "library"), (FAR, "library"));
        let remove = over(one, ("remove", "library"), (FAR, "library"));
        let pass = over(one, ("roster", "library"), ("count", "library"));
        vec![met(scan, scan >= 8.0), met(add, add < 100.0), met(remove, remove < 100.0), met(pass, pass >= 10.0)]
    })
}

/// What a test of the tables costs.
pub fn soundness(all: &All) -> String {
    let mut page = String::new();
    heading(&mut page, &words(&["town", "k", "zones", "entries in use", "soundness, µs"]));
    for one in all.towns.iter().filter(|one| one.plan.name == "Large") {
        let (zones, entries) = (one.zones.to_string(), one.entries.to_string());
        row(&mut page, &["Large".into(), one.k.to_string(), zones, entries, format!("{:.0}", one.soundness / 1e3)]);
    }
    let (zones, entries, ns) = all.largest;
    let goal = if ns < 1e6 { "met" } else { "not met" };
    let last = format!("{:.0} (below 1000), {goal}", ns / 1e3);
    row(&mut page, &[LARGEST.name.into(), "5".into(), zones.to_string(), entries.to_string(), last]);
    page
}

/// Zones of three sizes, for an add or a remove.
fn sizes(all: &All, call: &str, of: impl Fn(&Size) -> Option<(usize, usize, &[f64])>) -> String {
    let mut page = format!("**{call}**, ns a call\n\n");
    heading(&mut page, &engines(&["town", "k", "zone", "other zones", "their entries"], &all.sizes[0].engines));
    for one in &all.sizes {
        let mut fields = vec![one.plan.name.to_string(), one.k.to_string(), one.size.to_string()];
        match of(one) {
            Some((zones, entries, ns)) => {
                fields.extend([zones.to_string(), entries.to_string()]);
                fields.extend(times(ns));
            }
            None => fields.extend(vec!["no room".to_string(); 2 * one.engines.len() + 1]),
        }
        row(&mut page, &fields);
    }
    page
}

/// Zones of three sizes, added and removed.
pub fn both_sizes(all: &All) -> String {
    let adds = sizes(all, "add", |one| one.times.as_ref().map(|(zones, entries, of)| (*zones, *entries, &of.add[..])));
    let removes =
        sizes(all, "remove", |one| one.times.as_ref().map(|(zones, entries, of)| (*zones, *entries, &of.remove[..])));
    format!("{adds}\n{removes}")
}

/// The heading of rides.
fn riding(first: &[&str]) -> Vec<String> {
    let times = [
        "entries in use",
        "squares of a cut",
        "exchanged",
        "ride",
        "remove and add",
        "ride over it (at most 1.1)",
        "highest of one",
        "by hand",
        "ride over it",
        COUNTING,
        "ride over it",
    ];
    words(&[first, &times].concat())
}

/// What rides of one kind take, in microseconds, beside removes and adds.
fn ridden(one: &Rides) -> Vec<String> {
    let micros = |way: usize| format!("{:.1}", one.times[way] / 1e3);
    let over = |way: usize| one.times[0] / one.times[way];
    let goal = if (one.plan.name, one.riders, one.ride) == (LARGEST.name, Riders::Laid, ONE.0) {
        let yes = if over(1) <= 0.6 { "met" } else { "not met" };
        format!("{:.2} (at most 0.6), {yes}", over(1))
    } else {
        met(over(1), over(1) <= 1.1)
    };
    let mut fields = vec![one.entries.to_string(), format!("{:.0}", one.squares), format!("{:.0}", one.exchanged)];
    fields.extend([micros(0), micros(1), goal, format!("{:.2}", one.highest)]);
    for way in [2, 3] {
        fields.extend([micros(way), format!("{:.2}", over(way))]);
    }
    fields
}

/// The rides of the zones that every benchmark lays, a table for each.
pub fn rides(all: &All) -> String {
    let tables = RIDES.map(|(name, _)| {
        let mut page = format!("**ride {name}**, µs\n\n");
        heading(&mut page, &riding(&["town", "k", "zones", "that ride"]));
        for one in all.rides.iter().filter(|one| one.riders == Riders::Laid && one.ride == name) {
            let first = [one.plan.name.into(), one.k.to_string(), one.zones.to_string(), one.many.to_string()];
            row(&mut page, &[first.to_vec(), ridden(one)].concat());
        }
        page
    });
    tables.join("\n")
}

/// The rides of the smallest and of the widest zones.
pub fn extreme_rides(all: &All) -> String {
    let mut page = String::new();
    heading(&mut page, &riding(&["town", "side", "k", "zone", "ride", "zones", "that ride"]));
    for one in all.rides.iter().filter(|one| one.riders != Riders::Laid) {
        let (town, zone, ride) = (one.plan.name.into(), one.riders.name().into(), one.ride.into());
        let (zones, many) = (one.zones.to_string(), one.many.to_string());
        let first = [town, one.plan.side.to_string(), one.k.to_string(), zone, ride, zones, many];
        row(&mut page, &[first.to_vec(), ridden(one)].concat());
    }
    page
}

/// What a scoring costs beside a search, and beside a scan.
pub fn scorings(all: &All) -> String {
    let mut page = String::new();
    let names = ["town", "k", "scoring, ns", "search, ns", "search over scoring", "scan, ns", "scan over scoring"];
    heading(&mut page, &words(&names));
    for one in &all.towns {
        let time = |call, engine| one.time(call, engine).expect("a call and an engine that are always there");
        let own = time("scoring", "library");
        let mut fields = vec![one.plan.name.to_string(), one.k.to_string(), number(own)];
        for other in [time("search", "library"), time("scoring", "scan")] {
            fields.extend([number(other), format!("{:.2}", other / own)]);
        }
        row(&mut page, &fields);
    }
    page
}

/// What is printed, and stands on the page below the text.
pub fn numbers(all: &All) -> String {
    [reports, zones, others, soundness, both_sizes, rides, extreme_rides, scorings, tables]
        .map(|table| table(all))
        .join("\n")
}
