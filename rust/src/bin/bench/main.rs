//! Measures the library beside a scan, lists for each cell, an R-tree, and squares by hand.
//!
//! `cargo run --release --bin bench -- [--write] [seed]`: with `--write` the tables and plots go to docs/.

mod growth;
mod measure;
mod page;
mod plots;
#[path = "../check/random.rs"]
#[allow(dead_code)]
mod random;
mod rides;
mod rivals;
mod sizes;
mod tables;
mod time;
mod work;

use growth::{Growth, Point, ADDED};
use std::path::Path;
use std::{env, fs, io, process};
use tables::All;

fn measure(seed: u64) -> All {
    let largest = measure::largest(seed);
    let mut all = All { seed, towns: Vec::new(), sizes: Vec::new(), rides: Vec::new(), growth: Vec::new(), largest };
    for plan in work::PLANS {
        for k in 0..=5 {
            eprintln!("{} town, k = {k}", plan.name);
            all.towns.push(measure::measure(plan, k, seed));
        }
        for k in sizes::KS {
            all.sizes.extend(sizes::SIZES.map(|size| sizes::measure(plan, k, size, seed)));
        }
    }
    eprintln!("rides");
    all.rides = rides::all(seed);
    for axis in growth::AXES {
        eprintln!("growing: {}", axis.name());
        all.growth.push(growth::measure(axis, seed));
    }
    all
}

/// A plot of how a call's time grows.
fn grown(growth: &Growth, call: &str, of: impl Fn(&Point) -> &[f64]) -> String {
    let name = growth.axis.name();
    let under = if name == "side" { "side of the town, in cells" } else { name };
    let points: Vec<(u32, &[f64])> = growth.points.iter().map(|point| (point.value, of(point))).collect();
    plots::lines(&format!("{call}, by {under}"), &format!("{under}, logarithmic"), &growth.engines, &points)
}

fn write(all: &All) -> io::Result<()> {
    let docs = Path::new(env!("CARGO_MANIFEST_DIR")).join("../docs");
    fs::create_dir_all(&docs)?;
    fs::write(docs.join("BENCHMARKS.md"), page::page(all))?;
    fs::write(docs.join("benchmark-large.svg"), plots::bars(&all.towns, "Large"))?;
    fs::write(docs.join("benchmark-small.svg"), plots::bars(&all.towns, "Small"))?;
    for growth in &all.growth {
        let name = growth.axis.name();
        let report = grown(growth, "A report that changes the cell", |point| &point.report);
        fs::write(docs.join(format!("benchmark-report-{name}.svg")), report)?;
        let add = grown(growth, &format!("An add of a zone of {ADDED} × {ADDED}"), |point| &point.add);
        fs::write(docs.join(format!("benchmark-add-{name}.svg")), add)?;
    }
    Ok(())
}

fn main() {
    let (mut seed, mut to_docs) = (1, false);
    for word in env::args().skip(1) {
        match (word.as_str(), word.parse()) {
            ("--write", _) => to_docs = true,
            (_, Ok(number)) => seed = number,
            _ => {
                eprintln!("usage: bench [--write] [seed]");
                process::exit(2);
            }
        }
    }
    let all = measure(seed);
    if !all.towns.iter().any(|one| one.engines.contains(&"R-tree")) {
        eprintln!("{}", rivals::MISSING);
    }
    println!("{}\n\n{}", page::machine(), tables::numbers(&all));
    if to_docs {
        if let Err(error) = write(&all) {
            eprintln!("docs/ was not written: {error}");
            process::exit(1);
        }
        println!("docs/BENCHMARKS.md and the plots beside it are written");
    }
}
