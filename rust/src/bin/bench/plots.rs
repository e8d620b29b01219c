//! The plots: bars for each k, and lines over what grows.

use crate::measure::Measured;
use std::fmt::Write;

/// How an engine is drawn: its colour, its dashes and its marker, so that it can be told without colour.
struct Style {
    engine: &'static str,
    colour: &'static str,
    dashes: &'static str,
    marker: Marker,
}

#[derive(Clone, Copy)]
enum Marker {
    Disc,
    Ring,
    Square,
    Triangle,
    Diamond,
    Cross,
}

const STYLES: [Style; 6] = [
    Style { engine: "library", colour: "#1b6ca8", dashes: "none", marker: Marker::Disc },
    Style { engine: "scan", colour: "#8a8a8a", dashes: "2 3", marker: Marker::Cross },
    Style { engine: "cells", colour: "#d98c00", dashes: "8 3", marker: Marker::Triangle },
    Style { engine: "R-tree", colour: "#a0359b", dashes: "8 3 2 3", marker: Marker::Diamond },
    Style { engine: "by hand", colour: "#2e8b57", dashes: "none", marker: Marker::Square },
    Style { engine: "by hand, counting", colour: "#c0392b", dashes: "5 2", marker: Marker::Ring },
];

fn style(engine: &str) -> &'static Style {
    STYLES.iter().find(|style| style.engine == engine).unwrap_or(&STYLES[0])
}

const WIDE: f64 = 760.0;
const HIGH: f64 = 400.0;
const LEFT: f64 = 70.0;
const RIGHT: f64 = 590.0;
const TOP: f64 = 50.0;
const BASE: f64 = 330.0;

fn begin(title: &str) -> String {
    format!(
        "<svg xmlns=\"http://www.w3.org/2000/svg\" viewBox=\"0 0 {WIDE} {HIGH}\" font-family=\"sans-serif\" font-size=\"12\">\n<rect width=\"{WIDE}\" height=\"{HIGH}\" fill=\"white\"/>\n<text x=\"{LEFT}\" y=\"24\" font-size=\"14\">{title}</text>\n"
    )
}

fn text(svg: &mut String, (x, y): (f64, f64), anchor: &str, words: &str) {
    let _ = writeln!(svg, "<text x=\"{x:.1}\" y=\"{y:.1}\" text-anchor=\"{anchor}\">{words}</text>");
}

fn line(svg: &mut String, from: (f64, f64), to: (f64, f64), stroke: &str) {
    let _ = writeln!(
        svg,
        "<line x1=\"{:.1}\" y1=\"{:.1}\" x2=\"{:.1}\" y2=\"{:.1}\" {stroke}/>",
        from.0, from.1, to.0, to.1
    );
}

fn mark(svg: &mut String, (x, y): (f64, f64), style: &Style) {
    let (colour, r) = (style.colour, 4.0);
    let shape = |points: &[(f64, f64)]| {
        let points: Vec<String> = points.iter().map(|(dx, dy)| format!("{:.1},{:.1}", x + dx, y + dy)).collect();
        format!("<polygon points=\"{}\" fill=\"{colour}\"/>", points.join(" "))
    };
    let drawn = match style.marker {
        Marker::Disc => format!("<circle cx=\"{x:.1}\" cy=\"{y:.1}\" r=\"{r}\" fill=\"{colour}\"/>"),
        Marker::Ring => format!(
            "<circle cx=\"{x:.1}\" cy=\"{y:.1}\" r=\"{r}\" fill=\"white\" stroke=\"{colour}\" stroke-width=\"2\"/>"
        ),
        Marker::Square => shape(&[(-r, -r), (r, -r), (r, r), (-r, r)]),
        Marker::Triangle => shape(&[(0.0, -5.0), (5.0, r), (-5.0, r)]),
        Marker::Diamond => shape(&[(0.0, -5.5), (5.5, 0.0), (0.0, 5.5), (-5.5, 0.0)]),
        Marker::Cross => {
            format!("<path d=\"M{:.1} {:.1}l8 8m0 -8l-8 8\" stroke=\"{colour}\" stroke-width=\"2\"/>", x - r, y - r)
        }
    };
    let _ = writeln!(svg, "{drawn}");
}

/// Values from the bottom to the top of a plot: even steps from 0, or steps of 1, 2, 5, 10.
struct Scale {
    least: f64,
    most: f64,
    log: bool,
}

impl Scale {
    fn new(values: impl Iterator<Item = f64> + Clone) -> Scale {
        let (least, most) = (values.clone().fold(f64::MAX, f64::min), values.fold(0.0, f64::max));
        let log = most > 8.0 * least;
        Scale { least: if log { least * 0.85 } else { 0.0 }, most: most * 1.08, log }
    }

    fn height(&self, value: f64) -> f64 {
        let part = if self.log { (value / self.least).ln() / (self.most / self.least).ln() } else { value / self.most };
        BASE - part * (BASE - TOP)
    }

    fn ticks(&self) -> Vec<f64> {
        let steps = [1.0, 2.0, 5.0];
        if self.log {
            let powers = (0..8).map(|power| 10f64.powi(power));
            let all = powers.flat_map(|power| steps.map(|step| step * power));
            return all.filter(|&tick| tick >= self.least && tick <= self.most).collect();
        }
        let unit = 10f64.powf((self.most / 4.0).log10().floor());
        let step = [1.0, 2.0, 5.0, 10.0].map(|times| times * unit).into_iter().find(|step| self.most / step <= 6.0);
        let step = step.unwrap_or(self.most);
        (0..).map(|times| times as f64 * step).take_while(|&tick| tick <= self.most).collect()
    }

    fn draw(&self, svg: &mut String) {
        for tick in self.ticks() {
            let y = self.height(tick);
            line(svg, (LEFT, y), (RIGHT, y), "stroke=\"#dddddd\"");
            text(svg, (LEFT - 8.0, y + 4.0), "end", &format!("{tick}"));
        }
        let kind = if self.log { "ns a call, logarithmic" } else { "ns a call" };
        let middle = (TOP + BASE) / 2.0;
        let _ = writeln!(
            svg,
            "<text x=\"18\" y=\"{middle}\" text-anchor=\"middle\" transform=\"rotate(-90 18 {middle})\">{kind}</text>"
        );
    }
}

/// One line for each engine over values that double from one to the next.
pub fn lines(title: &str, under: &str, engines: &[&str], points: &[(u32, &[f64])]) -> String {
    let mut svg = begin(title);
    let scale = Scale::new(points.iter().flat_map(|(_, times)| times.iter().copied()));
    scale.draw(&mut svg);
    let x = |at: usize| LEFT + 15.0 + (RIGHT - LEFT - 30.0) * at as f64 / (points.len() - 1) as f64;
    for (at, (value, _)) in points.iter().enumerate() {
        line(&mut svg, (x(at), BASE), (x(at), BASE + 5.0), "stroke=\"#666666\"");
        text(&mut svg, (x(at), BASE + 18.0), "middle", &value.to_string());
    }
    text(&mut svg, ((LEFT + RIGHT) / 2.0, BASE + 42.0), "middle", under);
    for (engine, name) in engines.iter().enumerate().rev() {
        let style = style(name);
        let at: Vec<(f64, f64)> =
            points.iter().enumerate().map(|(at, (_, times))| (x(at), scale.height(times[engine]))).collect();
        let path: Vec<String> = at.iter().map(|(x, y)| format!("{x:.1},{y:.1}")).collect();
        let wide = if engine == 0 { 3 } else { 2 };
        let _ = writeln!(
            svg,
            "<polyline points=\"{}\" fill=\"none\" stroke=\"{}\" stroke-width=\"{wide}\" stroke-dasharray=\"{}\"/>",
            path.join(" "),
            style.colour,
            style.dashes
        );
        at.into_iter().for_each(|at| mark(&mut svg, at, style));
    }
    for (engine, name) in engines.iter().enumerate() {
        let (y, style) = (TOP + 20.0 + 24.0 * engine as f64, style(name));
        let stroke = format!("stroke=\"{}\" stroke-width=\"2\" stroke-dasharray=\"{}\"", style.colour, style.dashes);
        line(&mut svg, (RIGHT + 15.0, y), (RIGHT + 51.0, y), &stroke);
        mark(&mut svg, (RIGHT + 33.0, y), style);
        text(&mut svg, (RIGHT + 60.0, y + 4.0), "start", name);
    }
    svg.push_str("</svg>\n");
    svg
}

/// Bars of the reports that change the cell, for each k; the engines from left to right as in the legend.
pub fn bars(all: &[Measured], name: &str) -> String {
    let of: Vec<&Measured> = all.iter().filter(|one| one.plan.name == name).collect();
    let mut svg = begin(&format!("{name} town: a report that changes the cell"));
    let top = of.iter().flat_map(|one| one.times[0].iter().copied()).fold(1.0, f64::max);
    let scale = Scale { least: 0.0, most: top * 1.05, log: false };
    scale.draw(&mut svg);
    let group = (RIGHT - LEFT) / of.len() as f64;
    for (at, one) in of.iter().enumerate() {
        let (from, bar) = (LEFT + group * (at as f64 + 0.08), group * 0.84 / one.engines.len() as f64);
        for (engine, (name, &time)) in one.engines.iter().zip(&one.times[0]).enumerate() {
            let (x, y) = (from + bar * engine as f64, scale.height(time));
            let _ = writeln!(
                svg,
                "<rect x=\"{x:.1}\" y=\"{y:.1}\" width=\"{:.1}\" height=\"{:.1}\" fill=\"{}\"/>",
                bar - 1.0,
                BASE - y,
                style(name).colour
            );
        }
        text(&mut svg, (from + group * 0.42, BASE + 18.0), "middle", &format!("k = {}", one.k));
    }
    for (engine, name) in
        of.iter().flat_map(|one| &one.engines).take(of.first().map_or(0, |one| one.engines.len())).enumerate()
    {
        let (y, colour) = (TOP + 20.0 + 24.0 * engine as f64, style(name).colour);
        let _ = writeln!(
            svg,
            "<rect x=\"{}\" y=\"{}\" width=\"12\" height=\"12\" fill=\"{colour}\"/>",
            RIGHT + 25.0,
            y - 8.0
        );
        text(&mut svg, (RIGHT + 45.0, y + 3.0), "start", &format!("{}. {name}", engine + 1));
    }
    svg.push_str("</svg>\n");
    svg
}
