//! The plot of the five numbers, as plain SVG text.

use super::chosen::{Knob, KNOBS, MIDDLE, STEADY};
use super::measure::{Figures, Results};
use super::requests::Keys;
use std::fmt::Write;

/// A panel's width and height, and the distances from panel to panel.
const WIDE: f64 = 150.0;
const HIGH: f64 = 150.0;
const STEP_X: f64 = 180.0;
const STEP_Y: f64 = 215.0;
/// The upper left corner of the first panel.
const LEFT: f64 = 80.0;
const TOP: f64 = 90.0;

/// A row of panels: what stands on its upright axis.
struct Measure {
    title: &'static str,
    most: f64,
    tick: f64,
    value: fn(&Figures) -> f64,
}

/// The rows. All panels of a row have the same scale, so that slopes compare.
const MEASURES: [Measure; 2] = [
    Measure {
        title: "mean, blocks a call",
        most: 1.25,
        tick: 0.25,
        value: Figures::mean,
    },
    Measure {
        title: "worst call, blocks",
        most: 200.0,
        tick: 50.0,
        value: |figures| figures.worst as f64,
    },
];

/// A workload's line: colour and the stroke's pattern.
const LINES: [(Keys, &str, &str); 2] = [
    (Keys::Uniform, "#1f5fa8", "none"),
    (Keys::Normal, "#c2570c", "5 3"),
];

/// The whole plot.
pub fn svg(results: &Results) -> String {
    let mut out = String::from(
        "<svg xmlns=\"http://www.w3.org/2000/svg\" viewBox=\"0 0 980 485\" width=\"980\" \
         height=\"485\" font-family=\"sans-serif\" font-size=\"12\" fill=\"#222\">\n\
         <rect width=\"980\" height=\"485\" fill=\"#fff\"/>\n",
    );
    text(&mut out, LEFT, 26.0, "start", 16, &title());
    for (at, (keys, colour, dashes)) in LINES.iter().enumerate() {
        let x = LEFT + 110.0 * at as f64;
        path(&mut out, &[(x, 44.0), (x + 30.0, 44.0)], colour, dashes);
        dot(&mut out, (x + 15.0, 44.0), colour);
        text(&mut out, x + 36.0, 48.0, "start", 12, &format!("{keys:?}"));
    }
    for (down, measure) in MEASURES.iter().enumerate() {
        let top = TOP + STEP_Y * down as f64;
        axis(&mut out, top, measure);
        for (along, knob) in KNOBS.iter().enumerate() {
            let left = LEFT + STEP_X * along as f64;
            panel(&mut out, (left, top), measure, knob, results);
        }
    }
    out + "</svg>\n"
}

/// What the plot shows.
fn title() -> String {
    let [b, w, d, g, h] = MIDDLE;
    format!("Blocks written, one number varied at a time round B {b}, w {w}, d {d}, G {g}, h {h}")
}

/// The numbers of the upright axis and its name.
fn axis(out: &mut String, top: f64, measure: &Measure) {
    let ticks = (measure.most / measure.tick) as usize;
    for tick in 0..=ticks {
        let value = measure.tick * tick as f64;
        let y = height(top, measure, value);
        text(out, LEFT - 8.0, y + 4.0, "end", 11, &value.to_string());
    }
    let y = top + HIGH / 2.0;
    let turn = format!("rotate(-90 26 {y})");
    let anchor = "text-anchor=\"middle\"";
    let name = measure.title;
    writeln!(
        out,
        "<text x=\"26\" y=\"{y}\" {anchor} transform=\"{turn}\">{name}</text>"
    )
    .unwrap();
}

/// One panel: its grid, its name, and a line for each workload.
fn panel(
    out: &mut String,
    (left, top): (f64, f64),
    measure: &Measure,
    knob: &Knob,
    results: &Results,
) {
    let ticks = (measure.most / measure.tick) as usize;
    for tick in 0..=ticks {
        let y = height(top, measure, measure.tick * tick as f64);
        path(out, &[(left, y), (left + WIDE, y)], "#ddd", "none");
    }
    let name = format!("{}, {}", knob.name, knob.meaning);
    text(out, left, top - 12.0, "start", 11, &name);
    values(out, (left, top), knob);
    for (keys, colour, dashes) in LINES {
        let point = |(at, &value): (usize, &usize)| {
            let figures = results.of(knob.geometry(value), keys, STEADY);
            let y = height(top, measure, (measure.value)(figures));
            (across(left, knob, at), y)
        };
        let points: Vec<_> = knob.values.iter().enumerate().map(point).collect();
        path(out, &points, colour, dashes);
        points.into_iter().for_each(|at| dot(out, at, colour));
    }
}

/// The values of a knob below its panel; the middle one has a line.
fn values(out: &mut String, (left, top): (f64, f64), knob: &Knob) {
    for (at, value) in knob.values.iter().enumerate() {
        let x = across(left, knob, at);
        if *value == MIDDLE[knob.at] {
            path(out, &[(x, top), (x, top + HIGH)], "#bbb", "2 3");
        }
        text(out, x, top + HIGH + 16.0, "middle", 11, &value.to_string());
    }
}

/// Where the value number `at` of a knob stands.
fn across(left: f64, knob: &Knob, at: usize) -> f64 {
    left + WIDE * (at as f64 + 0.5) / knob.values.len() as f64
}

/// Where a value stands on the upright axis.
fn height(top: f64, measure: &Measure, value: f64) -> f64 {
    top + HIGH * (1.0 - value / measure.most)
}

/// A line through points.
fn path(out: &mut String, points: &[(f64, f64)], colour: &str, dashes: &str) {
    let points: Vec<String> = points
        .iter()
        .map(|(x, y)| format!("{x:.1},{y:.1}"))
        .collect();
    let points = points.join(" ");
    let style = format!("fill=\"none\" stroke=\"{colour}\" stroke-dasharray=\"{dashes}\"");
    writeln!(out, "<polyline points=\"{points}\" {style}/>").unwrap();
}

/// A dot on a line.
fn dot(out: &mut String, (x, y): (f64, f64), colour: &str) {
    writeln!(
        out,
        "<circle cx=\"{x:.1}\" cy=\"{y:.1}\" r=\"3\" fill=\"{colour}\"/>"
    )
    .unwrap();
}

/// A text.
fn text(out: &mut String, x: f64, y: f64, anchor: &str, size: u32, words: &str) {
    let place = format!("x=\"{x:.1}\" y=\"{y:.1}\" text-anchor=\"{anchor}\" font-size=\"{size}\"");
    writeln!(out, "<text {place}>{words}</text>").unwrap();
}
