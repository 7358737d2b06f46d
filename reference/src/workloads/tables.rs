//! The Markdown tables of the figures.

use super::chosen::{editions, fewest, Knob, FILLS, KNOBS, SAME_BOTTOM, STEADY, WORKLOADS};
use super::measure::{Figures, Results};
use super::requests::Keys;
use crate::geometry::Geometry;
use crate::layout::MOST_LEVELS;

/// A table for each of the five numbers.
pub fn number_tables(results: &Results) -> String {
    let of = |knob: &Knob| {
        let rows = knob.geometries().into_iter().map(|g| (String::new(), g));
        let title = format!("### {}: {}\n\n", knob.name, knob.meaning);
        title + &summary(results, rows)
    };
    let tables: Vec<String> = KNOBS.iter().map(of).collect();
    tables.join("\n")
}

/// The other tables.
pub fn store_tables(results: &Results) -> String {
    let ways = SAME_BOTTOM.map(|five| (String::new(), fewest(five)));
    let sold = editions().into_iter();
    let sold = sold.map(|(name, geometry)| (format!("{name}: "), geometry));
    let tables = [
        "### The same last level, reached in several ways\n\n".to_string(),
        summary(results, ways.into_iter()),
        "\n### The editions\n\n".to_string(),
        summary(results, sold),
        "\n### How full, under Uniform\n\n".to_string(),
        fills(results),
        "\n### By level\n\n".to_string(),
        by_level(results),
    ];
    tables.concat()
}

/// A table with a row for each geometry and both workloads beside each other.
fn summary(results: &Results, rows: impl Iterator<Item = (String, Geometry)>) -> String {
    let mut out = head(&[
        "B w d G h P",
        "N",
        "level 0 words",
        "store words",
        "words a key",
        "Uniform mean",
        "worst",
        "amplification",
        "Normal mean",
        "worst",
        "amplification",
    ]);
    for (name, geometry) in rows {
        let words = geometry.length();
        let mut cells = vec![
            format!("{name}{}", numbers(geometry)),
            grouped(geometry.key_limit()),
            grouped(geometry.list_at(1) - geometry.tombstones_at()),
            grouped(words),
            format!("{:.1}", words as f64 / geometry.key_limit() as f64),
        ];
        let of = |keys| triple(geometry, results.of(geometry, keys, STEADY));
        cells.extend(WORKLOADS.into_iter().flat_map(of));
        out += &row(&cells);
    }
    out
}

/// Mean, worst and amplification: records written a record put.
fn triple(geometry: Geometry, figures: &Figures) -> [String; 3] {
    [
        format!("{:.3}", figures.mean()),
        grouped(figures.worst as usize),
        format!("{:.2}", figures.mean() * geometry.block() as f64),
    ]
}

/// The editions at several fills, under Uniform.
fn fills(results: &Results) -> String {
    let mut titles = vec!["B w d G h P"];
    titles.extend(FILLS.iter().flat_map(|&(name, _)| [name, "worst"]));
    let mut out = head(&titles);
    for (_, geometry) in editions() {
        let of = |(_, mix)| {
            let [mean, worst, _] = triple(geometry, results.of(geometry, Keys::Uniform, mix));
            [mean, worst]
        };
        let mut cells = vec![numbers(geometry)];
        cells.extend(FILLS.into_iter().flat_map(of));
        out += &row(&cells);
    }
    out
}

/// Every case at 90 % of N, level by level.
fn by_level(results: &Results) -> String {
    let mut out = head(&[
        "B w d G h P",
        "keys",
        "1 merging",
        "1 compacting",
        "1 worst",
        "2 merging",
        "2 compacting",
        "2 worst",
        "3 merging",
        "3 compacting",
        "3 worst",
        "worst, merging alone",
        "limit",
        "calls",
        "margin",
    ]);
    for (case, figures) in results.0.iter().filter(|(case, _)| case.mix == STEADY) {
        let mut cells = vec![numbers(case.geometry), format!("{:?}", case.keys)];
        for level in 1..=MOST_LEVELS {
            cells.extend(level_cells(case.geometry, figures, level));
        }
        cells.push(grouped(figures.worst_merging as usize));
        cells.push(grouped(merge_limit(case.geometry)));
        cells.push(grouped(figures.calls as usize));
        cells.push(format!("{:.1} %", 100.0 * figures.margin));
        out += &row(&cells);
    }
    out
}

/// What one merge into each level can write at most, by demand 3: (G + 1) × W(i) + 1
/// out of level i.
fn merge_limit(geometry: Geometry) -> usize {
    let of = |level| (geometry.growth() + 1) * geometry.window(level) + 1;
    (0..geometry.levels()).map(of).sum()
}

/// What the calls wrote in one level, empty for a level that is not there.
fn level_cells(geometry: Geometry, figures: &Figures, level: usize) -> [String; 3] {
    if level > geometry.levels() {
        return Default::default();
    }
    let of = figures.levels[level - 1];
    let mean = |blocks: u64| format!("{:.3}", blocks as f64 / figures.calls as f64);
    [
        mean(of.merge_writes),
        mean(of.compaction_writes),
        grouped(of.worst as usize),
    ]
}

/// The six numbers as the call list program takes them.
fn numbers(geometry: Geometry) -> String {
    geometry
        .numbers()
        .map(|number| number.to_string())
        .join(" ")
}

/// The head of a table; all columns but the first stand right.
fn head(titles: &[&str]) -> String {
    let rule = "---:|".repeat(titles.len() - 1);
    format!("| {} |\n|---|{rule}\n", titles.join(" | "))
}

/// A row of a table.
fn row(cells: &[String]) -> String {
    format!("| {} |\n", cells.join(" | "))
}

/// A number with a comma before each three digits.
fn grouped(number: usize) -> String {
    match number {
        0..=999 => number.to_string(),
        _ => format!("{},{:03}", grouped(number / 1000), number % 1000),
    }
}
