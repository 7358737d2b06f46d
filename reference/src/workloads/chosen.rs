//! Which geometries and states are measured.

use super::measure::Case;
use super::requests::{Keys, Mix};
use crate::generate::with_fewest_slots;
use crate::geometry::Geometry;

/// The state that most tables measure: 90 % of N.
pub const STEADY: Mix = Mix::Steady(90);
/// The geometry round which one number at a time is varied: B, w, d, G, h.
pub const MIDDLE: [usize; 5] = [8, 2, 4, 4, 2];

/// One of the five numbers, by its place in `MIDDLE`, and the values that it takes.
pub struct Knob {
    pub name: &'static str,
    pub meaning: &'static str,
    pub at: usize,
    pub values: &'static [usize],
}

/// The five numbers that a buyer chooses.
pub const KNOBS: [Knob; 5] = [
    knob("B", "records a block", 0, &[2, 4, 8, 12, 16]),
    knob("w", "blocks a window", 1, &[1, 2, 4, 8, 16]),
    knob("d", "windows a level", 2, &[2, 4, 8, 12, 16]),
    knob("G", "growth from level to level", 3, &[3, 4, 6, 8, 10]),
    knob("h", "levels on flash", 4, &[1, 2, 3]),
];

/// A knob.
const fn knob(
    name: &'static str,
    meaning: &'static str,
    at: usize,
    values: &'static [usize],
) -> Knob {
    Knob {
        name,
        meaning,
        at,
        values,
    }
}

impl Knob {
    /// The middle geometry with this number changed, and the fewest places.
    pub fn geometry(&self, value: usize) -> Geometry {
        let mut five = MIDDLE;
        five[self.at] = value;
        fewest(five)
    }

    /// All its geometries.
    pub fn geometries(&self) -> Vec<Geometry> {
        let values = self.values.iter();
        values.map(|&value| self.geometry(value)).collect()
    }
}

/// B = 16 and a last level of 1,000 or 1,024 blocks, by several ways.
pub const SAME_BOTTOM: [[usize; 5]; 10] = [
    [16, 16, 16, 4, 1],
    [16, 8, 16, 8, 1],
    [16, 10, 10, 10, 1],
    [16, 4, 16, 4, 2],
    [16, 16, 4, 4, 2],
    [16, 1, 16, 8, 2],
    [16, 1, 10, 10, 2],
    [16, 1, 16, 4, 3],
    [16, 4, 4, 4, 3],
    [16, 1, 2, 8, 3],
];

/// Geometries as they would be sold, with their places.
const EDITIONS: [(&str, [u32; 6]); 6] = [
    ("Basic, the bench's geometry A", [4, 1, 2, 4, 1, 40]),
    ("Basic", [16, 2, 4, 8, 1, 264]),
    ("Workshop, two levels", [16, 2, 4, 8, 2, 2312]),
    ("Workshop, three levels", [16, 2, 4, 4, 3, 2696]),
    ("Fleet, two levels", [16, 1, 10, 10, 2, 8192]),
    ("Fleet, three levels", [16, 2, 8, 4, 3, 8192]),
];

/// The states that the table of fills compares.
pub const FILLS: [(&str, Mix); 4] = [
    ("50 % of N, mean", Mix::Steady(50)),
    ("90 % of N, mean", STEADY),
    ("N, delete then insert, mean", Mix::Renewal),
    ("N, overwrites, mean", Mix::Overwrites),
];

/// Both workloads, in the order of the columns.
pub const WORKLOADS: [Keys; 2] = [Keys::Uniform, Keys::Normal];

/// A geometry with the fewest places.
pub fn fewest(five: [usize; 5]) -> Geometry {
    with_fewest_slots(five).expect("the listed geometries are legal")
}

/// The geometries of the table of editions.
pub fn editions() -> Vec<(&'static str, Geometry)> {
    let legal = |numbers| Geometry::new(numbers).expect("the listed geometries are legal");
    EDITIONS
        .map(|(name, numbers)| (name, legal(numbers)))
        .to_vec()
}

/// The cases of the tables of the five numbers, each once.
pub fn number_cases() -> Vec<Case> {
    let geometries = KNOBS.iter().flat_map(Knob::geometries);
    once(geometries.flat_map(in_both))
}

/// The cases of all tables, each once.
pub fn all_cases() -> Vec<Case> {
    let sold = || editions().into_iter().map(|(_, geometry)| geometry);
    let others = SAME_BOTTOM.map(fewest).into_iter().chain(sold());
    let filled = |geometry| FILLS.map(|(_, mix)| Case::new(geometry, Keys::Uniform, mix));
    let others = others.flat_map(in_both).chain(sold().flat_map(filled));
    once(number_cases().into_iter().chain(others))
}

/// A geometry at 90 % of N, under both workloads.
fn in_both(geometry: Geometry) -> [Case; 2] {
    WORKLOADS.map(|keys| Case::new(geometry, keys, STEADY))
}

/// The cases in their order, without those that come again.
fn once(cases: impl Iterator<Item = Case>) -> Vec<Case> {
    let mut all = Vec::new();
    for case in cases {
        if !all.contains(&case) {
            all.push(case);
        }
    }
    all
}
