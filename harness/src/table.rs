//! The tables of `bench`.

use crate::measure::{mean, median, words_read, Block, Rounds, Times, IN_A_ROW, TICKETS};
use reference::geometry::Geometry;
use std::fmt::Write;

/// The lowest, the middle and the highest of some repetitions.
#[derive(Clone, Copy)]
pub struct Range {
    low: f64,
    middle: f64,
    high: f64,
}

impl Range {
    /// Of at least one.
    pub fn of(numbers: Vec<f64>) -> Range {
        Range {
            low: numbers.iter().copied().fold(f64::INFINITY, f64::min),
            high: numbers.iter().copied().fold(0.0, f64::max),
            middle: median(numbers),
        }
    }

    /// What is to be said of an aim.
    pub fn verdict(self, most: f64) -> &'static str {
        if self.high <= most {
            "met"
        } else if self.low > most {
            "MISSED"
        } else {
            "within the noise"
        }
    }

    fn text(self) -> String {
        let digits = if self.high < 1000.0 { 2 } else { 0 };
        format!("{:.digits$}-{:.digits$}", self.low, self.high)
    }
}

/// The figures of a block, by name: times in microseconds, and ratios.
const NAMES: [&str; 29] = [
    "plain pass",
    "check",
    "check / plain pass",
    "check / fast check",
    "look up / check",
    "put, mean / check",
    "stretch / check",
    "next / check",
    "put, still / check",
    "put, merging / check",
    "put, worst / check",
    "put / fast put",
    "merging put / fast merging put",
    "rules",
    "rules / fast",
    "live",
    "live / fast",
    "stretch",
    "stretch / fast stretch",
    "nexts / stretch",
    "stretch again / check",
    "put in turn",
    "put with tickets / put",
    "merging put in turn",
    "merging put with tickets / put",
    "delete with tickets / delete",
    "delete, mean / check",
    "will put merge / check",
    "will delete merge / check",
];
/// Where the ratios of the first table begin and end, the rest of the second, and
/// the parts of check; and what the tables of stretches, tickets and forecasts have.
const FIRST: std::ops::Range<usize> = 0..7;
const SECOND: std::ops::Range<usize> = 7..13;
const PARTS: std::ops::Range<usize> = 13..17;
const STRETCHES: [usize; 6] = [1, 17, 6, 20, 18, 19];
const TICKETED: std::ops::Range<usize> = 21..26;
const DELETE: usize = 26;
const FORECASTS: std::ops::Range<usize> = 27..29;

/// The aims, at most so much.
const AIMS: [(usize, f64); 4] = [(3, 1.2), (4, 1.1), (5, 2.0), (6, 2.5)];

/// The aim of check in plain passes, at growth 8 and where levels grow more slowly.
const PASSES: (usize, f64, f64) = (2, 6.0, 11.0);

/// The cold calls, in microseconds.
const COLD: [&str; 3] = ["cold check", "cold fast check", "cold put"];

/// The figures of a block of a log.
const LOG: [&str; 3] = [
    "log check",
    "log check / plain pass",
    "log check / fast check",
];

/// The figures of one block, table by table.
fn figures(block: &Block) -> [f64; NAMES.len()] {
    let tables = [
        &first(block)[..],
        &second(block),
        &parts(block),
        &stretches(block),
        &pairs(block),
        &forecasts(block),
    ];
    tables.concat().try_into().expect("a figure for each name")
}

/// What the aims speak of.
fn first(block: &Block) -> [f64; FIRST.end] {
    let (library, fast) = (&block.library, &block.fast);
    let (pass, check) = (library.pass.mean(), library.check.mean());
    [
        pass / 1000.0,
        check / 1000.0,
        check / pass,
        check / fast.check.mean(),
        library.look_up.mean() / check,
        library.put.mean() / check,
        library.stretch.mean() / check,
    ]
}

/// Next, and the puts by kind.
fn second(block: &Block) -> [f64; SECOND.end - SECOND.start] {
    let library = &block.library;
    let (check, puts) = (library.check.mean(), library.put.medians());
    let fast_puts = block.fast.put.medians();
    [
        library.next.mean() / check,
        of(block, &puts, false) / check,
        of(block, &puts, true) / check,
        puts.iter().copied().fold(0.0, f64::max) / check,
        mean(&puts) / mean(&fast_puts),
        of(block, &puts, true) / of(block, &fast_puts, true),
    ]
}

/// The mean of the puts with a merge, or of those without: the same puts of both
/// implementations, since they merge at the same ones.
fn of(block: &Block, puts: &[f64], merging: bool) -> f64 {
    let both = puts.iter().zip(&block.library.merges);
    let some = both.filter(|&(_, &merges)| (merges > 0) == merging);
    mean(&some.map(|(&time, _)| time).collect::<Vec<_>>())
}

/// Check in parts.
fn parts(block: &Block) -> [f64; PARTS.end - PARTS.start] {
    let both = [&block.library, &block.fast];
    let [check, fast_check] = both.map(|subject| subject.check.mean());
    let [rules, fast_rules] = both.map(|subject| subject.rules.mean());
    [
        rules / 1000.0,
        rules / fast_rules,
        (check - rules) / 1000.0,
        (check - rules) / (fast_check - fast_rules),
    ]
}

/// Stretches of all records.
fn stretches(block: &Block) -> [f64; 4] {
    let library = &block.library;
    let stretch = library.stretch.mean();
    [
        stretch / 1000.0,
        stretch / block.fast.stretch.mean(),
        library.nexts.mean() / stretch,
        library.again.mean() / library.check.mean(),
    ]
}

/// Puts and deletes without tickets and with, and deletes.
fn pairs(block: &Block) -> [f64; TICKETED.end - TICKETED.start + 1] {
    let [plain, ticketed] = block.pairs.put.each_ref().map(Times::medians);
    let [delete, with_tickets] = block.pairs.delete.each_ref().map(Times::mean);
    [
        mean(&plain) / 1000.0,
        mean(&ticketed) / mean(&plain),
        of(block, &plain, true) / 1000.0,
        of(block, &ticketed, true) / of(block, &plain, true),
        with_tickets / delete,
        block.library.delete.mean() / block.library.check.mean(),
    ]
}

/// Forecasts of a put and of a delete.
fn forecasts(block: &Block) -> [f64; FORECASTS.end - FORECASTS.start] {
    let library = &block.library;
    let check = library.check.mean();
    library.forecasts.each_ref().map(|one| one.mean() / check)
}

/// The figures of one block of a log.
fn log_figures(block: &Block) -> [f64; LOG.len()] {
    let (library, fast) = (&block.library, &block.fast);
    let check = library.check.mean();
    [
        check / 1000.0,
        check / library.pass.mean(),
        check / fast.check.mean(),
    ]
}

/// The range of each figure over the blocks.
fn ranges<const N: usize>(blocks: &[Block], figures: impl Fn(&Block) -> [f64; N]) -> [Range; N] {
    let blocks: Vec<_> = blocks.iter().map(figures).collect();
    std::array::from_fn(|i| Range::of(blocks.iter().map(|b| b[i]).collect()))
}

/// What was measured of one geometry.
pub struct Row {
    geometry: Geometry,
    words: usize,
    rounds: usize,
    figures: [Range; NAMES.len()],
    cold: [Range; COLD.len()],
    /// Cold calls of each kind.
    calls: usize,
    log: Option<[Range; LOG.len()]>,
    /// Puts with merges, and merges in all.
    merging: usize,
    merges: u32,
}

impl Row {
    /// The figures of these rounds.
    pub fn new(rounds: &Rounds) -> Row {
        let merges = &rounds.blocks[0].library.merges;
        let (cold, log) = (&rounds.cold, rounds.log.as_ref());
        let thousandth = |times: &Vec<f64>| Range::of(times.iter().map(|t| t / 1000.0).collect());
        Row {
            geometry: rounds.geometry,
            words: words_read(rounds.geometry, &rounds.store),
            rounds: rounds.blocks.iter().map(|block| block.rounds).sum(),
            figures: ranges(&rounds.blocks, figures),
            cold: [&cold.check, &cold.fast_check, &cold.put].map(thousandth),
            calls: cold.check.len(),
            log: log.map(|log| ranges(&log.blocks, log_figures)),
            merging: merges.iter().filter(|&&merges| merges > 0).count(),
            merges: merges.iter().sum(),
        }
    }

    /// The geometry's six numbers.
    fn name(&self) -> String {
        self.geometry.numbers().map(|n| n.to_string()).join(" ")
    }

    /// Some figures as cells.
    fn cells(&self, some: std::ops::Range<usize>) -> Vec<String> {
        self.figures[some]
            .iter()
            .map(|range| range.text())
            .collect()
    }

    /// The cells of the cold calls: each range and its middle, and check's as a multiple of the warm one.
    fn cold_cells(&self) -> Vec<String> {
        let mut cells = Vec::new();
        for range in self.cold {
            cells.push(format!("{:.1}-{:.1}", range.low, range.high));
            cells.push(format!("{:.1}", range.middle));
        }
        cells.push(format!(
            "{:.2}",
            self.cold[0].middle / self.figures[1].middle
        ));
        cells
    }

    /// The cells of the log.
    fn log_cells(&self) -> Vec<String> {
        match self.log {
            Some(log) => log.map(Range::text).into(),
            None => vec!["left out".to_string(); LOG.len()],
        }
    }
}

/// One line of a table: a geometry, and cells of one width.
fn line<T: AsRef<str>>(name: &str, cells: &[T]) {
    let text: String = cells
        .iter()
        .map(|cell| format!(" {:>13}", cell.as_ref()))
        .collect();
    println!("{name:<18}{text}");
}

/// A table: what stands above it, its head with the columns parted by a comma, and a line for each row.
fn table(above: &str, head: &str, rows: &[Row], cells: impl Fn(&Row) -> Vec<String>) {
    println!("\n{above}\n");
    line("B w d G h P", &head.split(',').collect::<Vec<_>>());
    rows.iter().for_each(|row| line(&row.name(), &cells(row)));
}

/// Prints the tables, and which aims are met at the largest geometries.
pub fn print(rows: &[Row]) {
    println!("Full stores, live = N, level 0 in steady state. Lowest and highest of the blocks of");
    println!("rounds, times in microseconds. All but the cold calls are warm.");
    print_first(rows);
    print_second(rows);
    print_parts(rows);
    print_stretches(rows);
    print_tickets(rows);
    print_forecasts(rows);
    print_cold(rows);
    print_logs(rows);
    rows.iter()
        .filter(|row| row.geometry.slots() == 8192)
        .for_each(print_aims);
}

/// What the aims speak of, with the aims.
fn print_first(rows: &[Row]) {
    let head = "plain pass,check,check/pass,check/fast,look up/check,put mean/check,stretch/check";
    let above = "What the aims speak of. Put: the mean of all puts. Stretch: of all N records.";
    table(above, head, rows, |row| row.cells(FIRST));
    let mut aims = [const { String::new() }; FIRST.end];
    aims[PASSES.0] = format!("{}, {}", PASSES.1, PASSES.2);
    AIMS.iter()
        .for_each(|&(at, most)| aims[at] = format!("{most:.2}"));
    line("aim at most", &aims);
}

/// Next, puts by kind and deletes, and how much was measured.
fn print_second(rows: &[Row]) {
    let head = "next/check,put still,put merging,put worst,put/fast put,merging/fast,\
        delete/check,N,words read,rounds";
    let above = "Put as a share of check: still are the puts without a merge, merging those with, worst the\n\
        slowest. Put/fast put: the mean put as a share of the fast baseline's; merging/fast: the mean of those\n\
        with a merge as a share of the fast baseline's same puts. Words: what check must read.";
    table(above, head, rows, |row| {
        let mut cells = row.cells(SECOND);
        cells.extend(row.cells(DELETE..DELETE + 1));
        cells.extend([row.geometry.key_limit(), row.words, row.rounds].map(|n| n.to_string()));
        cells
    });
}

/// Check in parts, and the merges.
fn print_parts(rows: &[Row]) {
    let above = "Check in parts, in microseconds and as a share of the fast baseline's: all rules but live (timed\n\
        with a breach in the last block), and the count of live keys. Then the puts with merges, and their merges.";
    let head = "rules,rules/fast,live,live/fast,merging,merges";
    table(above, head, rows, |row| {
        let mut cells = row.cells(PARTS);
        cells.extend([row.merging.to_string(), row.merges.to_string()]);
        cells
    });
}

/// Stretches of all records.
fn print_stretches(rows: &[Row]) {
    let above = format!(
        "A stretch of all N records after other calls, with arrays of N entries: microseconds, a multiple of check, a\n\
        share of the fast baseline's. Again: the same stretch at once again. Nexts/stretch: one next for each record\n\
        instead, reckoned from {IN_A_ROW} in a row."
    );
    let head = "N,check,stretch,stretch/check,again/check,stretch/fast,nexts/stretch";
    table(&above, head, rows, |row| {
        let mut cells = vec![row.geometry.key_limit().to_string()];
        cells.extend(STRETCHES.map(|at| row.figures[at].text()));
        cells
    });
}

/// Puts and deletes without tickets and with.
fn print_tickets(rows: &[Row]) {
    let above = format!(
        "The same puts and deletes on two copies of the store in turn, without tickets and with {TICKETS}: microseconds without,\n\
        and with tickets as a share of it; of all puts, of those with a merge, of the deletes."
    );
    let head = "put,tickets/put,merging put,tickets/put,tickets/del";
    table(&above, head, rows, |row| row.cells(TICKETED));
}

/// Forecasts.
fn print_forecasts(rows: &[Row]) {
    let above = "Forecasts of a put and of a delete as a share of check, of live keys and of absent ones, whose put would be\n\
        turned down for 5.";
    let head = "will put,will delete";
    table(above, head, rows, |row| row.cells(FORECASTS));
}

/// Cold calls.
fn print_cold(rows: &[Row]) {
    let above = format!(
        "Cold calls, in microseconds: before each, 64 MB of other memory gone over and 65,536 random words sorted.\n\
        {} calls of each kind: lowest and highest, then the middle. Last: the middle check as a multiple of the warm one.",
        rows[0].calls
    );
    let head = "check,middle,fast check,middle,put,middle,check/warm";
    table(&above, head, rows, Row::cold_cells);
}

/// Check on logs.
fn print_logs(rows: &[Row]) {
    let above = "A full store as a log leaves it: keys rise, and the oldest goes for each new one, so the levels do not interleave.\n\
        Left out where level h has no block in such a store.";
    table(above, "check,check/pass,check/fast", rows, Row::log_cells);
}

/// The aims of one geometry.
fn print_aims(row: &Row) {
    println!("\nAims at {}:", row.name());
    let passes = if row.geometry.growth() < 8 {
        PASSES.2
    } else {
        PASSES.1
    };
    for (figure, most) in [(PASSES.0, passes)].into_iter().chain(AIMS) {
        let (name, range) = (NAMES[figure], row.figures[figure]);
        println!(
            "  {name:<20} {:>6.2} to {:>5.2}, aim {most:>5.2}: {}",
            range.low,
            range.high,
            range.verdict(most)
        );
    }
}

/// All figures, a line for each: geometry, name, lowest, middle, highest, parted by tabs.
/// Those of a log that was left out are missing.
pub fn lines(rows: &[Row]) -> String {
    let mut text = String::new();
    for row in rows {
        let names = NAMES.iter().chain(&COLD).chain(&LOG);
        let ranges = row.figures.iter().chain(&row.cold);
        for (name, range) in names.zip(ranges.chain(row.log.iter().flatten())) {
            let Range { low, middle, high } = range;
            writeln!(
                text,
                "{}\t{name}\t{low:.4}\t{middle:.4}\t{high:.4}",
                row.name()
            )
            .expect("text");
        }
    }
    text
}
