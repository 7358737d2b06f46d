//! A brake tester's console over the store, in Rust: the same events as in c/console.c, and the same lines printed
//! (c/console.out).

use mewilovang::{Change, Geometry, Record, Refusal, Ticket};

const GEOMETRY: Geometry = Geometry {
    b: 4,
    w: 1,
    d: 2,
    g: 4,
    h: 1,
    p: 40,
};

/// Tests are numbered by date: 0 to 49 on the first day, 50 to 99 on the second.
const DAY_NUMBERS: u32 = 50;
/// The tests that a listing has room for at a time.
const PIECE: usize = 5;
/// The merges of one call that the console has room to tell of.
const TICKETS: usize = 4;

#[derive(Clone, Copy)]
enum Event {
    Measured(u32, u32, u32),
    Traced(u32, u32, u32),
    Deleted(u32),
    Sheet(u32),
    All,
    Day(u32),
    Next(u32),
    BlockAround(u32),
    Stored,
    Check(usize),
}

use Event::*;

const FIRST_TESTS: &[Event] = &[
    Measured(10, 2410, 2490),
    Measured(20, 2420, 2480),
    Measured(30, 2430, 2470),
    Measured(40, 2440, 2460),
    Measured(50, 2450, 2450),
    Measured(60, 2460, 2440),
    Measured(70, 2470, 2430),
    Measured(80, 2480, 2420),
    Measured(90, 2490, 2410),
    Measured(50, 1800, 2600),
    Deleted(20),
    Deleted(21),
    Sheet(50),
    Sheet(20),
    Sheet(40),
    All,
    Day(1),
    BlockAround(25),
    BlockAround(55),
    Stored,
];

const UNTIL_FULL: &[Event] = &[
    Measured(15, 2415, 2485),
    Measured(25, 2425, 2475),
    Measured(35, 2435, 2465),
    Measured(45, 2445, 2455),
    Measured(46, 2446, 2454),
    Measured(47, 2447, 2453),
    Measured(48, 2448, 2452),
    Measured(49, 2449, 2451),
    Measured(55, 2455, 2445),
    Measured(100, 2500, 2400),
    Stored,
    Measured(49, 2300, 2600),
    Deleted(60),
    Traced(100, 2500, 2400),
    All,
    Day(1),
    Day(2),
    Day(4),
    Next(56),
    Next(101),
    BlockAround(37),
    Sheet(15),
    Sheet(60),
];

const DAMAGED: &[Event] = &[
    Check(438),
    Sheet(15),
    Measured(49, 2449, 2451),
    Deleted(15),
    All,
    Day(2),
    Next(56),
    BlockAround(37),
    Stored,
];

const REPAIRED: &[Event] = &[Check(438), Check(11), Check(437)];

fn why(r: Refusal) -> String {
    format!("{r} ({})", r.number())
}

fn blocks_written(c: Change) -> String {
    let blocks: u32 = c.levels.iter().map(|l| l.written + l.compacted).sum();
    if blocks == 0 {
        return String::new();
    }
    format!(", blocks written: {blocks}")
}

fn print_stored(test: u32, answer: Result<Change, Refusal>) {
    match answer {
        Err(r) => println!("test {test} not stored: {}", why(r)),
        Ok(c) => {
            let over = if c.live { " over an older reading" } else { "" };
            println!("test {test} stored{over}{}", blocks_written(c));
        }
    }
}

/// The progress bar, before a call that will merge. None before one that is turned down: the call itself says why.
fn show_bar(store: &[u32], will_merge: Result<bool, Refusal>) {
    if will_merge != Ok(true) {
        return;
    }
    if let Ok(about) = mewilovang::about(store) {
        let Geometry { w, g, .. } = about.geometry;
        println!("bar: at most {} blocks for the first merge", w * (g + 1));
    }
}

fn measured(store: &mut [u32], test: u32, left: u32, right: u32) {
    show_bar(store, mewilovang::will_put_merge(store, test));
    print_stored(test, mewilovang::put(store, test, left << 16 | right));
}

/// The same, and what made it slow: a line for each of its merges, as many as there are tickets for.
fn traced(store: &mut [u32], test: u32, left: u32, right: u32) {
    show_bar(store, mewilovang::will_put_merge(store, test));
    let mut tickets = [Ticket::default(); TICKETS];
    let answer = mewilovang::put_tickets(store, test, left << 16 | right, &mut tickets);
    print_stored(test, answer);
    let merges: u32 = answer.map_or(0, |c| c.levels.iter().map(|l| l.merges).sum());
    for t in tickets.iter().take(merges as usize) {
        println!(
            "  merge out of level {}: run from {} on, overlap {}, blocks written: {}",
            t.level, t.first, t.overlap, t.written
        );
    }
}

fn deleted(store: &mut [u32], test: u32) {
    show_bar(store, mewilovang::will_delete_merge(store, test));
    match mewilovang::delete(store, test) {
        Err(r) => println!("test {test} not deleted: {}", why(r)),
        Ok(c) if !c.live => println!("test {test} not deleted: no such test"),
        Ok(c) => println!("test {test} deleted{}", blocks_written(c)),
    }
}

fn sheet(store: &[u32], test: u32) {
    match mewilovang::look_up(store, test) {
        Err(r) => println!("test {test}: {}", why(r)),
        Ok(None) => println!("test {test}: no such test"),
        Ok(Some(reading)) => {
            let (left, right) = (reading >> 16, reading & 0xFFFF);
            let apart = left.abs_diff(right) * 100 / left.max(right).max(1);
            println!("test {test}: left {left} N, right {right} N, {apart} % apart");
        }
    }
}

fn test_line(key: u32, reading: u32) -> String {
    format!(" {key} ({}/{} N)", reading >> 16, reading & 0xFFFF)
}

/// The tests from the first to the last number, a line for each call: where more follow, some were written (PIECE > 0).
fn tests(store: &[u32], mut first: u32, last: u32) {
    let (mut keys, mut readings) = ([0; PIECE], [0; PIECE]);
    loop {
        print!("tests {first} to {last}:");
        match mewilovang::stretch(store, first, last, &mut keys, &mut readings) {
            Err(r) => return println!(" {}", why(r)),
            Ok(piece) => {
                for i in 0..piece.written {
                    print!("{}", test_line(keys[i], readings[i]));
                }
                if !piece.more {
                    return println!("{}", if piece.written == 0 { " none" } else { "" });
                }
                println!(", more follow");
                first = keys[piece.written - 1] + 1;
            }
        }
    }
}

fn all_tests(store: &[u32]) {
    println!("all tests");
    tests(store, 0, u32::MAX);
}

fn day(store: &[u32], number: u32) {
    println!("day {number}");
    tests(store, (number - 1) * DAY_NUMBERS, number * DAY_NUMBERS - 1);
}

fn next(store: &[u32], from: u32) {
    let said = match mewilovang::next(store, from) {
        Err(r) => format!(" {}", why(r)),
        Ok(None) => " none".to_string(),
        Ok(Some(Record { key, payload })) => test_line(key, payload),
    };
    println!("next test from {from} on:{said}");
}

fn spaced(numbers: &[u32]) -> String {
    numbers
        .iter()
        .map(u32::to_string)
        .collect::<Vec<_>>()
        .join(" ")
}

fn block_around(store: &[u32], test: u32) {
    let part = mewilovang::show_at(store, 1, test);
    let block = mewilovang::show(store, 1, test);
    if block.is_empty() {
        println!("level 1 around test {test}: no block");
        return;
    }
    let records = block[0] as usize;
    println!(
        "level 1 around test {test}: words {} to {}, {records} records: {}",
        part.start,
        part.end - 1,
        spaced(&block[2..2 + records])
    );
}

fn stored(store: &[u32]) {
    match mewilovang::about(store) {
        Err(r) => println!("tests stored: {}", why(r)),
        Ok(a) => println!("{} of {} tests stored", a.live, a.limit),
    }
}

fn check(store: &[u32], words: usize) {
    let said = match mewilovang::check(&store[..words]) {
        Ok(()) => "all is well (0)".to_string(),
        Err(r) => why(r),
    };
    if words == store.len() {
        println!("check: {said}");
    } else {
        println!("check of {words} words: {said}");
    }
}

fn run(store: &mut [u32], events: &[Event]) {
    for event in events {
        match *event {
            Measured(test, left, right) => measured(store, test, left, right),
            Traced(test, left, right) => traced(store, test, left, right),
            Deleted(test) => deleted(store, test),
            Sheet(test) => sheet(store, test),
            All => all_tests(store),
            Day(number) => day(store, number),
            Next(from) => next(store, from),
            BlockAround(test) => block_around(store, test),
            Stored => stored(store),
            Check(words) => check(store, words),
        }
    }
}

fn main() -> Result<(), Refusal> {
    let words = GEOMETRY.words().ok_or(Refusal::Geometry)?;
    let mut store = vec![0; words];
    let limit = mewilovang::format(&mut store, GEOMETRY)?;
    println!("{words} words lent, room for {limit} tests");
    run(&mut store, FIRST_TESTS);
    run(&mut store, UNTIL_FULL);

    println!("a bit of word 70 flips");
    store[70] ^= 0x8000_0000;
    let before = store.clone();
    run(&mut store, DAMAGED);
    let changed = before.iter().zip(&store).filter(|(a, b)| a != b).count();
    println!("words changed by these calls: {changed}");
    println!("the bit flips back");
    store[70] ^= 0x8000_0000;
    run(&mut store, REPAIRED);

    match mewilovang::format(&mut store, Geometry { p: 39, ..GEOMETRY }) {
        Ok(limit) => println!("format with 39 places: room for {limit} tests"),
        Err(r) => println!("format with 39 places: {}", why(r)),
    }
    sheet(&store, 15);
    Ok(())
}
