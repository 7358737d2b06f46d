//! Prints an antt module of short histories for the definitions to be computed on:
//! `histories SEED COUNT CALLS WORDS`. Each history is a store that no call list
//! reaches, some calls on it, their answers' numbers and the words afterwards, all
//! by this implementation. CALLS counts the calls but stretches, one of which follows
//! every second of them, and forecasts, one of which goes before each of the others that
//! is a put or delete. Free slots hold 7 in each word, so that the text stays short: words
//! are written as counts and values.

use reference::calls;
use reference::generate::{Choices, Stream};
use reference::geometry::Geometry;
use reference::level::View;
use reference::random::Random;
use reference::script::Line;
use reference::unreachable;
use std::process::ExitCode;

/// A call and the numbers of its answer, as the definitions' `perform` gives them.
struct Step {
    act: String,
    answer: Vec<u32>,
    merges: usize,
}

fn main() -> ExitCode {
    let arguments: Vec<usize> = std::env::args()
        .skip(1)
        .filter_map(|text| text.parse().ok())
        .collect();
    let [seed, count, calls, words] = arguments[..] else {
        eprintln!("usage: histories SEED COUNT CALLS WORDS");
        return ExitCode::FAILURE;
    };
    let mut random = Random::new(seed as u64);
    let mut stretches = Random::new(seed as u64 ^ 38);
    let choices = Choices::new(words);
    print!("{HEAD}");
    for number in 1..=count {
        let text = history(&mut random, &mut stretches, &choices, number, calls);
        print!("{text}");
    }
    ExitCode::SUCCESS
}

/// One history as a theorem. Of some tries, the one with the most merges is taken.
/// The stretches are drawn apart, so that the other calls don't depend on them.
fn history(
    random: &mut Random,
    stretches: &mut Random,
    choices: &Choices,
    number: usize,
    count: usize,
) -> String {
    let tries = (0..20).map(|_| {
        let geometry = choices.pick(random);
        let start = start(random, geometry);
        let (steps, end) = run(random, stretches, geometry, &start, count);
        let merges: usize = steps.iter().map(|step| step.merges).sum();
        (merges, start, steps, end)
    });
    let (merges, start, steps, end) = tries.max_by_key(|tried| tried.0).expect("there are tries");
    let acts: Vec<&str> = steps.iter().map(|step| step.act.as_str()).collect();
    let answers: Vec<String> = steps
        .iter()
        .map(|step| format!("({})", list(&step.answer)))
        .collect();
    format!(
        "\n-- {merges} merges\npub history_{number} : agrees (expand ({})) ({} ∷ []) ({} ∷ []) (expand ({})) ≡ true\nunfolding agrees perform\nhistory_{number} = refl\n",
        list(&counted(&start)),
        acts.join(" ∷ "),
        answers.join(" ∷ "),
        list(&counted(&end)),
    )
}

/// A random store that passes the form check, its free slots filled with 7.
fn start(random: &mut Random, geometry: Geometry) -> Vec<u32> {
    let mut words = unreachable::store(random, geometry);
    let listed: Vec<u32> = {
        let view = View {
            geometry,
            words: &words,
        };
        (1..=geometry.levels())
            .flat_map(|level| view.list(level).to_vec())
            .collect()
    };
    for slot in (0..geometry.slots()).filter(|&slot| !listed.contains(&(slot as u32))) {
        let at = geometry.slot_at(slot);
        words[at..at + geometry.slot_words()].fill(7);
    }
    words
}

/// Runs so many random calls, mostly puts and deletes, after every second one a stretch,
/// and before every other one its forecast.
fn run(
    random: &mut Random,
    stretches: &mut Random,
    geometry: Geometry,
    start: &[u32],
    count: usize,
) -> (Vec<Step>, Vec<u32>) {
    let mut words = start.to_vec();
    let keys = unreachable::map(&words).into_keys().collect();
    let mut stream = Stream::new(random, geometry, keys);
    let mut steps = Vec::new();
    for number in 1..=count {
        let line = stream.call(random);
        if number % 2 == 1 {
            steps.extend(forecast(&words, &line));
        }
        steps.push(step(random, &mut words, line));
        if number % 2 == 0 {
            steps.push(stretch(stretches, &words));
        }
    }
    (steps, words)
}

/// A put, a delete, or a call that changes nothing.
fn step(random: &mut Random, words: &mut [u32], line: Line) -> Step {
    let (act, (answer, merges)) = match line {
        Line::Put(key, payload) => (
            format!("put_key {key} {payload}"),
            calls::put_listed(words, key, payload),
        ),
        Line::Delete(key) => (format!("del_key {key}"), calls::delete_listed(words, key)),
        Line::Get(key) => return reading(random, words, key),
        // A stream has none of these.
        Line::Format(_) => return reading(random, words, 0),
    };
    Step {
        act,
        answer: changed(&answer),
        merges: merges.len(),
    }
}

/// What the put or delete of this line will do, for card 5.
fn forecast(words: &[u32], line: &Line) -> Option<Step> {
    let (act, answer) = match *line {
        Line::Put(key, _) => (format!("will_put {key}"), calls::will_put_merge(words, key)),
        Line::Delete(key) => (
            format!("will_delete {key}"),
            calls::will_delete_merge(words, key),
        ),
        _ => return None,
    };
    Some(Step {
        act,
        answer: vec![answer.reason, answer.merges],
        merges: 0,
    })
}

/// A stretch between keys at and beside live ones, at the ends or anywhere, now and
/// then with the first key above the last, in short arrays filled with words that
/// differ. Its numbers: refusal, written, more, then all entries of both arrays.
fn stretch(random: &mut Random, words: &[u32]) -> Step {
    let live: Vec<u32> = unreachable::map(words).into_keys().collect();
    let mut end = || match random.below(8) {
        0 => random.pick(&[0, u32::MAX]),
        1 => random.word(),
        _ if live.is_empty() => random.word(),
        _ => random
            .pick(&live)
            .wrapping_add(random.pick(&[0, 0, 0, 1, u32::MAX])),
    };
    let (one, other) = (end(), end());
    let (mut first, mut last) = (one.min(other), one.max(other));
    if random.one_in(8) {
        (first, last) = (last, first);
    }
    let length = random.below(7);
    let longer = length + random.between(1, 3);
    let [length, other] = random.pick(&[[length; 2], [length, longer], [longer, length]]);
    let mut keys: Vec<u32> = (601..).take(length).collect();
    let mut payloads: Vec<u32> = (801..).take(other).collect();
    let act = format!(
        "stretch_keys {first} {last} ({}) ({})",
        list(&keys),
        list(&payloads)
    );
    let answer = calls::stretch(words, first, last, &mut keys, &mut payloads);
    let numbers = vec![answer.refusal, answer.written, u32::from(answer.more)];
    Step {
        act,
        answer: [numbers, keys, payloads].concat(),
        merges: 0,
    }
}

/// One of the calls that change nothing.
fn reading(random: &mut Random, words: &[u32], key: u32) -> Step {
    let (act, answer) = match random.below(4) {
        0 => ("check".to_string(), vec![calls::check(words)]),
        1 => {
            let answer = calls::look_up(words, key);
            (
                format!("look_up_key {key}"),
                vec![answer.refusal, u32::from(answer.found), answer.payload],
            )
        }
        2 => {
            let answer = calls::next(words, key);
            (
                format!("next_key {key}"),
                vec![
                    answer.refusal,
                    u32::from(answer.found),
                    answer.key,
                    answer.payload,
                ],
            )
        }
        _ => {
            let level = random.below(4) as u32;
            (
                format!("show_key {level} {key}"),
                calls::show(words, level, key).to_vec(),
            )
        }
    };
    Step {
        act,
        answer,
        merges: 0,
    }
}

/// Refusal, live before, and the nine counts.
fn changed(answer: &calls::Changed) -> Vec<u32> {
    let mut numbers = vec![answer.refusal, u32::from(answer.live_before)];
    for level in &answer.levels {
        numbers.extend([level.merges, level.merge_writes, level.compaction_writes]);
    }
    numbers
}

/// Counts and values of equal neighbours.
fn counted(words: &[u32]) -> Vec<u32> {
    let mut out: Vec<u32> = Vec::new();
    for &word in words {
        match out.len() {
            n if n > 0 && out[n - 1] == word => out[n - 2] += 1,
            _ => out.extend([1, word]),
        }
    }
    out
}

/// A list in antt.
fn list(numbers: &[u32]) -> String {
    let mut out = String::new();
    for number in numbers {
        out.push_str(&format!("{number} ∷ "));
    }
    out + "[]"
}

const HEAD: &str = "-- Short histories from stores that no call list reaches: the calls' definitions, computed, agree with the reference
-- implementation in every answer and every word. Made by reference/src/bin/histories.rs; do not edit.
use Rattle.std.specs.Prelude.{◌≡◌, refl, true, [], ◌∷◌}
use Rattle.words.specs.Bench.{check, look_up_key, next_key, show_key, put_key, del_key, stretch_keys, will_put, will_delete, perform, expand, agrees}
";
