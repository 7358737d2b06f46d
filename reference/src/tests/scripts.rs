//! The call list program: its example, readings 21 to 23, and its reader against
//! a plain second one.

use super::seed;
use crate::generate::call_list;
use crate::script::{run, Bench, Line, LineReader, Said};
use std::io::BufReader;

/// What the program prints.
fn printed(input: &[u8]) -> String {
    printed_by(Bench::answer, input)
}

/// What one of the two programs prints.
fn printed_by(said: Said, input: &[u8]) -> String {
    let mut output = Vec::new();
    run(said, input, &mut output).expect("no trouble with memory");
    String::from_utf8(output).expect("plain text")
}

/// The example of document 01, with and without the last line end.
#[test]
fn example() {
    let input = "f 4 1 2 4 1 40\np 10 1\ng 10\nd 20\nd 10\ng 10";
    let output = "f 0 17\np 0 0 0 0\ng 0 1 1\nd 0 0 0 0\nd 0 1 0 0\ng 0 0 0\n";
    assert_eq!(printed(input.as_bytes()), output);
    assert_eq!(printed(format!("{input}\n").as_bytes()), output);
}

/// Unreadable lines of every kind.
const UNREADABLE: [&[u8]; 43] = [
    b"p",
    b"p ",
    b"p 1",
    b"p 1 ",
    b"p 1 2 ",
    b"p 1 2 3",
    b" p 1 2",
    b"p  1 2",
    b"p 1  2",
    b"p\t1 2",
    b"p 1\t2",
    b"p 1 2\t",
    b"p 1 2\r",
    b"d",
    b"d ",
    b"d 1 2",
    b"d +1",
    b"d -1",
    b"d 0x1",
    b"d 1.",
    b"d 1a",
    b"d a",
    b"d1",
    b"g",
    b"g 4294967296",
    b"g 1\0",
    b"g \xff",
    b"g 18446744073709551616",
    b"g 99999999999999999999999999999999999",
    b"G 1",
    b"gg 1",
    b"x 1",
    b"1",
    b" ",
    b"?",
    b"f",
    b"f 4 1 2 4 1",
    b"f 4 1 2 4 1 40 1",
    b"f 4 1 2 4 1 40 ",
    b"f 4 1 2 4 1 4294967296",
    b"f 4 1 2  4 1 40",
    b"\r",
    b"\0",
];

/// Reading 21: what is readable and what is not.
#[test]
fn reading_21() {
    for line in UNREADABLE {
        assert_eq!(printed(line), "?\n", "{line:?}");
        assert_eq!(printed(&[line, b"\n"].concat()), "?\n", "{line:?}");
    }
    let mut zeros = vec![b'0'; 100_000];
    zeros.splice(0..0, *b"g ");
    zeros.extend(*b"4294967295");
    assert_eq!(printed(&zeros), "g 1 0 0\n");
    assert_eq!(
        printed(b"f 0004 01 2 4 1 000000000000040\np 00010 4294967295\ng 010\n"),
        "f 0 17\np 0 0 0 0\ng 0 1 4294967295\n"
    );
    let mut long = b"f 4 1 2 4 1 40\ng ".to_vec();
    long.extend(vec![b'9'; 1_000_000]);
    long.extend(b"\ng 1\n");
    assert_eq!(printed(&long), "f 0 17\n?\ng 0 0 0\n");
}

/// Reading 22: a refused f leaves the old store, its length too; never 1; 2 comes
/// before 3; before any accepted f the store has no words.
#[test]
fn reading_22() {
    assert_eq!(
        printed(b"p 1 2\nd 1\ng 1\n"),
        "p 1 0 0 0\nd 1 0 0 0\ng 1 0 0\n"
    );
    assert_eq!(printed(b"f 0 0 0 0 0 0\ng 1\n"), "f 2 0\ng 1 0 0\n");
    assert_eq!(printed(b"f 16 1 2 4 1 8192\ng 1\n"), "f 3 0\ng 1 0 0\n");
    assert_eq!(printed(b"f 16 1 2 4 1 8193\n"), "f 2 0\n");
    let kept =
        "f 4 1 2 4 1 40\np 1 2\nf 16 1 2 4 1 8192\ng 1\nf 4 1 2 4 1 39\ng 1\nf 4 1 2 4\ng 1\n";
    assert_eq!(
        printed(kept.as_bytes()),
        "f 0 17\np 0 0 0 0\nf 3 0\ng 0 1 2\nf 2 0\ng 0 1 2\n?\ng 0 1 2\n"
    );
    // 12 + 2 × 5 + 8 + P × 6 with B = 2: the last P that 16,384 words hold.
    assert_eq!(printed(b"f 2 1 2 4 1 2725\n"), "f 0 8\n");
    assert_eq!(printed(b"f 2 1 2 4 1 2726\n"), "f 3 0\n");
    assert_eq!(
        printed(b"f 4 1 2 4 1 40\np 1 2\nf 4 1 2 4 1 40\ng 1\n"),
        "f 0 17\np 0 0 0 0\nf 0 17\ng 0 0 0\n"
    );
}

/// Reading 23: empty input prints nothing, a lone line end prints `?`, a final
/// line end begins no further line.
#[test]
fn reading_23() {
    assert_eq!(printed(b""), "");
    assert_eq!(printed(b"\n"), "?\n");
    assert_eq!(printed(b"\n\n"), "?\n?\n");
    assert_eq!(printed(b"g 1"), "g 1 0 0\n");
    assert_eq!(printed(b"g 1\n"), "g 1 0 0\n");
    assert_eq!(printed(b"g 1\n\n"), "g 1 0 0\n?\n");
    assert_eq!(printed(b"\ng 1"), "?\ng 1 0 0\n");
}

/// A second reader of a whole line, by splitting it.
fn plain_reader(line: &[u8]) -> Option<Line> {
    let text = std::str::from_utf8(line).ok()?;
    let fields: Vec<&str> = text.split(' ').collect();
    let number = |field: &&str| {
        let digits = !field.is_empty() && field.bytes().all(|byte| byte.is_ascii_digit());
        let short = field.trim_start_matches('0');
        match (digits, short.is_empty()) {
            (false, _) => None,
            (true, true) => Some(0),
            (true, false) => short.parse::<u32>().ok(),
        }
    };
    let numbers: Option<Vec<u32>> = fields[1..].iter().map(number).collect();
    match (fields[0], &numbers?[..]) {
        ("f", &[b, w, d, g, h, p]) => Some(Line::Format([b, w, d, g, h, p])),
        ("p", &[key, payload]) => Some(Line::Put(key, payload)),
        ("d", &[key]) => Some(Line::Delete(key)),
        ("g", &[key]) => Some(Line::Get(key)),
        _ => None,
    }
}

/// Generated lists with noise: both readers agree on every line, the lists have
/// the asked number of lines and every kind of answer, and the buffer's size does
/// not matter.
#[test]
fn generated_lists() {
    let seed = seed();
    let mut seen = std::collections::BTreeMap::<String, usize>::new();
    for number in 0..6 {
        let list = call_list(seed.wrapping_mul(100).wrapping_add(number), 4000, true);
        let mut lines: Vec<&[u8]> = list.split(|&byte| byte == b'\n').collect();
        if list.last() == Some(&b'\n') {
            lines.pop();
        }
        let mut bench = Bench::default();
        let mut expected = String::new();
        for line in &lines {
            let mut reader = LineReader::default();
            line.iter().for_each(|&byte| reader.take(byte));
            assert_eq!(reader.line(), plain_reader(line), "{line:?}");
            let answer = bench.answer(reader.line());
            *seen.entry(answer.chars().take(3).collect()).or_default() += 1;
            expected += &answer;
            expected.push('\n');
        }
        assert_eq!(printed(&list), expected);
        let mut output = Vec::new();
        let input = BufReader::with_capacity(7, &list[..]);
        run(Bench::answer, input, &mut output).expect("memory");
        assert_eq!(output, expected.as_bytes());
        assert!(lines.len() == 4000 || lines.len() == 3999 && list.last() == Some(&b'\n'));
    }
    println!("{seen:?}");
    for kind in ["?", "f 0", "f 2", "f 3", "p 0", "p 5", "d 0", "g 0"] {
        assert!(seen.contains_key(kind), "{kind}");
    }
}

/// The figures of geometry A with their tickets: the first merge takes page 0, the second
/// page 1. An overwriting, a refused put and an unreadable line have none.
#[test]
fn traced() {
    let keys = [10, 20, 30, 40, 50, 60, 70, 80];
    let puts: String = keys.iter().map(|key| format!("p {key} 1\n")).collect();
    let input =
        format!("f 4 1 2 4 1 40\n{puts}p 90 1\np 15 1\np 25 1\np 35 1\np 45 1\n?\np 45 2\nd 1");
    let output = [
        "f 0 17\n",
        &"p 0 0 0 0\n".repeat(8),
        "p 0 0 1 0\nt 0 0 0 1\n",
        &"p 0 0 0 0\n".repeat(3),
        "p 0 0 1 0\nt 0 1 0 1\n?\np 0 1 0 0\nd 0 0 0 0\n",
    ];
    assert_eq!(printed_by(Bench::trace, input.as_bytes()), output.concat());
    assert_eq!(printed_by(Bench::trace, b"p 1 2\n"), "p 1 0 0 0\n");
}

/// Generated lists: without its tickets a trace is what the call list program prints, and
/// their written column adds up to the line before.
#[test]
fn traces_of_generated_lists() {
    let mut tickets = 0;
    for number in 0..4 {
        let list = call_list(seed().wrapping_mul(100).wrapping_add(number), 4000, true);
        let traced = printed_by(Bench::trace, &list);
        let (mut rest, mut due) = (String::new(), 0);
        for line in traced.lines() {
            let number = |at| line.split(' ').nth(at).and_then(|text| text.parse().ok());
            if line.starts_with('t') {
                tickets += 1;
                due -= number(4).unwrap_or(0i64);
                continue;
            }
            assert_eq!(due, 0, "before {line}");
            if line.starts_with(['p', 'd']) {
                due = number(3).unwrap_or(0);
            }
            rest += &format!("{line}\n");
        }
        assert_eq!((rest, due), (printed(&list), 0));
    }
    assert!(tickets > 300, "{tickets}");
}
