//! What the programs that look for a difference are asked for.

use std::time::{Duration, SystemTime, UNIX_EPOCH};

/// What a program is asked for by its arguments.
pub enum Asked {
    /// `--self-test`
    SelfTest,
    /// `--repeat SEED NUMBER`
    Repeat { seed: u64, number: u64 },
    /// `SECONDS [SEED]`, with the clock's seed if none is given.
    Run { time: Duration, seed: u64 },
}

impl Asked {
    /// Nothing if the arguments are others.
    pub fn read() -> Option<Asked> {
        let arguments: Vec<String> = std::env::args().skip(1).collect();
        let words: Vec<&str> = arguments.iter().map(String::as_str).collect();
        let number = |text: &str| text.parse::<u64>().ok();
        match words[..] {
            ["--self-test"] => Some(Asked::SelfTest),
            ["--repeat", seed, group] => Some(Asked::Repeat {
                seed: number(seed)?,
                number: number(group)?,
            }),
            [seconds] | [seconds, _] => {
                let time = Duration::from_secs(number(seconds)?);
                let seed = match words.get(1) {
                    Some(text) => number(text)?,
                    None => {
                        SystemTime::now()
                            .duration_since(UNIX_EPOCH)
                            .ok()?
                            .as_nanos() as u64
                            % 1_000_000_000
                    }
                };
                Some(Asked::Run { time, seed })
            }
            _ => None,
        }
    }
}
