//! What the fuzz tests share: guarded buffers, counts of rules, options.

use std::fmt;
use std::time::{Duration, Instant};

/// Bytes before and after each buffer.
pub const GUARD: usize = 64;

pub fn pattern(at: usize, salt: u8) -> u8 {
    (at as u8).wrapping_mul(37).wrapping_add(salt)
}

/// A buffer with its guards.
pub fn filled(room: usize, salt: u8) -> Vec<u8> {
    (0..room + 2 * GUARD).map(|at| pattern(at, salt)).collect()
}

/// How many inputs met each rule.
#[derive(Default)]
pub struct Met {
    counts: Vec<(&'static str, usize)>,
}

impl Met {
    pub fn count(&mut self, rule: &'static str, met: bool) {
        match self.counts.iter_mut().find(|(name, _)| *name == rule) {
            Some((_, count)) => *count += met as usize,
            None => self.counts.push((rule, met as usize)),
        }
    }
}

impl fmt::Display for Met {
    fn fmt(&self, out: &mut fmt::Formatter) -> fmt::Result {
        self.counts.iter().try_for_each(|(rule, count)| writeln!(out, "{rule}: {count}"))
    }
}

/// How many inputs, and from which seed: `[--seed N] [--count N] [--seconds N]`.
pub struct Run {
    pub seed: u64,
    count: u64,
    until: Option<Instant>,
    pub done: u64,
}

impl Run {
    pub fn from_arguments() -> Run {
        let seconds = option("--seconds").map(Duration::from_secs);
        Run {
            seed: option("--seed").unwrap_or(1),
            count: option("--count").unwrap_or(if seconds.is_some() { u64::MAX } else { 200_000 }),
            until: seconds.map(|seconds| Instant::now() + seconds),
            done: 0,
        }
    }

    /// What the next input is called; none at the end.
    pub fn begin_next(&mut self) -> Option<String> {
        if self.done == self.count || self.until.is_some_and(|until| Instant::now() >= until) {
            return None;
        }
        self.done += 1;
        Some(format!("seed {}, input {}", self.seed, self.done - 1))
    }
}

fn option(name: &str) -> Option<u64> {
    let mut arguments = std::env::args().skip_while(|argument| argument != name);
    arguments.next()?;
    match arguments.next().and_then(|value| value.parse().ok()) {
        Some(value) => Some(value),
        None => {
            eprintln!("{name} wants a number");
            std::process::exit(2);
        }
    }
}
