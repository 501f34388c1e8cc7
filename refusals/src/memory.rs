//! The programs, with the memory of `memory.c` preloaded into them, which refuses some of their requests.
use crate::calls::{Call, Outcome, CELLS};
use std::ffi::OsString;
use std::io::Write;
use std::ops::RangeInclusive;
use std::process::{Command, Stdio};

/// The requests of a run, and what is left of them.
pub struct Memory {
    /// The number of requests that failed.
    pub failed: u64,
    /// The number of blocks that are not freed.
    pub left: u64,
    /// The number of calls on a block that does not exist.
    pub strange: u64,
    /// The bytes of each request, for a new block or for a longer one.
    pub requested: Vec<usize>,
}

/// The programs, and the library that has their memory.
pub struct Programs {
    pub file: OsString,
    /// The one of many heaps.
    pub of_heaps: OsString,
    pub memory: OsString,
}

fn numbers<T: std::str::FromStr>(line: &str) -> Vec<T> {
    let all = line.split_whitespace().map(str::parse);
    all.collect::<Result<_, _>>().unwrap_or_default()
}

impl Programs {
    /// Makes a call with a text, in which these requests fail, by their number from 1. `None` where the
    /// program does not end as it has to.
    pub fn run(
        &self,
        call: Call,
        text: &str,
        failing: RangeInclusive<u64>,
    ) -> Option<(Outcome, Memory)> {
        let mut run = Command::new(if call.is_of_heaps() {
            &self.of_heaps
        } else {
            &self.file
        })
        .args(call.words())
        .env_clear()
        .env("LD_PRELOAD", &self.memory)
        .env("REFUSED", format!("{} {}", failing.start(), failing.end()))
        .stdin(Stdio::piped())
        .stdout(Stdio::piped())
        .stderr(Stdio::piped())
        .spawn()
        .ok()?;
        run.stdin.take()?.write_all(text.as_bytes()).ok()?;
        let ended = run.wait_with_output().ok()?;
        let (printed, counted) = (
            String::from_utf8(ended.stdout).ok()?,
            String::from_utf8(ended.stderr).ok()?,
        );
        let [_, result, line] = printed.lines().collect::<Vec<_>>()[..] else {
            return None;
        };
        let found = Outcome {
            result: result.parse().ok()?,
            numbers: numbers(line),
        };
        let [failed, left, strange, requested @ ..] = &numbers::<u64>(&counted)[..] else {
            return None;
        };
        let memory = Memory {
            failed: *failed,
            left: *left,
            strange: *strange,
            requested: requested.iter().map(|bytes| *bytes as usize).collect(),
        };
        let is_whole = ended.status.success() && found.numbers.len() < CELLS;
        is_whole.then_some((found, memory))
    }
}
