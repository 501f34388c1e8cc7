//! One side alone, as a program has it: the main workloads.
//!
//! - `--bench`, by which `cargo bench` calls it in `rust/offset-allocator-proved`: the nanoseconds of a step in each, and where
//!   `OFFSET_ALLOCATOR_SOURCE` names the sources of the original (as `bench/run` takes them) those of the original, by turns.
//! - `list`: the name and the number of steps of each.
//! - `time NAME COUNT`: the nanoseconds of the fastest of COUNT runs, and of the fastest of as many without steps, and the
//!   checksum of the answers.
//! - `play NAME COUNT`: one run with at most so many of its steps, for a counter of instructions: how many, and the checksum.
//! - `elsewhere`: calls the second call sites, which a compiler would leave out otherwise.
// not all of what the programs share is used by each
#![allow(dead_code, unused_imports, unused_macros)]
// cargo bench has no features
#![allow(unexpected_cfgs)]
#[cfg(feature = "original")]
mod original;
#[cfg(feature = "tickets")]
mod guarded;
#[cfg(not(any(feature = "original", feature = "tickets")))]
mod erased;

mod player;
mod traces;
mod workloads;

#[cfg(feature = "original")]
use {offset_allocator::Allocator, original::original_play_32 as play};
#[cfg(feature = "tickets")]
use {guarded::guarded_play_32 as play, offset_allocator_guarded::Guarded as Allocator};
#[cfg(not(any(feature = "original", feature = "tickets")))]
use {erased::erased_play_32 as play, offset_allocator_proved::Allocator};
use std::hint::black_box;
use std::path::{Path, PathBuf};
use std::process::Command;
use std::time::Instant;
use workloads::{Step, Work, Workload};

/// The workloads beside the recorded programs: the last but one has 262,144 live ranges.
const RANDOM: [&str; 5] = ["random, 1k live", "random, 16k live", "random, 60k live", "growth, 1048576 nodes", "random, a million live"];

fn names() -> impl Iterator<Item = String> {
    traces::names().into_iter().chain(RANDOM.map(String::from))
}

struct Played {
    w: Workload,
    slots: usize,
    steps: Vec<Step>,
}

fn workload(name: &str) -> Played {
    let mut w = workloads::all(Some(name)).pop().unwrap_or_else(|| panic!("no workload {name}"));
    let Work::Steps { slots, steps } = &mut w.work else { panic!("{name} has no steps") };
    let (slots, steps) = (*slots, std::mem::take(steps));
    Played { w, slots, steps }
}

/// The nanoseconds of a run with these steps, and its checksum.
fn timed(w: &Workload, slots: usize, steps: &[Step]) -> (f64, u64) {
    let start = Instant::now();
    let sum = black_box(unsafe { play(w.space, w.nodes, slots, steps.as_ptr(), steps.len()) });
    (start.elapsed().as_nanos() as f64, sum)
}

/// The nanoseconds of the fastest of so many runs, and of the fastest without steps, and the checksum.
fn fastest(of: &Played, count: u32) -> [u64; 3] {
    let (mut all, mut none, mut sum) = (f64::MAX, f64::MAX, 0);
    for _ in 0..count {
        let (taken, found) = timed(&of.w, of.slots, &of.steps);
        (all, sum) = (all.min(taken), found);
        none = none.min(timed(&of.w, of.slots, &[]).0);
    }
    [all as u64, none as u64, sum]
}

/// The program of the original, if its sources are at hand: `bench/original` builds it as cargo builds this one.
fn original() -> Option<PathBuf> {
    let source = std::env::var_os("OFFSET_ALLOCATOR_SOURCE")?;
    let bench = traces::folder().parent().unwrap().to_path_buf();
    let player = bench.join("players/original");
    let words = ["build", "--release", "--quiet", "--features", "two-sites"];
    let built = Command::new(bench.join("original")).env("CPU_FLAGS", "").arg(source).arg(&player).args(words).status();
    built.is_ok_and(|it| it.success()).then(|| player.join("out/target/release/original"))
}

/// What the program of the original prints of as many runs.
fn fastest_of(program: &Path, name: &str, count: u32) -> [u64; 3] {
    let done = Command::new(program).args(["time", name, &count.to_string()]).output().unwrap();
    let words: Vec<u64> = String::from_utf8(done.stdout).unwrap().split_whitespace().map(|it| it.parse().unwrap()).collect();
    words.try_into().unwrap()
}

fn bench() {
    const TURNS: u32 = 5;
    let beside = original();
    if beside.is_none() {
        println!("ours alone: OFFSET_ALLOCATOR_SOURCE is not set, or what it names was not built");
    }
    println!("{:26}{:>8}{}", "nanoseconds a step", "ours", if beside.is_some() { "  original   ours/original" } else { "" });
    for name in names() {
        let played = workload(&name);
        let mut best = [[u64::MAX; 2]; 2];
        for _ in 0..TURNS {
            let mut taken = vec![fastest(&played, 2)];
            taken.extend(beside.iter().map(|it| fastest_of(it, &name, 2)));
            for (best, [all, none, sum]) in best.iter_mut().zip(&taken) {
                assert_eq!(*sum, taken[0][2], "{name}: the answers differ");
                *best = [best[0].min(*all), best[1].min(*none)];
            }
        }
        let [ours, theirs] = best.map(|[all, none]| all.saturating_sub(none) as f64 / played.steps.len() as f64);
        match beside {
            Some(_) => println!("{name:26}{ours:8.1}{theirs:10.1}{:16.2}", ours / theirs),
            None => println!("{name:26}{ours:8.1}"),
        }
    }
}

/// The second call sites.
#[cfg(feature = "two-sites")]
#[inline(never)]
fn elsewhere(space: &mut Allocator, size: u32) -> bool {
    player::elsewhere(space, size)
}

fn main() {
    let words: Vec<String> = std::env::args().skip(1).collect();
    let words: Vec<&str> = words.iter().map(String::as_str).collect();
    match words[..] {
        ["--bench"] => bench(),
        ["list"] => {
            for name in names() {
                println!("{name}\t{}", workload(&name).steps.len());
            }
        }
        ["time", name, count] => {
            let [all, none, sum] = fastest(&workload(name), count.parse().unwrap());
            println!("{all}\t{none}\t{sum}");
        }
        ["play", name, count] => {
            let Played { w, slots, steps } = workload(name);
            let steps = &steps[..steps.len().min(count.parse().unwrap())];
            println!("{}\t{}", steps.len(), timed(&w, slots, steps).1);
        }
        #[cfg(feature = "two-sites")]
        ["elsewhere"] => println!("{}", elsewhere(&mut <Allocator as player::Space>::make(1000, 100), 1000)),
        _ => panic!("list | time | play | elsewhere"),
    }
}
