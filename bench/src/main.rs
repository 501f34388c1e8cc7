//! Runs the workloads on the linked sides, and prints its measurements, separated by tabs.
//!
//! - `measure list`: each workload's name, nodes, space, steps, measured function without the prefix of its side, and
//!   kind.
//! - `measure time NAME SIDE...`: for each side nanoseconds a step, by the clock and of the processor, those with the
//!   construction by the clock, and then those of each run by the clock.
//! - `measure play NAME SIDE all|none`: one run with all of its steps or with none, for a counter of instructions.
//! - `measure check SECONDS NAME SIDE...`: the number of refusals, after a check that the sides have equal answers and
//!   that no live ranges overlap; it ends by a signal where a run of the first side takes more processor time.
//! - `measure heap NAME SIDE [NODES]`: the bytes of a side after construction, and the most bytes that a run adds to
//!   them.
//! - `measure resident NAME SIDE [NODES]`: the bytes of the pages that a run is the first to touch, and the most that it
//!   adds to the resident ones, as far as the system knows.
//! - `measure nodes NAME`: the smallest node limit with which nothing is refused.
//! - `measure threads`: the ways to share allocators between threads, with nanoseconds a step.
//! - `measure compacting LIVE`: for each way to compact a space with this many live ranges nanoseconds a range; with the
//!   name of a WAY one run of it, for a counter of instructions.
mod check;
#[cfg(not(feature = "other-sites"))]
mod compacting;
mod erased;
#[cfg(not(feature = "other-sites"))]
mod guarded;
mod original;
mod peers;
mod player;
mod sides;
mod threads;
mod traces;
mod workloads;

use sides::{Side, REFUSED};
use std::ffi::{c_char, c_void};
use std::time::Instant;
use workloads::{Step, Width, Work, Workload, RESET};

/// The number of rounds, where the environment has no `ROUNDS`.
const ROUNDS: usize = 9;
/// The most rounds where a run takes a fifth of a second or more.
const LONG_RUNS: usize = 3;
const LONG: f64 = 0.2e9;

/// One run on a side. With `none` it leaves out what is measured: all steps, so that it only constructs the tables, or the
/// last one, or all allocators but the first, whose calls load what they need.
fn run(w: &Workload, side: &Side, none: bool) -> u64 {
    let play = |slots, steps: &[Step], count| unsafe { side.play[w.width as usize](w.space, w.nodes, slots, steps.as_ptr(), count) };
    match &w.work {
        Work::Steps { slots, steps } => {
            let count = if none { 0 } else { steps.len() };
            play(*slots, steps, count)
        }
        Work::Used { times, slots, steps } => {
            let count = if none { 0 } else { *times };
            (0..=count).fold(0, |sum, _| sum + play(*slots, steps, steps.len()))
        }
        Work::Last { slots, steps } => play(*slots, steps, steps.len() - usize::from(none)),
        Work::Make { times } => {
            let make = side.make.unwrap_or_else(|| panic!("{} has no tables to construct", side.name));
            let count = if none { 0 } else { *times };
            (0..=count).fold(0, |sum, _| sum + unsafe { make[w.width as usize](w.space, w.nodes) })
        }
    }
}

extern "C" {
    fn clock_gettime(clock: i32, time: *mut [i64; 2]) -> i32;
    fn setitimer(which: i32, interval_and_value: &[[i64; 2]; 2], old: *mut c_void) -> i32;
    fn dlsym(within: *const c_void, name: *const c_char) -> *const c_void;
}

/// Nanoseconds that the processor has spent on this thread.
fn processor() -> f64 {
    let mut time = [0; 2];
    assert_eq!(unsafe { clock_gettime(3, &mut time) }, 0);
    time[0] as f64 * 1e9 + time[1] as f64
}

/// The nanoseconds of a run, by the clock and of the processor, and its checksum.
fn time_run(w: &Workload, side: &Side, none: bool) -> ([f64; 2], u64) {
    let (start, spent) = (Instant::now(), processor());
    let sum = std::hint::black_box(run(w, side, none));
    ([start.elapsed().as_nanos() as f64, processor() - spent], sum)
}

/// Nanoseconds a step: of the fastest run by the clock, of the processor, and by the clock with the construction; and of
/// each run by the clock. The sides take turns. Those that must have the same answers have equal checksums in each run.
fn times(w: &Workload, sides: &[Side]) -> Vec<([f64; 3], Vec<f64>)> {
    let mut fastest = vec![[[f64::MAX; 2]; 2]; sides.len()];
    let mut runs = vec![Vec::new(); sides.len()];
    let a_step = |[all, none]: [[f64; 2]; 2], by: usize| (all[by] - none[by]) / w.count() as f64;
    let mut sums = [None; 2];
    let rounds = std::env::var("ROUNDS").map_or(ROUNDS, |rounds| rounds.parse().unwrap());
    for _ in 0..rounds {
        for (s, side) in sides.iter().enumerate() {
            if runs[s].len() >= LONG_RUNS && fastest[s][0][0] >= LONG {
                continue;
            }
            let taken = [false, true].map(|none| {
                let (taken, sum) = time_run(w, side, none);
                if side.make.is_some() {
                    let known = *sums[usize::from(none)].get_or_insert(sum);
                    assert_eq!(sum, known, "{}: the answers of {} and {} differ", w.name, side.name, sides[0].name);
                }
                taken
            });
            runs[s].push(a_step(taken, 0));
            for (best, taken) in fastest[s].iter_mut().zip(taken) {
                *best = [best[0].min(taken[0]), best[1].min(taken[1])];
            }
        }
    }
    fastest.into_iter().map(|l| [a_step(l, 0), a_step(l, 1), l[0][0] / w.count() as f64]).zip(runs).collect()
}

/// Every answer of a side to these steps.
fn answers(side: &Side, width: Width, space: u32, nodes: u32, slots: usize, steps: &[Step]) -> Vec<u64> {
    let mut found = vec![0; steps.len()];
    unsafe { side.answers[width as usize](space, nodes, slots, steps.as_ptr(), steps.len(), found.as_mut_ptr()) };
    found
}

fn steps_of(w: &Workload) -> (usize, &[Step]) {
    match &w.work {
        Work::Steps { slots, steps } => (*slots, steps),
        _ => panic!("{} has no steps", w.name),
    }
}

/// Ends the program by SIGPROF when the processor has spent this many more seconds on it; 0 for never.
fn end_after(seconds: i64) {
    assert_eq!(unsafe { setitimer(2, &[[0, 0], [seconds, 0]], std::ptr::null_mut()) }, 0);
}

/// Checks that the sides have equal checksums, and that no live ranges overlap. Returns the number of refusals.
fn check_sides(w: &Workload, sides: &[Side], seconds: i64) -> usize {
    check::assert_finds_faults();
    end_after(seconds);
    let sum = run(w, &sides[0], false);
    end_after(0);
    for side in &sides[1..] {
        assert_eq!(run(w, side, false), sum, "{}: the answers of {} and {} differ", w.name, side.name, sides[0].name);
    }
    let Work::Steps { slots, steps } = &w.work else { return 0 };
    let answers = answers(&sides[0], w.width, w.space, w.nodes, *slots, steps);
    let answered = answers.iter().zip(steps).filter(|(_, step)| step.slot != RESET);
    let found = answered.fold(0u64, |sum, (answer, _)| sum.wrapping_mul(31).wrapping_add(*answer));
    assert_eq!(found, sum, "{}, {}: the checksum is not that of the answers", w.name, sides[0].name);
    check::check_ranges(w.space, *slots, steps, &answers).unwrap_or_else(|e| panic!("{}, {}: {e}", w.name, sides[0].name))
}

/// The most bytes that malloc holds in this run, by the preloaded wrapper and by the C library.
fn heap(w: &Workload, side: &Side, slots: usize, count: usize) -> [usize; 2] {
    let found = |name: &std::ffi::CStr| {
        let found = unsafe { dlsym(std::ptr::null(), name.as_ptr()) };
        assert!(!found.is_null(), "out/heap.so is to be preloaded");
        found
    };
    let mark: extern "C" fn() = unsafe { std::mem::transmute(found(c"heap_mark")) };
    let most: extern "C" fn(&mut usize, &mut usize) = unsafe { std::mem::transmute(found(c"heap_most")) };
    let [mut counted, mut library] = [0; 2];
    mark();
    unsafe { side.play[w.width as usize](w.space, w.nodes, slots, steps_of(w).1.as_ptr(), count) };
    most(&mut counted, &mut library);
    [counted, library]
}

/// The bytes of the pages that a run is the first to touch, each of which is a fault; and by how much it raises the most
/// bytes that are resident. The system counts the latter on each processor, and adds them up now and then.
fn resident(w: &Workload, side: &Side) -> [u64; 2] {
    let kilobytes = |key: &str| -> u64 {
        let text = std::fs::read_to_string("/proc/self/status").unwrap();
        let line = text.lines().find(|line| line.starts_with(key)).unwrap();
        line.split_whitespace().nth(1).unwrap().parse().unwrap()
    };
    let faults = || -> u64 {
        let text = std::fs::read_to_string("/proc/self/stat").unwrap();
        let (_, after) = text.rsplit_once(')').unwrap();
        after.split_whitespace().nth(7).unwrap().parse().unwrap()
    };
    // the most begins anew
    std::fs::write("/proc/self/clear_refs", "5").unwrap();
    let before = kilobytes("VmRSS");
    let touched = faults();
    std::hint::black_box(run(w, side, false));
    let touched = faults() - touched;
    [touched * 4096, kilobytes("VmHWM").saturating_sub(before) * 1024]
}

/// The smallest number above `low` for which `holds` is true, if it is true for all larger ones; `high` is one of them.
fn bisect(mut low: u32, mut high: u32, holds: impl Fn(u32) -> bool) -> u32 {
    assert!(holds(high), "it does not hold of {high}");
    while high - low > 1 {
        let middle = low + (high - low) / 2;
        if holds(middle) {
            high = middle;
        } else {
            low = middle;
        }
    }
    high
}

fn main() {
    let words: Vec<String> = std::env::args().skip(1).collect();
    let words: Vec<&str> = words.iter().map(String::as_str).collect();
    let workload = |name: &str| workloads::all(Some(name)).pop().unwrap_or_else(|| panic!("no workload {name}"));
    let side = |name: &str| sides::all().into_iter().find(|s| s.name == name).unwrap_or_else(|| panic!("no side {name}"));
    let sides = |names: &[&str]| names.iter().map(|name| side(name)).collect::<Vec<Side>>();
    match words[..] {
        ["list"] => {
            for w in workloads::all(None) {
                println!("{}\t{}\t{}\t{}\t{}\t{}", w.name, w.nodes, w.space, w.count(), w.function(), w.kind());
            }
        }
        ["time", name, ref names @ ..] => {
            for ([clock, processor, whole], runs) in times(&workload(name), &sides(names)) {
                let runs: String = runs.iter().map(|run| format!("\t{run}")).collect();
                println!("{clock}\t{processor}\t{whole}{runs}");
            }
        }
        ["play", name, of, what @ ("all" | "none")] => println!("{}", run(&workload(name), &side(of), what == "none")),
        ["check", seconds, name, ref names @ ..] => {
            println!("{}", check_sides(&workload(name), &sides(names), seconds.parse().unwrap()));
        }
        ["heap", name, of, ref nodes @ ..] => {
            let (mut w, side) = (workload(name), side(of));
            if let [nodes] = nodes {
                w.nodes = nodes.parse().unwrap();
            }
            let (slots, steps) = steps_of(&w);
            let made = heap(&w, &side, 0, 0);
            let (none, all) = (heap(&w, &side, slots, 0), heap(&w, &side, slots, steps.len()));
            println!("{}\t{}\t{}\t{}", made[0], made[1], all[0] - none[0], all[1] - none[1]);
        }
        ["resident", name, of, ref nodes @ ..] => {
            let (mut w, side) = (workload(name), side(of));
            if let [nodes] = nodes {
                w.nodes = nodes.parse().unwrap();
            }
            let [touched, most] = resident(&w, &side);
            println!("{touched}\t{most}");
        }
        ["nodes", name] => {
            let w = workload(name);
            let (slots, steps) = steps_of(&w);
            let enough = |nodes| !answers(&side("original"), w.width, w.space, nodes, slots, steps).contains(&REFUSED);
            println!("{}", bisect(1, w.nodes, enough));
        }
        ["threads"] => {
            for (way, ns) in threads::all() {
                println!("{way}\t{ns}");
            }
        }
        #[cfg(not(feature = "other-sites"))]
        ["compacting", live] => {
            for ns in compacting::times(live.parse().unwrap()) {
                println!("{ns}");
            }
        }
        #[cfg(not(feature = "other-sites"))]
        ["compacting", live, name] => {
            let (_, way) = *compacting::WAYS.iter().find(|way| way.0 == name).unwrap_or_else(|| panic!("no way {name}"));
            compacting::run(live.parse().unwrap(), way);
        }
        _ => panic!("measure list | time | play | check | heap | resident | nodes | threads | compacting"),
    }
}
