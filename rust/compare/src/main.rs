//! Plays scripts on two programs, and compares their output, their errors and their status, byte by byte.
//!
//! `compare PROGRAM PROGRAM COUNT FIRST FILE..` plays COUNT random scripts from number FIRST on, and the files. A
//! number always gives the same text. Every eighth text is damaged somewhere.
mod scripts;

use std::collections::BTreeMap;
use std::io::Write;
use std::process::{Command, Output, Stdio};
use std::sync::atomic::{AtomicU64, Ordering};
use std::sync::Mutex;

fn play(program: &str, text: &[u8]) -> Output {
    let mut child = Command::new(program)
        .stdin(Stdio::piped())
        .stdout(Stdio::piped())
        .stderr(Stdio::piped())
        .spawn()
        .unwrap_or_else(|error| panic!("{program}: {error}"));
    // both read everything before they write, except of a text that is too long
    let _ = child.stdin.take().unwrap().write_all(text);
    child.wait_with_output().unwrap()
}

/// The number of times that each answer and each fault occurred.
#[derive(Default)]
struct Tally {
    words: BTreeMap<String, u64>,
    texts: u64,
    lines: u64,
    differing: u64,
}

impl Tally {
    fn add(&mut self, name: &str, text: &[u8], programs: &[String]) {
        let found: Vec<Output> = programs.iter().map(|program| play(program, text)).collect();
        self.texts += 1;
        if found[0].stdout != found[1].stdout || found[0].stderr != found[1].stderr || found[0].status.code() != found[1].status.code() {
            self.differing += 1;
            if self.differing <= 3 {
                println!("{name} differs: {:?}, {:?}\n{}", found[0].status, found[1].status, String::from_utf8_lossy(text));
            }
            return;
        }
        let errors = String::from_utf8_lossy(&found[0].stderr);
        for line in errors.lines() {
            let fault = line.split_once(": ").map_or(line, |(_, fault)| fault);
            *self.words.entry(format!("status {}, {fault}", found[0].status.code().unwrap_or(-1))).or_default() += 1;
        }
        for line in String::from_utf8_lossy(&found[0].stdout).lines() {
            self.lines += 1;
            *self.words.entry(line.split(' ').next().unwrap_or_default().to_string()).or_default() += 1;
        }
    }

    fn add_all(&mut self, other: Tally) {
        for (word, n) in other.words {
            *self.words.entry(word).or_default() += n;
        }
        self.texts += other.texts;
        self.lines += other.lines;
        self.differing += other.differing;
    }
}

fn main() {
    let words: Vec<String> = std::env::args().skip(1).collect();
    let [one, other, count, first, files @ ..] = &words[..] else { panic!("compare PROGRAM PROGRAM COUNT FIRST FILE..") };
    let programs = [one.clone(), other.clone()];
    let (count, first): (u64, u64) = (count.parse().unwrap(), first.parse().unwrap());
    let all = Mutex::new(Tally::default());
    for file in files {
        let text = std::fs::read(file).unwrap_or_else(|error| panic!("{file}: {error}"));
        all.lock().unwrap().add(file, &text, &programs);
    }
    for (name, text) in scripts::odd() {
        all.lock().unwrap().add(name, &text, &programs);
    }
    let next = AtomicU64::new(first);
    let threads = std::thread::available_parallelism().map_or(2, |n| n.get().div_ceil(2));
    std::thread::scope(|scope| {
        for _ in 0..threads {
            scope.spawn(|| {
                let mut own = Tally::default();
                loop {
                    let number = next.fetch_add(1, Ordering::Relaxed);
                    if number >= first + count {
                        break;
                    }
                    own.add(&format!("script {number}"), &scripts::text(number), &programs);
                }
                all.lock().unwrap().add_all(own);
            });
        }
    });
    let all = all.into_inner().unwrap();
    let counts: Vec<String> = all.words.iter().map(|(word, n)| format!("{n} {word}")).collect();
    println!("{} texts, {} equal lines: {}", all.texts, all.lines, counts.join("; "));
    println!("texts that differ: {}", all.differing);
    std::process::exit(i32::from(all.differing != 0));
}
