//! Replays what real programs requested, and checks each granted range.
//!
//! `trace [FILE..]`: each FILE is a script; by default those in `bench/traces`.

use offset_script::{parse, play, Answer, Command, Global, IndexWidth};
use std::collections::{BTreeMap, HashMap};
use std::error::Error;
use std::path::{Path, PathBuf};

fn main() -> Result<(), Box<dyn Error>> {
    let mut files: Vec<PathBuf> = std::env::args_os().skip(1).map(PathBuf::from).collect();
    if files.is_empty() {
        let folder = concat!(env!("CARGO_MANIFEST_DIR"), "/../../bench/traces");
        let all = std::fs::read_dir(folder).map_err(|error| format!("{folder}: {error}"))?;
        files = all.map(|entry| entry.map(|entry| entry.path())).collect::<Result<_, _>>()?;
        files.retain(|file| file.extension().is_some_and(|extension| extension == "script"));
        files.sort();
    }
    for file in &files {
        replay(file).map_err(|error| format!("{}: {error}", file.display()))?;
    }
    Ok(())
}

fn replay(file: &Path) -> Result<(), Box<dyn Error>> {
    let text = std::fs::read(file)?;
    let script = parse(Global, &text).map_err(|fault| format!("{fault:?}"))?;
    let answers = match script.index {
        IndexWidth::Bits16 => play::<u16>(Global, script.size, script.max_allocs, &script.commands)?,
        IndexWidth::Bits32 => play::<u32>(Global, script.size, script.max_allocs, &script.commands)?,
    };

    // of the live ranges: the end by the first unit, and the first unit and the size by the number of the grant
    let (mut ends, mut starts) = (BTreeMap::new(), HashMap::new());
    let mut size = u64::from(script.size);
    let (mut grants, mut refused, mut held, mut most, mut reach) = (0u64, 0u64, 0u64, 0u64, 0u64);
    for (command, answer) in script.commands.iter().zip(&answers) {
        match (*command, answer) {
            (Command::Alloc(n) | Command::Align(n, _), Answer::Grant { number, offset }) => {
                let (start, end) = (u64::from(*offset), u64::from(*offset) + u64::from(n));
                assert!(end <= size, "grant {number} ends in the space");
                if n > 0 {
                    let before = ends.range(..end).next_back();
                    assert!(before.is_none_or(|(_, last)| *last <= start), "grant {number} has its units alone");
                    ends.insert(start, end);
                }
                starts.insert(*number, (start, n));
                grants += 1;
                held += u64::from(n);
                most = most.max(held);
                reach = reach.max(end);
            }
            (Command::Alloc(_) | Command::Align(..), Answer::Refused) => refused += 1,
            (Command::Free(number), Answer::Freed) => {
                let (start, n) = starts.remove(&u64::from(number)).ok_or("a grant is freed once")?;
                if n > 0 {
                    ends.remove(&start);
                }
                held -= u64::from(n);
            }
            (Command::Reset, Answer::Reset) => {
                (ends, starts, held) = (BTreeMap::new(), HashMap::new(), 0);
            }
            (Command::Extend(n), Answer::Extended) => size += u64::from(n),
            _ => {}
        }
    }
    let name = file.file_stem().unwrap_or_default().to_string_lossy();
    println!("{name}: {} commands, {grants} grants, {refused} refusals, {} live at the end", answers.len(), starts.len());
    println!("  at most {most} units were held, all below offset {reach}: {:.2} times as many", reach as f64 / most as f64);
    Ok(())
}
