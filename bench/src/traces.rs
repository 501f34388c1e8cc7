//! The recorded programs in `traces/`: each script there, as steps.
use std::path::{Path, PathBuf};

#[repr(C)]
#[derive(Clone, Copy)]
pub struct Step {
    pub slot: u32,
    /// The size to request where the slot is empty; a full slot is freed.
    pub size: u32,
}

/// The two answers to a step that are not an offset.
pub const REFUSED: u64 = 1 << 32;
pub const RELEASED: u64 = 1 << 33;

/// What a program requested and released, once. Each grant has a slot of its own.
pub struct Trace {
    pub space: u32,
    pub nodes: u32,
    pub slots: u32,
    pub steps: Vec<Step>,
}

/// The folder of the scripts, in the checkout that this package is of.
pub fn folder() -> PathBuf {
    let above = Path::new(env!("CARGO_MANIFEST_DIR")).ancestors();
    above.map(|it| it.join("bench/traces")).find(|it| it.is_dir()).unwrap()
}

/// The names of all, in order.
pub fn names() -> Vec<String> {
    let files = std::fs::read_dir(folder()).unwrap().map(|entry| entry.unwrap().file_name().into_string().unwrap());
    let mut found: Vec<String> = files.filter_map(|file| Some(file.strip_suffix(".script")?.to_string())).collect();
    found.sort();
    found
}

/// This name, if it is one of them.
pub fn name(name: &str) -> Option<String> {
    folder().join(format!("{name}.script")).exists().then(|| name.to_string())
}

pub fn read(name: &str) -> Trace {
    let text = std::fs::read_to_string(folder().join(format!("{name}.script"))).unwrap();
    let number = |word: &str| word.parse::<u32>().unwrap_or_else(|_| panic!("{name}: a number: {word}"));
    let mut lines = text.lines().map(|line| line.split(' ').collect::<Vec<&str>>());
    let header = lines.next().unwrap_or_default();
    let ["space", space, "nodes", nodes, "index", "32"] = header[..] else { panic!("{name}: a header: {header:?}") };
    let mut found = Trace { space: number(space), nodes: number(nodes), slots: 0, steps: Vec::new() };
    for words in lines {
        match words[..] {
            ["alloc", size] => {
                found.steps.push(Step { slot: found.slots, size: number(size) });
                found.slots += 1;
            }
            ["free", grant] => found.steps.push(Step { slot: number(grant) - 1, size: 0 }),
            ["report"] => {}
            _ => panic!("{name}: a command: {words:?}"),
        }
    }
    found
}

impl Trace {
    /// The size of each grant that is live at the end; 0 for the others.
    pub fn left(&self) -> Vec<u32> {
        let mut held = vec![0; self.slots as usize];
        self.steps.iter().for_each(|step| held[step.slot as usize] = step.size);
        held
    }
}
