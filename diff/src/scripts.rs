//! Random scripts.
#[path = "../../rust/random.rs"]
mod random;

use random::Random;
use std::fmt::Write;

#[derive(Clone, Copy, PartialEq)]
pub enum Width {
    Bits16,
    Bits32,
}

#[derive(Clone, Copy)]
pub enum Command {
    Alloc(u32),
    Free(u32),
    Size(u32),
    Report,
    Full,
    Reset,
}

pub struct Script {
    pub space: u32,
    pub max_allocs: u32,
    pub width: Width,
    pub commands: Vec<Command>,
}

impl Script {
    pub fn text(&self) -> String {
        let index = if self.width == Width::Bits16 { 16 } else { 32 };
        let mut text = format!("space {} nodes {} index {index}\n", self.space, self.max_allocs);
        for command in &self.commands {
            match command {
                Command::Alloc(n) => writeln!(text, "alloc {n}"),
                Command::Free(n) => writeln!(text, "free {n}"),
                Command::Size(n) => writeln!(text, "size {n}"),
                Command::Report => writeln!(text, "report"),
                Command::Full => writeln!(text, "full"),
                Command::Reset => writeln!(text, "reset"),
            }
            .unwrap();
        }
        text
    }
}

/// The script of a text, which has one line for each command and no others.
pub fn read(text: &str) -> Script {
    let number = |word: &str| word.parse().expect("a number of the script");
    let mut lines = text.lines().map(|line| line.split(' ').collect::<Vec<&str>>());
    let header = lines.next().unwrap_or_default();
    let ["space", space, "nodes", nodes, "index", bits] = header[..] else { panic!("a header: {header:?}") };
    let width = if bits == "16" { Width::Bits16 } else { Width::Bits32 };
    let commands = lines.map(|words| match words[..] {
        ["alloc", n] => Command::Alloc(number(n)),
        ["free", n] => Command::Free(number(n)),
        ["report"] => Command::Report,
        _ => panic!("a command: {words:?}"),
    });
    Script { space: number(space), max_allocs: number(nodes), width, commands: commands.collect() }
}

impl Random {
    /// A number of a random number of bits, at most `bits`.
    fn of_bits(&mut self, bits: u32) -> u32 {
        let bits = self.below(bits + 1);
        (self.next() & ((1 << bits) - 1)) as u32
    }

    /// A class value, or a number beside one. Powers of two from 8 on are class values.
    fn at_an_edge(&mut self) -> u32 {
        let value = (8 + u64::from(self.below(8))) << self.below(29);
        (value as u32).wrapping_add(self.below(3)).wrapping_sub(1)
    }
}

/// The random script of this number.
pub fn script(number: u64) -> Script {
    let mut random = Random(number.wrapping_mul(0x2545f4914f6cdd1d));
    let width = if random.below(2) == 0 { Width::Bits16 } else { Width::Bits32 };
    let space = match random.below(7) {
        0 => random.below(40),
        1 => 40 + random.below(1000),
        2 => random.below(65_536),
        3 => random.of_bits(32),
        4 => u32::MAX - random.of_bits(10),
        5 => random.at_an_edge(),
        _ => u32::MAX,
    };
    let max_allocs = match random.below(6) {
        0 => 2 + random.below(4),
        1 => 2 + random.below(20),
        2..=4 => 2 + random.below(300),
        _ if number % 50 == 0 && width == Width::Bits16 => 65_533 - random.below(3),
        _ if number % 50 == 1 && width == Width::Bits32 => 131_072,
        _ => 2 + random.below(5_000),
    };
    let length = [10, 40, 120, 400][random.below(4) as usize];
    // most requests are below this share of the space
    let share = (space / (1 + random.below(64))).max(1);
    let wild = random.below(8);
    let hungry = 3 + random.below(4);
    let mut commands = Vec::new();
    let mut requested = 0;
    for _ in 0..length {
        let command = match random.below(20) {
            0 => Command::Report,
            1 => Command::Full,
            2 => Command::Size(random.below(requested + 2)),
            3 if random.below(12) == 0 => Command::Reset,
            _ if requested == 0 || random.below(8) < hungry => {
                requested += 1;
                Command::Alloc(match random.below(8 + wild) {
                    0 => random.at_an_edge(),
                    1 => random.of_bits(32),
                    2 => random.below(10),
                    3 => space - random.below(space.min(9) + 1),
                    4 => random.of_bits(6),
                    _ => random.below(share),
                })
            }
            _ => Command::Free(random.below(requested + 2)),
        };
        commands.push(command);
    }
    for number in 0..requested.min(64) {
        commands.push(Command::Free(number + 1));
    }
    commands.push(Command::Full);
    commands.push(Command::Report);
    Script { space, max_allocs, width, commands }
}
