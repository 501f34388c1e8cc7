//! Random scripts, with all commands and both widths, some of them damaged.

#[path = "../../random.rs"]
mod random;

use std::fmt::Write;

struct Random(random::Random);

impl Random {
    fn next(&mut self) -> u64 {
        self.0.next()
    }

    /// Below n, which is not 0.
    fn below(&mut self, n: u64) -> u64 {
        self.next() % n
    }

    /// A number of a random number of bits, at most `bits`.
    fn of_bits(&mut self, bits: u64) -> u64 {
        let bits = self.below(bits + 1);
        self.next() & ((1 << bits) - 1)
    }

    /// A class value, or a number beside one. Powers of two from 8 on are class values.
    fn at_an_edge(&mut self) -> u64 {
        let value = (8 + self.below(8)) << self.below(29);
        (value + self.below(3) - 1).min(u64::from(u32::MAX))
    }
}

fn script(random: &mut Random) -> String {
    let most = u64::from(u32::MAX);
    let narrow = random.below(2) == 0;
    let space = match random.below(7) {
        0 => random.below(40),
        1 => 40 + random.below(1_000),
        2 => random.below(65_536),
        3 => random.of_bits(32),
        4 => most - random.of_bits(10),
        5 => random.at_an_edge(),
        _ => most,
    };
    let nodes = match random.below(8) {
        0 | 1 => 2 + random.below(5),
        2 => 2 + random.below(20),
        3..=6 => 2 + random.below(300),
        _ if random.below(40) == 0 => 65_534 - random.below(3),
        _ => 2 + random.below(5_000),
    };
    let share = (space / (1 + random.below(64))).max(1);
    let hungry = 3 + random.below(4);
    let growing = random.below(4) == 0;
    let mut text = format!("space {space} nodes {nodes} index {}\n", if narrow { 16 } else { 32 });
    let mut requested = 0;
    for _ in 0..[10, 40, 120, 400][random.below(4) as usize] {
        let size = match random.below(10) {
            0 => random.at_an_edge(),
            1 => random.of_bits(32),
            2 => random.below(10),
            3 => space - random.below(space.min(9) + 1),
            4 => random.of_bits(6),
            _ => random.below(share),
        };
        match random.below(24) {
            0 => writeln!(text, "report"),
            1 => writeln!(text, "full"),
            2 => writeln!(text, "size {}", random.below(requested + 3)),
            3 if random.below(12) == 0 => writeln!(text, "reset"),
            4 if growing => writeln!(text, "extend {}", if random.below(9) == 0 { random.of_bits(32) } else { random.below(share) }),
            5 => writeln!(text, "# {}", random.next()),
            _ if requested == 0 || random.below(8) < hungry => {
                requested += 1;
                if random.below(3) == 0 {
                    let align = if random.below(4) == 0 { random.below(32) } else { random.below(8) };
                    writeln!(text, "align {size} {}", 1u64 << align)
                } else {
                    writeln!(text, "alloc {size}")
                }
            }
            _ => writeln!(text, "free {}", random.below(requested + 2)),
        }
        .unwrap();
    }
    text + "full\nreport\n"
}

/// Changes a text in one place: a byte, a line, or a number.
fn damage(random: &mut Random, text: String) -> Vec<u8> {
    let mut text = text.into_bytes();
    let at = random.below(text.len() as u64) as usize;
    match random.below(7) {
        0 => text[at] = random.next() as u8,
        1 => text.insert(at, b" \n0#9x\t"[random.below(7) as usize]),
        2 => drop(text.remove(at)),
        3 => text.truncate(at),
        4 => {
            // another header, mostly a faulty one
            let words = ["nodes 1", "nodes 0", "nodes 65534", "nodes 4294967294", "nodes 4294967296", "nodes 01", "nodes"];
            let head = format!("space 10 {} index {}\nalloc 1\n", words[random.below(7) as usize], [16, 32, 8][random.below(3) as usize]);
            text = head.into_bytes();
        }
        5 => text.extend(format!("align 1 {}\nalloc {}\n", random.of_bits(32), random.next()).into_bytes()),
        _ => text.extend_from_slice([&b"alloc"[..], b"alloc 1 2", b"free  1", b"ALLOC 1", b"report\r\n", b"extend -1", b"alloc 00000000001"][random.below(7) as usize]),
    }
    text
}

/// The random text of this number.
pub fn text(number: u64) -> Vec<u8> {
    let mut random = Random(random::Random(number.wrapping_mul(0x2545_f491_4f6c_dd1d)));
    let text = script(&mut random);
    if number % 8 == 7 {
        return damage(&mut random, text);
    }
    text.into_bytes()
}

/// Texts that no number gives, at the limits of what is admitted.
pub fn odd() -> Vec<(&'static str, Vec<u8>)> {
    let wide = b"space 4294967295 nodes 131072 index 32\nalloc 1\nfull\nreset\nfull\n".to_vec();
    let narrow = b"space 4294967295 nodes 65533 index 16\nalloc 1\nfull\nreset\nfull\n".to_vec();
    let mut just = b"space 10 nodes 4 index 32\n".to_vec();
    just.resize(1_048_576, b'\n');
    let mut long = just.clone();
    long.push(b'\n');
    let mut many = b"space 4294967295 nodes 65533 index 16\n".to_vec();
    while many.len() + 8 < 1_048_576 {
        many.extend_from_slice(b"alloc 9\n");
    }
    vec![("wide", wide), ("narrow", narrow), ("just not too long", just), ("too long", long), ("many", many), ("empty", Vec::new()), ("no text", vec![0xff, 0xfe, 0])]
}
