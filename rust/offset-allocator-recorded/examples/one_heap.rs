//! Prints the recording of random calls of heaps, and on one heap of many, by a seed: `randomAt` of `offset-allocator-c/tests/recorded.cpp`
//! writes the same.

#[path = "../tests/random_calls/mod.rs"]
mod random_calls;

use offset_allocator_proved::ByNode;

fn main() -> Result<(), Box<dyn std::error::Error>> {
    let seed = std::env::args().nth(1).ok_or("a seed")?.parse()?;
    print!("{}", random_calls::random_heaps::<ByNode<u32>>(seed).0);
    Ok(())
}
