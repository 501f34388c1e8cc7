//! Bytes and addresses of 64 bits over a space of units: a buffer at an address, of 16 GiB, in units of 256 bytes. No alignment up to
//! that of a unit is passed, since each range begins at one.

use offset_allocator_proved::{AllocError, Allocator, Global, Scale};

// The units of a size, and the address of an offset; `None` where more than 32 or 64 bits count.
fn units_and_address(scale: Scale, bytes: u64, offset: u32) -> Option<(u32, u64)> {
    Some((scale.units_of(bytes)?, scale.address_of(offset)?))
}

fn main() -> Result<(), AllocError> {
    let scale = Scale { base: 1 << 40, unit: 256 };
    let mut heap = Allocator::<u32>::new(Global, scale.units_of(16 << 30).expect("a space has 32 bits of units"))?;
    let (first, second) = (heap.allocate(3).expect("room"), heap.allocate(scale.units_of(1000).expect("few")).expect("room"));
    assert_eq!(units_and_address(scale, 1000, second.offset), Some((4, (1 << 40) + 3 * 256)));
    assert_eq!(units_and_address(scale, 1 << 41, 0), None);
    println!("the first begins at {:#x}, the second at {:#x}", scale.base + u64::from(first.offset) * 256, (1u64 << 40) + u64::from(second.offset) * 256);
    Ok(())
}
