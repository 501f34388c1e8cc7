// Printed by rust/erase from crates/offset_guarded/src/numbers.rt: change it there.

//! Bytes as numbers of 64 bits, the lowest byte of each first, and their checksum. It touches bytes alone.

use crate::memory::Vec;
use crate::memory::{AllocError, Global};

/// The number of 64 bits at a place, the lowest byte first.
pub fn number(bytes: &[u8], place: usize) -> u64 {
    let at = 8 * place;
    let mut eight = [0; 8];
    eight.copy_from_slice(&bytes[at..at + 8]);
    u64::from_le_bytes(eight)
}

/// The checksum of the first numbers.
pub fn checksum(bytes: &[u8], count: usize) -> u64 {
    let mut sum = 0u64;
    for place in 0..count {
        sum = sum
            .wrapping_mul(1099511628211)
            .wrapping_add(number(bytes, place));
    }
    sum
}

// Adds a number at the end.
fn push_number(bytes: &mut Vec<u8>, number: u64) -> Result<(), AllocError> {
    bytes.extend_from_slice(&number.to_le_bytes())?;
    Ok(())
}

// Adds numbers at the end.
fn push_numbers(bytes: &mut Vec<u8>, more: &[u64]) -> Result<(), AllocError> {
    for number in more {
        push_number(bytes, *number)?;
    }
    Ok(())
}

/// The bytes of some numbers and more of them, and behind these of their checksum.
pub fn bytes_with_checksum(
    alloc: Global,
    first: &[u64],
    more: &[u64],
) -> Result<Vec<u8>, AllocError> {
    let mut bytes = Vec::new(alloc);
    push_numbers(&mut bytes, first)?;
    push_numbers(&mut bytes, more)?;
    let sum = checksum(&bytes, first.len() + more.len());
    push_number(&mut bytes, sum)?;
    Ok(bytes)
}
