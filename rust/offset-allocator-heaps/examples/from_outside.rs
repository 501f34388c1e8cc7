//! Reads states that another program wrote: `docs/states.py` of the repository, into the folder that is given.
//!
//!     python3 docs/states.py && cargo run --release --example from_outside -- FOLDER

use offset_allocator_heaps::{Allocator, Global, Guarded, Heaps};

fn main() -> Result<(), Box<dyn std::error::Error>> {
    let folder = std::env::args().nth(1).unwrap_or(".".into());
    let read = |name| std::fs::read(format!("{folder}/{name}.state"));

    let bytes = read("one")?;
    let space = Allocator::<u32>::read_state(Global, &bytes, 16)?;
    let report = space.storage_report();
    assert_eq!((report.total_free_space, report.largest_free_region), (600, 576));
    assert_eq!(space.write_state(Global)?[..], bytes);

    let bytes = read("two")?;
    let space = Guarded::<u32>::read_state(Global, &bytes, 16)?;
    let last = space.last_live().ok_or("a live range")?;
    assert_eq!(last.to_parts(), (320, 2, 9, 1));
    assert_eq!(space.write_state(Global)?[..], bytes);

    let bytes = read("three")?;
    let heaps = Heaps::<u32>::read_state(Global, &bytes, 2, 16)?;
    let totals = heaps.totals();
    assert_eq!((totals.heaps, totals.live_units, totals.free_units), (1, 400, 600));
    assert_eq!(heaps.write_state(Global)?[..], bytes);

    println!("three states of another program are read, and written alike");
    Ok(())
}
