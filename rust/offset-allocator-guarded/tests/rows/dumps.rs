//! Spaces as JSON.

use super::asserts::assert_same;
use super::layouts::{check_each, Expectation, ALL};
use offset_allocator::Global;
use offset_allocator::{json_of, vma_json_of, AllocatorOf, Tables};

const VMA: &str =
    "{\"General\":{\"API\":\"Vulkan\"},\"DefaultPools\":{\"Type 0\":{\"PreferredBlockSize\":20,\
    \"Blocks\":{\"0\":{\"TotalBytes\":20,\"UnusedBytes\":17,\"Allocations\":1,\"UnusedRanges\":1,\
    \"Suballocations\":[{\"Offset\":0,\"Type\":\"UNKNOWN\",\"Size\":3},{\"Offset\":3,\"Type\":\"FREE\",\"Size\":17}]}},\"DedicatedAllocations\":[]}}}";

// What is wanted of a space of 20 units with a range of 3.
fn wanted(limit: u32, name: u32) -> String {
    let counts =
        ",\"free_blocks\":1,\"free_units\":17,\"largest_free_block\":17,\"largest_free_region\":16";
    let unused = limit - 2;
    format!(
        "{{\"size\":20,\"max_allocs\":{limit},\"live_ranges\":1,\"live_units\":3{counts},\
         \"unused_nodes\":{unused},\"blocks\":[{{\"offset\":0,\"size\":3,\"name\":{name}}},{{\"offset\":3,\"size\":17}}]}}"
    )
}

struct Dumps;

impl Expectation for Dumps {
    fn check<T: Tables>(&self) {
        let mut space = AllocatorOf::<T>::new(Global, 20).expect("memory");
        let handle = space.allocate(3).expect("room");
        let found = json_of(Global, &space).expect("memory");
        assert_same(&*found, wanted(space.max_allocs(), handle.name()).as_str());
        let found = vma_json_of(Global, &space).expect("memory");
        assert_same(&*found, VMA);
    }
}

#[test]
fn a_space_is_written_as_json() {
    check_each(&ALL, &Dumps);
}
