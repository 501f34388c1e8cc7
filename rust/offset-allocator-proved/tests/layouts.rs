//! All layouts return the same for the same calls, with tables of their own.
#[path = "../../random.rs"]
mod random;

use offset_allocator_proved::{AllocatorOf, Allocation, ByField, ByNode, Global, Move, NodeIndex, Tables};
use random::Xorshift;

fn next(state: &mut Xorshift) -> u32 {
    (state.next() >> 32) as u32
}

/// What a history of calls returns, as text: each call, the reports and the blocks after it.
fn history<T: Tables>(size: u32, max_allocs: u32, seed: u64) -> Vec<String>
where
    Allocation<T::Index>: std::fmt::Debug,
{
    let mut space: AllocatorOf<T> = AllocatorOf::with_max_allocs(Global, size, max_allocs).unwrap();
    let mut live: Vec<Allocation<T::Index>> = Vec::new();
    let (mut state, mut lines) = (Xorshift(seed), Vec::new());
    for _ in 0..3000 {
        let (call, n) = (next(&mut state) % 100, next(&mut state) % 300);
        let place = n as usize % live.len().max(1);
        let line = match call {
            0..=39 => {
                let granted = space.allocate(n);
                live.extend(granted);
                format!("{:?} {:?}", granted, space.refusal(n))
            }
            40..=49 => {
                let granted = space.allocate_aligned(n, 16);
                live.extend(granted);
                format!("{granted:?}")
            }
            50..=84 if !live.is_empty() => {
                let gone = live.swap_remove(place);
                space.free(gone);
                format!("{gone:?} {}", space.is_live(gone))
            }
            85..=89 if !live.is_empty() => format!("{}", space.shrink(live[place], n / 4)),
            90..=94 if !live.is_empty() => format!("{}", space.grow_in_place(live[place], n)),
            95..=96 => format!("{}", space.extend(n)),
            97 => {
                let mut moves = Vec::new();
                space.compact(|m: Move<T::Index>| moves.push((m.from, m.to, m.size)));
                format!("{moves:?}")
            }
            98 => {
                live.clear();
                space.reset();
                "reset".to_string()
            }
            _ => format!("{:?}", space.storage_report_full().free_regions.iter().map(|r| (r.size, r.count)).collect::<Vec<_>>()),
        };
        let blocks: Vec<_> = space.blocks().map(|b| (b.offset, b.size, b.allocation.is_some())).collect();
        lines.push(format!("{line} {:?} {blocks:?} {} {}", space.storage_report(), space.node_count(), space.is_full()));
    }
    lines
}

fn alike<NI: NodeIndex>(size: u32, max_allocs: u32, seed: u64) {
    let lines = history::<ByNode<NI>>(size, max_allocs, seed);
    assert!(lines.iter().any(|l| l.starts_with("Some")) && lines.iter().any(|l| l.starts_with("None")));
    assert_eq!(lines, history::<ByField<NI>>(size, max_allocs, seed));
}

#[test]
fn histories_on_all_layouts_are_alike() {
    for seed in 1..=5 {
        alike::<u32>(10_000, 64, seed);
        alike::<u16>(3_000, 200, seed + 5);
        alike::<u32>(4_294_967_295, 40, seed + 10);
    }
}
