"""What `erase` may do besides leaving out contracts: the one table that a reader has to judge.

No entry depends on what a crate computes, but for four: a class is below 256, and a word of the masks below 4, which
contracts say. Texts are compared by their tokens, so layout does not matter.
An entry that is not used by the sources stops `erase`, so that none outlives its reason.
"""

import re

# Crate of the sources, folder of the erased crate, and the modules that are written by hand there.
CRATES = [
    ("offset_allocator", "offset-allocator-proved", {"accesses", "nonmax", "traits"}),
    ("offset_guarded", "offset-allocator-guarded", {"realms", "traits"}),
    ("offset_heaps", "offset-allocator-heaps", {"realms", "traits"}),
    ("offset_script", "offset-script", set()),
    ("offset_calls", "offset-calls", set()),
    ("offset_pictures", "offset-pictures", set()),
]

# In the root file this replaces `#![tactic(auto)]`. Each crate has the names of others that its public calls name, so that a
# program needs no other dependency to say them.
ROOTS = {
    "offset_allocator": """#![doc = include_str!("../README.md")]
#![no_std]
#![forbid(unsafe_code)]
#![allow(rustdoc::redundant_explicit_links)] // printed links say in full where they lead
#![warn(missing_docs)]
#![expect(LINTS)]

mod traits;

pub use offset_allocator_memory as memory;
pub use offset_allocator_memory::{AllocError, Global};
pub use nonmax::IsMax;
""",
    "offset_guarded": """#![doc = include_str!("../README.md")]
#![no_std]
#![forbid(unsafe_code)]
#![allow(rustdoc::redundant_explicit_links)] // printed links say in full where they lead
#![warn(missing_docs)]
#![expect(LINTS)]

mod realms;
mod traits;

pub use offset_allocator_memory as memory;
pub use offset_allocator_memory::{AllocError, Global};
pub use realms::next_realm;
pub use offset_allocator::{Refusal as SpaceRefusal, StateFaultKind as SpaceFaultKind, ext, small_float};
""",
    "offset_heaps": """#![doc = include_str!("../README.md")]
#![no_std]
#![forbid(unsafe_code)]
#![allow(rustdoc::redundant_explicit_links)] // printed links say in full where they lead
#![warn(missing_docs)]
#![expect(LINTS)]

mod realms;
mod traits;

pub use offset_allocator_memory as memory;
pub use offset_allocator_memory::{AllocError, Global};
pub use offset_guarded::{Refusal as TicketRefusal, StateFaultKind as TicketFaultKind, ext, small_float};
""",
    "offset_script": """#![doc = include_str!("../README.md")]
#![forbid(unsafe_code)]
#![allow(rustdoc::redundant_explicit_links)] // printed links say in full where they lead
#![expect(LINTS)]

pub use offset_allocator_memory as memory;
pub use offset_allocator_memory::{AllocError, Global};
pub use offset_allocator::{Allocation, Allocator, AllocatorOf, ByField, ByNode, NodeIndex, NodeIndexNonMax};
pub use offset_allocator::{StorageReport, StorageReportFull, StorageReportFullRegion, Tables};
""",
    "offset_calls": """#![doc = include_str!("../README.md")]
#![forbid(unsafe_code)]
#![allow(rustdoc::redundant_explicit_links)] // printed links say in full where they lead
#![warn(missing_docs)]
#![expect(LINTS)]

pub use offset_allocator_memory as memory;
pub use offset_allocator_memory::{AllocError, Global};
pub use offset_allocator::{Allocation, Allocator, AllocatorOf, ByField, ByNode, NodeIndex, NodeIndexNonMax};
pub use offset_allocator::{Refusal, RoomCost, StorageReport, Tables};
pub use offset_guarded::{Guarded, GuardedOf, Ticket};
pub use offset_script::{Answer, Command, FullRow, PlayerOf};
""",
    "offset_pictures": """#![doc = include_str!("../README.md")]
#![forbid(unsafe_code)]
#![allow(rustdoc::redundant_explicit_links)] // printed links say in full where they lead
#![expect(LINTS)]

pub use offset_allocator_memory as memory;
pub use offset_allocator_memory::{AllocError, Global};
pub use offset_allocator::{AllocatorOf, ByField, ByNode, Refusal, StorageReport, Tables};
pub use offset_script::{Answer, Command, FromRead, IndexWidth, IntoWrite, RunFault, Script, ScriptFault, Sink, Source};
pub use offset_script::{TextBuffer, parse};
""",
}

# Lints that the form of the sources causes, each with the reason for that form. All are about style. `rustc` and clippy
# warn of one that no longer occurs.
LINTS = {
    "offset_allocator": {
        "clippy::collapsible_if": "each test has a name of its own in the proof",
        "clippy::derivable_impls": "an `impl Default` is where a contract says what the value is",
        "clippy::len_without_is_empty": "tables are never empty: they have a node from the start",
        "clippy::manual_map": "a `match` needs no closure, whose calls would need a proof",
        "clippy::needless_range_loop": "a loop over places calls no iterator, which might count accesses of its own",
        "clippy::question_mark": "a `match` needs no call, whose contract a proof would need",
        "clippy::redundant_pattern_matching": "the same",
        "unused_variables": "a parameter may be there for a contract only",
    },
    "offset_guarded": {
        "clippy::let_and_return": "a step of a proof stands before the return, and is left out here",
        "clippy::question_mark": "the same",
        "clippy::manual_find": "a loop over places needs no closure, whose calls would need a proof",
        "clippy::manual_map": "a `match` needs no closure, whose calls would need a proof",
    },
    "offset_heaps": {
        "clippy::implicit_saturating_sub": "the proof speaks of both cases",
        "clippy::len_zero": "the proof speaks of the length, which no call hides",
        "clippy::manual_find": "a loop over places needs no closure, whose calls would need a proof",
        "clippy::manual_map": "a `match` needs no closure, whose calls would need a proof",
        "clippy::redundant_field_names": "a field and the place that it is of have one name",
        "clippy::redundant_pattern_matching": "a `match` needs no call, whose contract a proof would need",
        "clippy::single_match": "both cases are proved",
        "clippy::too_many_arguments": "each has a name in the contract",
    },
    "offset_script": {
        "clippy::manual_unwrap_or_default": "a `match` needs no call, whose contract a proof would need",
        "clippy::new_without_default": "one name for an empty text is enough",
    },
    "offset_calls": {
        "clippy::let_and_return": "a step of a proof stands before the return, and is left out here",
        "clippy::manual_map": "a `match` needs no closure, whose calls would need a proof",
        "clippy::needless_range_loop": "the proof speaks of the places of grants and of moves",
    },
    "offset_pictures": {
        "clippy::collapsible_match": "an arm of a `match` and a test within it have a name each in the proof",
    },
}

# Names of std that have another path here, or none, each with the reason.
IMPORTS = {
    "std::alloc::AllocError": "crate::memory::AllocError",  # no stable Rust has it
    "std::alloc::AllocFailed": None,                        # a push that fails gives an AllocError here
    "std::alloc::Global": "crate::memory::Global",          # no stable Rust has it
    "std::fmt": "core::fmt",                                # the library has no std
    "std::hash::Hash": "core::hash::Hash",                  # the library has no std
    "std::hash::Hasher": "core::hash::Hasher",              # the same
    "std::io::Read": "std::io::Read",                       # the same
    "std::io::Write": "std::io::Write",                     # the same
    "std::iter::FusedIterator": "core::iter::FusedIterator",  # the library has no std
    "std::marker::Model": None,                             # the model of a type, for contracts, which are erased
    "std::marker::PhantomData": "core::marker::PhantomData",  # the library has no std
    "std::mem::replace": "core::mem::replace",              # the same
    "std::ops::Deref": "core::ops::Deref",                  # the library has no std
    "std::str": "std::str",                                 # the same
}

# Names that need no import in Rattle, and here come from the crate `offset-allocator-memory`.
PRELUDE = {"Vec": "crate::memory::Vec", "String": "crate::memory::String"}

# Exact replacements: the text of the source, the text here, and the reason.
PAIRS = [
    (
        "pub type Move<NI = u32> = moves::one_move::Move<NI, <NI as NodeIndex>::NonMax>;",
        "pub use moves::one_move::Move;",
        "in Rattle a bound on a closure admits no struct whose parameters have bounds; so the methods of a move have a page",
    ),
    (
        "pub struct Move<NI, N> {",
        "pub struct Move<NI: NodeIndex = u32, N: NodeIndexNonMax = <NI as NodeIndex>::NonMax> {",
        "the same",
    ),
    (
        "impl<NI: Copy, N: Copy> Clone for Move<NI, N> {",
        "impl<NI: NodeIndex, N: NodeIndexNonMax> Clone for Move<NI, N> {",
        "the same",
    ),
    (
        "fn clone(&self) -> Result<Self, AllocError> { Ok(*self) }",
        "fn clone(&self) -> Self {\n        *self\n    }",
        "in Rattle a clone may take memory; Rust's does not return a Result",
    ),
    (
        "fn clone(&self) -> Result<Self, AllocError> { Ok(BlocksOf { allocator: self.allocator, next: self.next, left: self.left, }) }",
        "fn clone(&self) -> Self {\n        BlocksOf {\n            allocator: self.allocator,\n            next: self.next,\n            left: self.left,\n        }\n    }",
        "the same",
    ),
    (
        "fn clone(&self) -> Result<Self, AllocError> { Ok(MovePieces { from: self.from, to: self.to, left: self.left, most: self.most, }) }",
        "fn clone(&self) -> Self {\n        MovePieces {\n            from: self.from,\n            to: self.to,\n            left: self.left,\n            most: self.most,\n        }\n    }",
        "the same",
    ),
    (
        "fn clone(&self) -> Result<Self, AllocError> { Ok(BesideIter { cells: self.cells, left: self.left, }) }",
        "fn clone(&self) -> Self {\n        BesideIter {\n            cells: self.cells,\n            left: self.left,\n        }\n    }",
        "the same",
    ),
    (
        "pub trait Tables: Drop {",
        "pub trait Tables: Sized {",
        "in Rattle what a type parameter is bounded by says that its values may be dropped",
    ),
    (
        "pub trait Listener: Drop {",
        "pub trait Listener: Sized {",
        "the same",
    ),
    (
        "where V: Drop,",
        "",
        "a value of any type may be dropped in Rust",
    ),
    (
        "fn empty<X: Drop>(",
        "fn empty<X>(",
        "the same",
    ),
    (
        "fn fmt<W: fmt::Write>(&self, f: &mut fmt::Formatter<W>) -> fmt::Result",
        "fn fmt(&self, f: &mut fmt::Formatter<'_>) -> fmt::Result",
        "in Rattle the formatter has its own type for each writer",
    ),
    (
        "impl<T: Drop> From<AllocFailed<T>> for ScriptFault { fn from(_e: AllocFailed<T>) -> ScriptFault { ScriptFault::Memory } }",
        "",
        "a push that fails gives an AllocError here, which has its own conversion",
    ),
    (
        "lives.iter().map(|life| shape_of(plot, life)).collect(alloc)",
        "Vec::collect(alloc, lives.iter().map(|life| shape_of(plot, life)))",
        "Rust's `collect` takes no allocator, and ends the program where one fails",
    ),
    (
        "pub(crate) fn put_answer(",
        "pub fn put_answer(",
        "the answers of recordings have these lines too",
    ),
    (
        "pub use answers::{Answer, FullRow, full_answer};",
        "pub use answers::{Answer, FullRow, full_answer, put_answer};",
        "the same",
    ),
    (
        "self.heads[class as usize]",
        "self.heads[class as u8 as usize]",
        "a class is below 256, as the contract requires: a place that is read from a `u8` needs no test",
    ),
    (
        "self.masks[word as usize]",
        "self.masks[word as usize % 4]",
        "a word is below 4, as the contract requires: the same",
    ),
    (
        "class_of(size - 1, size.ilog2()) + 1",
        "(class_of(size - 1, size.ilog2()) + 1) as u8 as u32",
        "the class is at most 240, as its contract says: with this the compiler knows it too, and tests no place for it",
    ),
    (
        "class_of(size, (size | MANTISSA_VALUE).ilog2())",
        "class_of(size, (size | MANTISSA_VALUE).ilog2()) as u8 as u32",
        "the class is at most 239: the same",
    ),
]

# What a public function requires of its caller: the clause, the test that is made at the call, the panic's message, and
# what the message shows. That is in braces: a copy is made where the test fails, and the value stays in registers.
REQUIRES = [
    ("2 ≤ max_allocs", "2 <= max_allocs", "max_allocs must be at least 2"),
    ("max_allocs + 1 < NI.MAX", "max_allocs < NI::MAX - 1", "max_allocs must be at most NI::MAX - 2"),
    ("max_allocs + 1 < T.Index.MAX", "max_allocs < T::Index::MAX - 1", "max_allocs must be at most NI::MAX - 2"),
    ("self.now.max_allocs ≤ max_allocs", "self.max_allocs <= max_allocs", "max_allocs must be at least the limit that there is"),
    ("self.now.space.max_allocs ≤ max_allocs", "self.space.max_allocs() <= max_allocs", "max_allocs must be at least the limit that there is"),
    ("min 1 limits.size ≤ limits.first_size", "limits.size.min(1) <= limits.first_size", "first_size must be at least 1, or size"),
    ("limits.first_size ≤ limits.size", "limits.first_size <= limits.size", "first_size must be at most size"),
    ("4 ≤ limits.max_allocs", "4 <= limits.max_allocs", "max_allocs must be at least 4"),
    ("limits.max_allocs + 1 < T.Index.MAX", "limits.max_allocs < <T::Index as offset_allocator::NodeIndex>::MAX - 1", "max_allocs must be at most NI::MAX - 2"),
    ("min 8 limits.max_allocs ≤ limits.first_allocs", "limits.max_allocs.min(8) <= limits.first_allocs", "first_allocs must be at least 8, or max_allocs"),
    ("limits.first_allocs ≤ limits.max_allocs", "limits.first_allocs <= limits.max_allocs", "first_allocs must be at most max_allocs"),
    ("limits.most + limits.most_larger < 2 ^ 32", "limits.most.checked_add(limits.most_larger).is_some()", "there may be at most 4294967295 heaps"),
    ("0 < most", "0 < most", "a piece must have at least 1 unit"),
    ("1 ≤ step", "1 <= step", "the step must be at least 1"),
    ("to < from", "to < from", "a move must go to a smaller offset"),
    ("from + size ≤ 4294967295", "from.checked_add(size).is_some()", "a move must end at 4294967295 or before"),
    ("IsLive allocation.name self.old", "self.is_live(allocation)", "the handle must be live: {:?}", "{ allocation }"),
    ("1 ≤ align", "1 <= align", "the alignment must be at least 1"),
    ("needed_object_size ≤ 4026531840", "needed_object_size <= 4026531840", "needed_object_size must be at most 4026531840"),
    ("n < 10", "n < 10", "a digit must be below 10"),
    ("float_value < 256", "float_value < 256", "float_value must be below 256"),
    ("number self < MAX", "self.to_usize() < <Self as NodeIndex>::MAX as usize", "MAX is the name of no node"),
    ("All IsOrdered (map life_view course.now.lives.items)", "course.lives.iter().all(|life| life.first <= life.last)", "no life may end before it begins"),
    ("length text.now < 2 ^ 32 - 1", "text.len() < u32::MAX as usize", "a text must be shorter than 4294967295 bytes"),
    ("0 < length bytes.now", "!bytes.is_empty()", "at least one byte must be pushed"),
    (
        "All (λ c. IsTrue (has_valid_alignment c)) commands.now",
        "commands.iter().all(|c| !matches!(c, Command::Align(_, 0)))",
        "each alignment must be at least 1",
    ),
    (
        "IsTrue (has_valid_alignment command)",
        "!matches!(command, Command::Align(_, 0))",
        "an alignment must be at least 1",
    ),
    ("IsTrue (is_valid call)", "call.is_valid()", "an alignment must be at least 1"),
    ("All (λ c. IsTrue (is_valid c)) calls.now", "calls.iter().all(|call| call.is_valid())", "each alignment must be at least 1"),
    ("All (λ c. IsTrue (is_valid c.call)) calls.now", "calls.iter().all(|it| it.call.is_valid())", "each alignment must be at least 1"),
]


def assertion(test, message, *shown):
    """The line that makes the test."""
    return f'assert!({test}, "{message}"{"".join(", " + value for value in shown)});'


def holds(message):
    """What is so where the test passes, in the words of its message."""
    said = {"MAX is the name of no node": "the number is below MAX"}.get(message, message).replace(": {:?}", "")
    for must, does in {"must be": "is", "must go": "goes", "must end": "ends", "must have": "has", "may be": "are", "may end": "ends"}.items():
        said = said.replace(must, does)
    return re.sub(r"\b(max_allocs|align|needed_object_size|float_value|NI::MAX - 2|MAX)\b", r"`\1`", said)


# What a public function requires, and always holds in plain Rust, each with the reason. It needs no assertion.
ALWAYS = {
    "3 ≤ count": "only this crate calls it, and it is proved that it keeps the condition; so it is of those without another reason below",
    "3 ≤ lines": "",
    "3 ≤ marks": "",
    "length values.now ≤ length xs.now": "",
    "8 * place + 8 ≤ length bytes.now": "",
    "8 * count ≤ length bytes.now": "",
    "AreXs plot.now.calls xs.now": "",
    "length answers.now ≡ length commands.now": "",
    "(i k offset : ℕ) → i < length commands.now → get_or (map answer_view answers.now) i machine.Refused ≡ machine.Grant k offset → k ≤ length commands.now": "",
    "length text.now + length self.old ≤ ROOM": "a text that does not fit meets the tests of Rust's own indices; so it is of the next ones",
    "1 + length self.old ≤ ROOM": "",
    "20 + length self.old ≤ ROOM": "",
    "23 + length text.old ≤ ROOM": "",
    "is_refusal (answer_view answer.now) ≡ true → IsRefusedBy space.now command": "",
    "AreHeld self.old.space self.old.handles.items": "players and lists of calls alone call it, which are proved to keep it, and `free` itself panics at a handle that is not live",
    "MayBeKept granted self.old.space self.old.handles.items": "`free` itself panics at a handle that is not live, as one that was kept twice is at the second `free`",
    "F.IsAlwaysCallable moved.old": "a closure of Rust may be called at any time; if it panics, that is its own panic",
}

# What the documentation hides, since it is for proofs alone: lines, each a whole one, and the traits whose methods no program
# calls.
HIDDEN = ["pub mod laws;", "pub use accesses::Accesses;"]
HIDDEN_METHODS = ["Tables"]

# The order in which rustdoc shows the calls of a root, and modules with calls: those that are named here come first. `constructors`
# and `calls` have the first calls of the root, and `more_calls` its others.
CONSTRUCTORS = ["new", "with_max_allocs", "with_realm", "with_realms"]
FIRST = [*CONSTRUCTORS, "allocate", "allocate_aligned", "free", "free_if_live"]
MODULES = [
    "constructors", "calls", "allocate", "tight", "at_offset", "more_calls", "resize", "relocate", "compact", "moves", "drop", "extend", "walks", "foretell",
    "heap_numbers", "totals", "reports", "step", "states", "save", "restore", "copy",
]

# What documentation says of a law that is left out, since it only states what is proved.
LAW = "the law `{}` of the proved sources"

# Traits whose conditions are not tested: only the library calls their methods, and it is proved that it meets them.
# Whoever else calls one meets the tests of Rust's own indices.
INSIDE = {"Listener", "Tables"}

# Lines around each example in the documentation, so that `cargo test` runs it, and the line that makes what an example
# names and does not make itself. Those after a `#` are hidden.
EXAMPLES = {
    "offset_allocator": (
        ["use offset_allocator_proved::*;", "let alloc = Global;"],
        ["# Ok::<(), AllocError>(())"],
        {"space": "let mut space = Allocator::<u32>::new(alloc, 1000)?;"},
    ),
    "offset_guarded": (
        ["use offset_allocator_guarded::*;", "let alloc = Global;"],
        ["# Ok::<(), AllocError>(())"],
        {"guarded": "let mut guarded = Guarded::<u32>::new(alloc, 1000)?;"},
    ),
    "offset_heaps": (
        ["use offset_allocator_heaps::*;", "let alloc = Global;"],
        ["# Ok::<(), AllocError>(())"],
        {
            "heaps": "let limits = Limits { size: 1000, first_size: 1000, max_allocs: 100, first_allocs: 8, most: 2, most_larger: 1 };\n"
            "let mut heaps = Heaps::<u32>::new(alloc, limits)?;",
            "heap": "let limits = Limits { size: 1000, first_size: 1000, max_allocs: 100, first_allocs: 8, most: 2, most_larger: 1 };\n"
            "let mut heaps = Heaps::<u32>::new(alloc, limits)?;\n"
            "let first = heaps.allocate(1).unwrap().place;\n"
            "heaps.free(first);\n"
            "let mut heap = heaps.heap_mut(0).unwrap();",
        },
    ),
    "offset_script": (
        ["use offset_allocator::ByNode;", "use offset_script::memory::Vec;", "use offset_script::*;", "let alloc = Global;"],
        ["# Ok::<(), RunFault>(())"],
        {
            "script": 'let script = parse(alloc, b"space 1000 nodes 16 index 32\\nalloc 300\\nfree 1\\n")?;',
            "player": "let mut player = Player::<u32>::start(alloc, 1000, 16)?;",
        },
    ),
    "offset_calls": (["use offset_calls::*;", "let alloc = Global;"], ["# Ok::<(), AllocError>(())"], {}),
    "offset_pictures": (
        ["use offset_pictures::*;", "use offset_script::*;", "let alloc = offset_script::Global;"],
        ["# Ok::<(), RunFault>(())"],
        {"script": 'let script = parse(alloc, b"space 1000 nodes 16 index 32\\nalloc 300\\nfree 1\\n")?;'},
    ),
}

# Functions that only steps of proofs call, and a law of all closures: they are left out as steps are.
IN_STEPS = {"made", "moves_are_listed"}

# Attributes and macros that are printed as they are. Any other stops `erase`.
ATTRIBUTES = {"cold", "doc", "inline", "track_caller"}
MACROS = {"in_heap", "macro_rules", "matches", "unreachable", "write", "writeln"}
