//! The calls of the program, and a script for them.

/// The program has as many cells for the numbers of a result.
pub const CELLS: usize = 131_072;

/// The bytes of each table of a layout, by the number of nodes and the bytes of an index.
#[derive(Clone, Copy)]
pub struct Layout {
    word: &'static str,
    title: &'static str,
    pub tables: fn(usize, usize) -> Vec<usize>,
}

/// The nodes, each with its offset, its size, its two neighbours and its two links; and the stack of unused
/// nodes.
pub const BY_NODE: Layout = Layout {
    word: "by_node",
    title: "",
    tables: |nodes, index| vec![(4 + 4 + 4 * index) * nodes, index * nodes],
};

/// A table for each of these fields, and the stack.
pub const BY_FIELD: Layout = Layout {
    word: "by_field",
    title: " by field",
    tables: |nodes, index| {
        [4, 4, index, index, index, index, index]
            .map(|cell| cell * nodes)
            .to_vec()
    },
};

/// A call with a text.
#[derive(Clone, Copy)]
pub struct Call {
    word: &'static str,
    title: &'static str,
    layout: Option<Layout>,
    /// Whether some of its requests are for room alone that it may need: where one fails, it goes on.
    pub has_hints: bool,
}

const fn call(word: &'static str, title: &'static str) -> Call {
    Call {
        word,
        title,
        layout: None,
        has_hints: false,
    }
}

const fn with_hints(word: &'static str, title: &'static str) -> Call {
    Call {
        has_hints: true,
        ..call(word, title)
    }
}

// the calls that are made on a layout
pub const NEW: Call = call("new", "new");
pub const LIMITED: Call = call("limited", "with_max_allocs");
pub const CALLS: Call = call("calls", "with_max_allocs and 1,000 calls");
pub const STORE: Call = call(
    "store",
    "with_max_allocs, 1,000 calls, a copy, a larger limit and a state",
);
pub const FILL: Call = call(
    "fill",
    "with_max_allocs and twice 3,000 requests and a reset",
);
pub const PLAY: Call = call("play", "play");
pub const LIST: Call = with_hints("list", "a list of calls");
pub const TICKETS: Call = with_hints("tickets", "a list of calls with tickets");
pub const GUARDED: Call = call(
    "guarded",
    "guarded with_max_allocs, 1,000 calls, a copy and a larger limit",
);
pub const GUARDED_STORE: Call = call(
    "guarded_store",
    "guarded with_max_allocs, 1,000 calls and a state",
);
pub const HEAPS: Call = call("heaps", "heaps");
pub const HEAPS_CALLS: Call = call("heaps_calls", "heaps and 1,000 calls");
pub const HEAPS_GROW: Call = call("heaps_grow", "heaps, of which one grows");
pub const HEAPS_EXTEND: Call = call("heaps_extend", "heaps, of which one grows as it gets units");
pub const HEAPS_MANY: Call = call("heaps_many", "heaps, with 300 numbers");
pub const HEAPS_DUMP: Call = call("heaps_dump", "heaps, 1,000 calls and a text");
pub const HEAPS_STORE: Call = call("heaps_store", "heaps, 1,000 calls, a copy and a state");
// and the others
pub const PARSE: Call = call("parse", "parse");
pub const RUN: Call = call("run", "run");
pub const RUN_PROGRAM: Call = call("program", "the program");
pub const LIVES: Call = call("lives", "lives and reports");
pub const PICTURE: Call = with_hints("picture", "a picture");
pub const DRAW_PROGRAM: Call = with_hints("drawing", "the program that draws");

impl Call {
    /// The same call on a layout.
    pub fn on(self, layout: Layout) -> Self {
        Call {
            layout: Some(layout),
            ..self
        }
    }

    /// Whether the program of many heaps makes it.
    pub fn is_of_heaps(&self) -> bool {
        self.word.starts_with("heaps")
    }

    /// The words of the program for it.
    pub fn words(&self) -> impl Iterator<Item = &'static str> {
        [self.word]
            .into_iter()
            .chain(self.layout.map(|layout| layout.word))
    }

    /// A short title of the call and the text.
    pub fn title(&self, text: &str) -> String {
        let mut lines = text.lines();
        let first = lines.next().unwrap_or_default();
        let layout = self.layout.map_or("", |layout| layout.title);
        format!(
            "{}{layout} of {first:?} and {} lines",
            self.title,
            lines.count()
        )
    }
}

/// The results that are expected; there are others.
pub const ANSWERED: u64 = 0;
pub const REFUSED: u64 = 1;
pub const FAULTY: u64 = 2;

/// The result of a call, and the numbers that it printed.
#[derive(PartialEq, Debug)]
pub struct Outcome {
    pub result: u64,
    pub numbers: Vec<u64>,
}

impl Outcome {
    pub fn new(result: u64, numbers: &[u64]) -> Self {
        let numbers = numbers.to_vec();
        Outcome { result, numbers }
    }
}

/// A script of 40 rounds of nearly the same commands, with every kind of command.
pub fn mixed(bits: usize) -> String {
    let header = format!("space 2000 nodes 40 index {bits}\n");
    let round = |k: u32| {
        let (size, align) = (k * 37 % 150, 1 << (k % 7));
        let (old, new) = (k, 2 * k);
        let reset = if k % 16 == 0 { "reset\n" } else { "" };
        format!(
            "alloc {size}\nalign {size} {align}\nalloc {k}\nfree {old}\nfree {new}\n\
             size {new}\nsize {}\nextend {k}\nreport\nfull\n{reset}",
            new + 1
        )
    };
    header + &(1..=40).map(round).collect::<String>()
}
