// Printed by rust/erase from crates/offset_allocator/src/reports/lengths.rt: change it there.

//! How many names the bins have. It reads the tables, and counts each cell.

use crate::accesses::Accesses;
use crate::index::{NodeIndex, number};
use crate::tables::Tables;

// A walk along a bin: how many names were met, and the next one, or `MAX`.
#[derive(Clone, Copy)]
struct Walk {
    met: u32,
    name: u32,
}

impl Walk {
    // Meets the next name, if there is one.
    #[inline(always)]
    fn step<T: Tables>(&mut self, tables: &T, count: &mut Accesses) {
        if self.name != T::Index::MAX {
            self.met += 1;
            self.name = number(tables.older(self.name, count));
        }
    }

    // Meets all names that are left.
    fn finish<T: Tables>(&mut self, tables: &T, count: &mut Accesses) {
        while self.name != T::Index::MAX {
            self.step(tables, count);
        }
    }
}

/// How many names are in the bins of four classes, from `class` on. While two lists go on or more, the four
/// are followed side by side, so that the links of several nodes are on their way from memory at once. The
/// last one is followed alone.
pub(crate) fn lengths_of<T: Tables>(tables: &T, class: u32, count: &mut Accesses) -> [u32; 4] {
    let mut a = Walk {
        met: 0,
        name: tables.head(class, count),
    };
    let mut b = Walk {
        met: 0,
        name: tables.head(class + 1, count),
    };
    let mut c = Walk {
        met: 0,
        name: tables.head(class + 2, count),
    };
    let mut d = Walk {
        met: 0,
        name: tables.head(class + 3, count),
    };
    let none = T::Index::MAX;
    while a.name != none && b.name != none
        || c.name != none && d.name != none
        || (a.name != none || b.name != none) && (c.name != none || d.name != none)
    {
        a.step(tables, count);
        b.step(tables, count);
        c.step(tables, count);
        d.step(tables, count);
    }
    // one list at most goes on
    a.finish(tables, count);
    b.finish(tables, count);
    c.finish(tables, count);
    d.finish(tables, count);
    [a.met, b.met, c.met, d.met]
}
