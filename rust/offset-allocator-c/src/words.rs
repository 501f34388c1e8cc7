//! The C interface of `Beside`, of words of 64 bits. `include/offset_allocator.h` documents each function.

use offset_allocator_guarded::{Beside, Global, Ticket};

use crate::{boxed, guard, ticket, Guard, GuardedSpace, NO_TICKET};

/// A word beside each of some tickets, as C holds them.
pub type Words = [Beside<u64>; 1];

// the header says what a cell takes
const _: () = assert!(size_of::<Option<(Ticket, u64)>>() == 32);

/// A word, if one was found, and its ticket.
#[repr(C)]
pub struct Entry {
    ticket: Guard,
    word: u64,
    found: bool,
}

const NO_ENTRY: Entry = Entry { ticket: NO_TICKET, word: 0, found: false };

// Of the names from this one on the first that has a word.
fn first_from(words: &Beside<u64>, name: u32) -> Entry {
    let cells = words.leaks().get(name as usize..).unwrap_or(&[]);
    cells.iter().flatten().next().map_or(NO_ENTRY, |(ticket, word)| Entry { ticket: guard(Some(*ticket)), word: *word, found: true })
}

exports! {
    fn oab_new() -> Option<Box<Words>> { boxed(Beside::new(Global)) } else ();

    fn oab_drop(words: Option<Box<Words>>) -> () { drop(words) } else ();

    fn oab_put([words: &mut Words], space: Option<&GuardedSpace>, allocation: Guard, word: u64) -> bool {
        space.is_some_and(|[space]| words.put(space, ticket(allocation), word).is_ok())
    } else false;

    fn oab_get<'a>(words: Option<&'a Words>, allocation: Guard) -> Option<&'a u64> {
        words.and_then(|[words]| words.get(ticket(allocation)))
    } else ();

    fn oab_get_mut<'a>(words: Option<&'a mut Words>, allocation: Guard) -> Option<&'a mut u64> {
        words.and_then(|[words]| words.get_mut(ticket(allocation)))
    } else ();

    fn oab_take([words: &mut Words], allocation: Guard) -> Entry {
        words.take(ticket(allocation)).map_or(NO_ENTRY, |word| Entry { ticket: allocation, word, found: true })
    } else NO_ENTRY;

    fn oab_from([words: &Words], name: u32) -> Entry { first_from(words, name) } else NO_ENTRY;

    fn oab_len([words: &Words],) -> usize { words.len() } else 0;

    fn oab_is_empty([words: &Words],) -> bool { words.is_empty() } else true;

    fn oab_clear([words: &mut Words],) -> () { words.clear() } else ();
}
