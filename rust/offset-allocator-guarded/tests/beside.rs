//! Values beside tickets, between random grants and releases, against a map by name, serial and realm.

#[path = "../../random.rs"]
mod random;

use offset_allocator_guarded::{Beside, Global, Guarded, Ticket};
use random::Xorshift as Numbers;
use std::collections::HashMap;

type Key = (u32, u64, u32);

fn key(ticket: Ticket) -> Key {
    (ticket.name(), ticket.serial(), ticket.realm())
}

// One of the last tickets.
fn recent(tickets: &[Ticket], number: u64) -> Ticket {
    let back = number as usize % tickets.len().min(100);
    tickets[tickets.len() - 1 - back]
}

#[test]
fn values_are_those_of_a_map() {
    let mut numbers = Numbers(0x9e37_79b9_7f4a_7c15);
    let mut space = Guarded::<u16>::with_realm(Global, 1_000, 60, 1).unwrap();
    let mut names = Beside::new(Global);
    let mut model: HashMap<Key, (Ticket, String)> = HashMap::new();
    let mut tickets = Vec::new();
    let (mut stale, mut replaced, mut changed, mut cleared) = (0, 0, 0, 0);
    for step in 0..100_000u32 {
        let number = numbers.next() >> 11;
        assert_eq!((names.len(), names.is_empty()), (model.len(), model.is_empty()));
        match number % 5 {
            0 => {
                if let Some(ticket) = space.allocate(1 + (number / 4 % 60) as u32) {
                    tickets.push(ticket);
                    let earlier = model.iter().find(|(key, _)| key.0 == ticket.name()).map(|(key, _)| *key);
                    let was = earlier.and_then(|key| model.remove(&key));
                    assert_eq!(names.put(&space, ticket, step.to_string()), Ok(was));
                    model.insert(key(ticket), (ticket, step.to_string()));
                    // the same ticket again has the same name
                    if number % 32 == 0 {
                        let was = model.insert(key(ticket), (ticket, "again".to_string()));
                        assert_eq!(names.put(&space, ticket, "again".to_string()), Ok(was));
                        replaced += 1;
                    }
                }
            }
            1 if !tickets.is_empty() => {
                let ticket = recent(&tickets, number / 4);
                // one in four values is not taken where its range is freed, nor where it was
                if space.free(ticket) && number / 5 % 4 != 0 {
                    let value = model.remove(&key(ticket)).map(|(_, value)| value);
                    assert_eq!(names.take(ticket), value);
                    assert_eq!(names.take(ticket), None);
                }
            }
            2 if !tickets.is_empty() => {
                let ticket = recent(&tickets, number / 4);
                let value = model.get(&key(ticket)).map(|(_, value)| value);
                assert_eq!(names.get(ticket), value);
                // by the name alone it is the last that was put there, of whatever grant
                let under = model.values().find(|(kept, _)| kept.name() == ticket.name());
                assert_eq!(names.under(ticket.name()), under.map(|(kept, value)| (*kept, value)));
                // a ticket counts by name, serial and realm
                let (offset, name, serial, realm) = ticket.to_parts();
                let moved = Ticket::from_parts(offset ^ 1, name, serial, realm).unwrap();
                assert_eq!(names.get(moved), value);
                assert_eq!(names.get(Ticket::from_parts(offset, name, serial, 2).unwrap()), None);
                stale += u32::from(value.is_none());
            }
            3 if !tickets.is_empty() => {
                let ticket = recent(&tickets, number / 4);
                let value = model.get_mut(&key(ticket)).map(|(_, value)| value);
                assert_eq!(names.get_mut(ticket), value);
                if let (Some(value), Some(there)) = (value, names.get_mut(ticket)) {
                    value.push('!');
                    there.push('!');
                    changed += 1;
                }
            }
            4 if number % 1_000 == 4 => {
                assert_same(&names, &model);
                if number % 20_000 == 4 {
                    let cells = names.leaks().len();
                    names.clear();
                    model.clear();
                    assert_eq!(names.leaks(), vec![None; cells]);
                    cleared += 1;
                }
            }
            _ => {}
        }
    }
    assert!(stale > 1_000 && replaced > 100 && changed > 1_000 && cleared > 0);
    assert_same(&names, &model);
}

// Whether the values are those of a map, in the order of names.
fn assert_same(names: &Beside<String>, model: &HashMap<Key, (Ticket, String)>) {
    let mut left: Vec<(Ticket, &String)> = model.values().map(|(ticket, value)| (*ticket, value)).collect();
    left.sort_by_key(|(ticket, _)| ticket.name());
    assert_eq!(names.iter().collect::<Vec<_>>(), left);
    assert_eq!(names.into_iter().collect::<Vec<_>>(), left);
    assert!(names.leaks().iter().flatten().map(|(ticket, value)| (*ticket, value)).eq(left.iter().copied()));
    assert_eq!(names.iter().len(), left.len());
    let mut walk = names.iter();
    for (seen, entry) in left.iter().enumerate() {
        assert_eq!((walk.len(), walk.size_hint().1), (left.len() - seen, Some(left.len() - seen)));
        assert!(walk.clone().eq(left[seen..].iter().copied()));
        assert_eq!(walk.next(), Some(*entry));
    }
    assert_eq!((walk.next(), walk.next()), (None, None));
    let text: std::collections::BTreeMap<u32, _> = left.iter().map(|entry| (entry.0.name(), entry)).collect();
    let lines: Vec<String> = text.values().map(|(ticket, value)| format!("{ticket:?}: {value:?}")).collect();
    assert_eq!(format!("{names:?}"), format!("{{{}}}", lines.join(", ")));
}

#[test]
fn no_value_is_lost_or_dropped_twice() {
    use std::rc::Rc;
    let value = Rc::new(());
    let mut space = Guarded::<u32>::with_realm(Global, 100, 10, 1).unwrap();
    let mut values = Beside::new(Global);
    let one = space.allocate(10).unwrap();
    let two = space.allocate(10).unwrap();
    assert!(values.put(&space, one, value.clone()).is_ok() && values.put(&space, two, value.clone()).is_ok());
    assert_eq!(Rc::strong_count(&value), 3);
    drop(values.take(one));
    assert_eq!(Rc::strong_count(&value), 2);
    drop(values.put(&space, two, value.clone()));
    assert_eq!(Rc::strong_count(&value), 2);
    // a ticket that is not live gets none, and the value comes back
    space.free(one);
    drop(values.put(&space, one, value.clone()));
    assert_eq!(Rc::strong_count(&value), 2);
    // one that is changed in place drops what was there, and `clear` all
    *values.get_mut(two).unwrap() = value.clone();
    assert_eq!(Rc::strong_count(&value), 2);
    values.clear();
    assert_eq!((Rc::strong_count(&value), values.len(), values.take(two)), (1, 0, None));
    assert_eq!(values.put(&space, two, value.clone()), Ok(None));
    drop(values);
    assert_eq!(Rc::strong_count(&value), 1);
}

#[test]
fn closures_are_taken_and_lent() {
    let mut space = Guarded::<u32>::with_realm(Global, 100, 10, 1).unwrap();
    let first = space.allocate(10).unwrap();
    space.allocate(20).unwrap();
    space.free(first);
    let mut moves = Vec::new();
    space.compact_unaligned(|it| moves.push((it.from, it.to, it.size)));
    assert_eq!(moves, [(10, 0, 20)]);
    let mut again = |_| unreachable!();
    space.compact_unaligned(&mut again);
    space.compact_by(8, &mut again);
}

#[test]
fn a_move_finds_its_value() {
    let mut space = Guarded::<u32>::with_realm(Global, 100, 10, 1).unwrap();
    let mut names = Beside::new(Global);
    let [one, two, three] = [10, 20, 30].map(|size| space.allocate(size).unwrap());
    for (ticket, name) in [(one, "one"), (two, "two"), (three, "three")] {
        assert_eq!(names.put(&space, ticket, name), Ok(None));
    }
    assert!(space.free(one) && names.take(one) == Some("one"));
    let mut moved = Vec::new();
    space.compact_unaligned(|range| moved.push((range.to, names.under(range.allocation().name()))));
    assert_eq!(moved, [(0, Some((two, &"two"))), (20, Some((three, &"three")))]);
    // a name without a cell, one without a value, and one whose value is of an earlier grant
    assert_eq!((names.under(9), names.under(u32::MAX), names.under(one.name())), (None, None, None));
    assert!(space.free(two));
    let later = space.allocate(5).unwrap();
    assert_eq!((later.name(), names.get(later), names.under(later.name())), (two.name(), None, Some((two, &"two"))));
}

#[test]
fn tickets_that_are_not_live_get_no_value() {
    let mut space = Guarded::<u32>::new(Global, 100).unwrap();
    let other = Guarded::<u32>::new(Global, 100).unwrap();
    let mut names = Beside::new(Global);
    let stale = space.allocate(10).unwrap();
    assert_eq!(names.put(&space, stale, "stale"), Ok(None));
    space.free(stale);
    let live = space.allocate(10).unwrap();
    assert_eq!(live.name(), stale.name());
    // the value of an earlier grant comes out, and the earlier ticket does not displace the later one's
    assert_eq!(names.put(&space, live, "live"), Ok(Some((stale, "stale"))));
    assert_eq!(names.put(&space, stale, "again"), Err("again"));
    assert_eq!(names.get(live), Some(&"live"));
    // no memory is taken for a name that no node has, nor of a ticket of another space
    let (offset, name, serial, realm) = live.to_parts();
    for (name, serial, realm) in [(20_000_000, serial, realm), (name, 3, realm), (name, serial, other.realm())] {
        let made_up = Ticket::from_parts(offset, name, serial, realm).unwrap();
        assert_eq!(names.put(&space, made_up, "made up"), Err("made up"));
    }
    assert_eq!(names.put(&other, live, "other"), Err("other"));
    assert_eq!(names.leaks().len(), 1);
    assert_eq!(names.leaks(), [Some((live, "live"))]);
}

// States have no values: each is stored with the parts of its ticket, and put beside the space that was read.
#[test]
fn values_go_with_a_state() {
    let mut space = Guarded::<u32>::with_max_allocs(Global, 4000, 300).unwrap();
    let mut names = Beside::new(Global);
    let tickets: Vec<Ticket> = (1..=200).map(|size| space.allocate(size % 17 + 1).unwrap()).collect();
    for (number, &ticket) in tickets.iter().enumerate() {
        assert!(names.put(&space, ticket, number).is_ok());
    }
    for &ticket in tickets.iter().step_by(3) {
        assert!(space.free(ticket) && names.take(ticket).is_some());
    }
    let stored: Vec<_> = names.iter().map(|(ticket, &number)| (ticket.to_parts(), number)).collect();
    let bytes = space.write_state(Global).unwrap();
    let read = Guarded::<u32>::read_state(Global, &bytes, 300).ok().unwrap();
    let mut again = Beside::new(Global);
    for ((offset, name, serial, realm), number) in stored {
        let ticket = Ticket::from_parts(offset, name, serial, realm).unwrap();
        assert!(again.put(&read, ticket, number).is_ok());
    }
    assert_eq!(again.len(), 133);
    for (number, &ticket) in tickets.iter().enumerate() {
        assert_eq!(again.get(ticket), (number % 3 != 0).then_some(&number));
    }
}
