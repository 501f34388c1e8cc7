//! A frame's budget of moves: after half of the objects were freed, each frame copies a little, until a large request is granted.
//! `Beside` says which object a move is of, so that its view can be made anew.

use offset_allocator_guarded::{Beside, Global, Guarded, Ticket};
use std::error::Error;

const OBJECTS: usize = 100;
const SIZE: u32 = 64;
// what a frame may copy, in units and in ranges
const MOST: (u32, u32) = (512, 4);

struct Object {
    ticket: Ticket,
    // where the device reads it: a view of a buffer, say
    view: u32,
}

fn main() -> Result<(), Box<dyn Error>> {
    let mut bytes = vec![0; OBJECTS * SIZE as usize];
    let mut space = Guarded::<u32>::new(Global, bytes.len() as u32)?;
    let mut numbers = Beside::new(Global);
    let mut objects = Vec::new();
    for number in 0..OBJECTS {
        let ticket = space.allocate(SIZE).ok_or("no room")?;
        assert_eq!(numbers.put(&space, ticket, number), Ok(None));
        let view = ticket.offset;
        bytes[view as usize..][..SIZE as usize].fill(number as u8);
        objects.push(Object { ticket, view });
    }
    for it in objects.iter().step_by(2) {
        numbers.take(it.ticket);
        space.free(it.ticket);
    }

    let (mut frames, mut from) = (0, 0);
    while let Some(why) = space.refusal(2560) {
        frames += 1;
        let mut moves = Vec::new();
        let progress = space.compact_within(from, MOST.0, MOST.1, |it| moves.push(it)).ok_or(why)?;
        assert!(progress.units <= MOST.0 && progress.ranges <= MOST.1);
        for it in moves {
            bytes.copy_within(it.from as usize..(it.from + it.size) as usize, it.to as usize);
            let ticket = space.ticket(it.allocation()).ok_or("what moved is live")?;
            objects[*numbers.get(ticket).ok_or("each object has its number")?].view = it.to;
        }
        // the next frame goes on there, or begins again
        from = progress.next.unwrap_or(0);
    }
    assert!(space.allocate(2560).is_some());
    for (number, it) in objects.iter().enumerate().skip(1).step_by(2) {
        assert_eq!(space.offset_of(it.ticket), Some(it.view));
        assert!(bytes[it.view as usize..][..SIZE as usize].iter().all(|byte| *byte == number as u8));
    }
    println!("{frames} frames, each within its budget, made room for 2560 units");
    Ok(())
}
