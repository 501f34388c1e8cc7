//! Draws the recording on standard input, of any length, with the first argument as the title; of many heaps the one whose
//! number is the second argument, or the first of them, and then the error output says so. The picture goes to standard output, and nothing where the text is
//! faulty. The statuses are those of the proved program: 2 for a text that is no recording, or has no such heap, 3 for memory,
//! 4 for a device.

use offset_allocator_recorded::Drawn;
use std::io::Write;
use std::process::ExitCode;

const TITLE: &str = "Ranges of a space, and its free units, over calls";

fn main() -> ExitCode {
    let title = std::env::args_os().nth(1);
    let title = title.as_ref().map_or(TITLE.into(), |given| given.to_string_lossy());
    let heap = match std::env::args_os().nth(2).map(|given| given.to_string_lossy().parse::<u32>()) {
        None => None,
        Some(Ok(number)) => Some(number),
        Some(Err(_)) => {
            eprintln!("the second argument is the number of a heap");
            return ExitCode::from(2);
        }
    };
    let mut out = std::io::stdout().lock();
    let drawn = match offset_allocator_recorded::draw_one(&title, std::io::stdin().lock(), heap) {
        Ok(Drawn { picture: None, heap: Some(number), .. }) => {
            eprintln!("no heap {number} in this recording");
            return ExitCode::from(2);
        }
        Ok(Drawn { picture, heap: Some(number), heaps }) if heap.is_none() && heaps.len() > 1 => {
            eprintln!("heap {number} of {}: give a number for another", heaps.len());
            Ok(picture)
        }
        found => found.map(|drawn| drawn.picture),
    };
    let sent = drawn.and_then(|picture| {
        let picture = picture.unwrap_or_default();
        let sent = out.write_all(picture.as_bytes()).and_then(|()| out.flush());
        sent.map_err(|_| offset_allocator_recorded::RunFault::Write)
    });
    match sent {
        Ok(()) => ExitCode::SUCCESS,
        Err(fault) => {
            eprintln!("{fault}");
            ExitCode::from(fault.status())
        }
    }
}
