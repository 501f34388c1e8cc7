//! Plays the recording on standard input, of any length, and writes the answers as they come. A fault ends it with the
//! statuses of the proved program: 2 for a text that is no recording, or for an argument, which it has none of, 3 for memory, 4 for
//! a device.

use std::io::{BufWriter, Write};
use std::process::ExitCode;

fn main() -> ExitCode {
    if std::env::args_os().nth(1).is_some() {
        eprintln!("it reads standard input: play-recording < FILE");
        return ExitCode::from(2);
    }
    let mut out = BufWriter::new(std::io::stdout().lock());
    let found = offset_allocator_recorded::play(std::io::stdin().lock(), &mut out);
    match found {
        Ok(()) => ExitCode::SUCCESS,
        Err(fault) => {
            let _ = out.flush();
            eprintln!("{fault}");
            ExitCode::from(fault.status())
        }
    }
}
