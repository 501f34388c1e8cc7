//! Plays the script on standard input, and writes the answers to standard output. Written by hand, as short as the
//! proved program.

#![forbid(unsafe_code)]

use offset_script::{run_program, FromRead, Global, IntoWrite};
use std::io::{stderr, stdin, stdout};
use std::process::ExitCode;

// std's own handles report no error where a stream is open the wrong way round, so that answers would be lost. As files
// they report it. A stream that is closed is the null device before `main` begins.
#[cfg(unix)]
fn opened(stream: impl std::os::fd::AsFd) -> std::io::Result<std::fs::File> {
    Ok(stream.as_fd().try_clone_to_owned()?.into())
}

#[cfg(not(unix))]
fn opened<S>(stream: S) -> std::io::Result<S> {
    Ok(stream)
}

fn main() -> ExitCode {
    let (Ok(input), Ok(output), Ok(errors)) = (opened(stdin()), opened(stdout()), opened(stderr())) else {
        return ExitCode::from(4);
    };
    let (mut input, mut output, mut errors) = (FromRead::new(input), IntoWrite::new(output), IntoWrite::new(errors));
    ExitCode::from(run_program(Global, &mut input, &mut output, &mut errors))
}
