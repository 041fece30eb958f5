//! The fast plain version as a program, standard input to standard output:
//! `plain` is the bench, `plain --wave` the dump.

use motor_model::fast;
use std::io;
use std::process::ExitCode;

fn main() -> ExitCode {
    let mut args = std::env::args().skip(1);
    let result = match (args.next().as_deref(), args.next()) {
        (None, _) => fast::run(io::stdin().lock(), unbuffered()),
        (Some("--wave"), None) => fast::wave(io::stdin().lock(), unbuffered()),
        _ => {
            eprintln!("usage: plain [--wave]");
            return ExitCode::from(2);
        }
    };
    match result {
        Ok(()) => ExitCode::SUCCESS,
        Err(error) => {
            eprintln!("plain: {error}");
            ExitCode::FAILURE
        }
    }
}

/// Standard output without the line buffer in between.
fn unbuffered() -> std::fs::File {
    use std::os::fd::{AsFd, OwnedFd};
    let owned: OwnedFd = io::stdout().as_fd().try_clone_to_owned().expect("standard output is open");
    owned.into()
}
