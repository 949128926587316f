//! The event program over standard input and output.

use std::io::{self, ErrorKind, Write};
use std::process::ExitCode;

fn main() -> ExitCode {
    match second::events::run(io::stdin().lock(), io::stdout().lock()) {
        Ok(()) => ExitCode::SUCCESS,
        // Nobody reads the lines any more: that is an end, not a fault.
        Err(error) if error.kind() == ErrorKind::BrokenPipe => ExitCode::SUCCESS,
        Err(error) => {
            // If the complaint cannot be written either, the exit code has to do.
            let _ = writeln!(io::stderr(), "second_events: {error}");
            ExitCode::FAILURE
        }
    }
}
