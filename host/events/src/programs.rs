//! The two event programs as processes.

use std::fs::File;
use std::io::Write;
use std::path::{Path, PathBuf};
use std::process::{Command, Stdio};

/// The proved event program.
pub fn proved() -> Result<PathBuf, String> {
    named("RTC_EVENTS", "target/bin/rtc_events", "make target/bin/rtc_events builds it")
}

/// The second program's own.
pub fn second() -> Result<PathBuf, String> {
    named("SECOND_EVENTS", "target/host/release/second_events", "cargo builds it from host/second")
}

fn named(variable: &str, default: &str, advice: &str) -> Result<PathBuf, String> {
    let path = std::env::var_os(variable).map_or(PathBuf::from(default), PathBuf::from);
    match path.is_file() {
        true => Ok(path),
        false => Err(format!("no {}: {advice}, or {variable} names another", path.display())),
    }
}

/// How a program gets its input.
pub enum Input<'a> {
    /// From a file: reads bring all that is asked for.
    File(&'a Path),
    /// Through a pipe, so many bytes at a time: reads end in the middle of a record.
    Pipe(&'a [u8], usize),
}

/// What a program prints. Anything on standard error and any other exit status than 0 is a failure.
pub fn output(program: &Path, input: &Input) -> Result<Vec<u8>, String> {
    let failed = |error: &dyn std::fmt::Display| format!("{}: {error}", program.display());
    let mut command = Command::new(program);
    command.stdout(Stdio::piped()).stderr(Stdio::piped());
    match input {
        Input::File(path) => {
            let file = File::open(path).map_err(|error| format!("{}: {error}", path.display()))?;
            command.stdin(file);
        }
        Input::Pipe(..) => {
            command.stdin(Stdio::piped());
        }
    }
    let mut child = command.spawn().map_err(|error| failed(&error))?;
    let pipe = child.stdin.take();
    let output = std::thread::scope(|scope| {
        if let (Input::Pipe(bytes, portion), Some(mut pipe)) = (input, pipe) {
            // A program that stops early is told by its output.
            scope.spawn(move || bytes.chunks(*portion).try_for_each(|portion| pipe.write_all(portion)));
        }
        child.wait_with_output()
    })
    .map_err(|error| failed(&error))?;
    if !output.status.success() || !output.stderr.is_empty() {
        return Err(failed(&format!("{} {}", output.status, String::from_utf8_lossy(&output.stderr).trim_end())));
    }
    Ok(output.stdout)
}
