//! How fast the event programs are, beside `cat`.
//!
//! The best of a few rounds counts: a round can only be made slower by the rest of the machine.

use crate::notation::RECORD;
use crate::programs;
use std::fs::File;
use std::io::{self, Read};
use std::path::Path;
use std::process::{Command, Stdio};
use std::time::{Duration, Instant};

const ROUNDS: u32 = 3;

/// What a program writes to.
#[derive(Clone, Copy)]
enum Target {
    /// Somebody reads it.
    Pipe,
    /// Nobody does: what the program itself needs.
    Null,
}

/// Times the programs on one event file.
pub fn bench(path: &Path) -> Result<(), String> {
    let (proved, second) = (programs::proved()?, programs::second()?);
    let failed = |error: io::Error| format!("{}: {error}", path.display());
    let records = std::fs::metadata(path).map_err(failed)?.len() / RECORD as u64;
    // `cat` of what the programs print has as much to write as they have.
    let lines = path.with_extension("lines");
    let told = |error: io::Error| format!("{}: {error}", lines.display());
    let status = Command::new(&proved)
        .stdin(File::open(path).map_err(failed)?)
        .stdout(File::create(&lines).map_err(told)?)
        .status()
        .map_err(told)?;
    if !status.success() {
        return Err(format!("{}: {status}", proved.display()));
    }
    println!("{:20} {:>28} {:>28}", format!("{records} records"), "into a pipe", "into nothing");
    println!("{:20} {:>14} {:>13} {:>14} {:>13}", "", "million/s", "MB/s out", "million/s", "MB/s out");
    let rows = [
        ("rtc_events", proved.as_path(), path),
        ("second_events", second.as_path(), path),
        ("cat of the events", Path::new("cat"), path),
        ("cat of the lines", Path::new("cat"), lines.as_path()),
    ];
    for (name, program, input) in rows {
        let told = |error: io::Error| format!("{}: {error}", program.display());
        let mut best = [Duration::MAX; 2];
        let mut written = 0;
        for _ in 0..ROUNDS {
            for (best, target) in best.iter_mut().zip([Target::Pipe, Target::Null]) {
                let (time, bytes) = round(program, input, target).map_err(told)?;
                *best = time.min(*best);
                written = written.max(bytes);
            }
        }
        let [pipe, null] = best.map(|time| {
            let per_second = |amount: u64| amount as f64 / time.as_secs_f64() / 1e6;
            format!("{:14.1} {:13.1}", per_second(records), per_second(written))
        });
        println!("{name:20} {pipe} {null}");
    }
    let _ = std::fs::remove_file(&lines);
    Ok(())
}

/// One run: how long it took, and how many bytes came through the pipe.
fn round(program: &Path, input: &Path, target: Target) -> io::Result<(Duration, u64)> {
    let input = File::open(input)?;
    let output = match target {
        Target::Pipe => Stdio::piped(),
        Target::Null => Stdio::null(),
    };
    let start = Instant::now();
    let mut child = Command::new(program).stdin(input).stdout(output).spawn()?;
    let mut bytes = 0;
    if let Some(mut pipe) = child.stdout.take() {
        let mut block = vec![0; 1 << 16];
        loop {
            match pipe.read(&mut block)? {
                0 => break,
                received => bytes += received as u64,
            }
        }
    }
    let status = child.wait()?;
    let time = start.elapsed();
    match status.success() {
        true => Ok((time, bytes)),
        false => Err(io::Error::other(status.to_string())),
    }
}
