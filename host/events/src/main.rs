//! Event files as text, as listings and as pictures, and the event programs side by side.

mod bench;
mod compare;
mod generate;
mod notation;
// The comparison of calls draws its inputs from the same numbers.
#[path = "../../compare/src/numbers.rs"]
mod numbers;
mod programs;
mod show;
mod vcd;

use programs::Input;
use std::io::{self, ErrorKind, Read, Write};
use std::path::Path;
use std::process::ExitCode;

const USAGE: &str = "event_files COMMAND
  bytes < TEXT > FILE            the event file of a text
  text < FILE > TEXT             the text of an event file
  show TEXT                      run a text (- is standard input): each line of the event program beside its cause
  vcd TEXT > DUMP                run a text: a Value Change Dump, one time unit for each tick
  compare [--files N] [--seed S] compare rtc_events with second_events on N files (300) of a seed (146818)
  bench-file N > FILE            an event file of N short records
  bench FILE                     time rtc_events, second_events and cat on an event file
RTC_EVENTS and SECOND_EVENTS name other programs than target/bin/rtc_events and target/host/release/second_events.
Texts have one event a line:
  read ADDRESS                   ADDRESS: 0 to 255, seconds, seconds_alarm, minutes, minutes_alarm, hours, hours_alarm,
  write ADDRESS VALUE            weekday, date, month, year, a, b, c, d, or ram+0 to ram+49
  run TICKS                      more than 65535 ticks become several records
  pins RESET PS                  each high or low
  raw KIND ADDRESS LOW HIGH      any record
  part BYTE..                    one to three bytes that end the file
Numbers are decimal, or hex after 0x; # starts a comment.
Exit status: 0 as it should be, 1 bad input or a difference, 2 bad usage";

enum Failure {
    Usage,
    Told(String),
}

impl From<String> for Failure {
    fn from(told: String) -> Failure {
        Failure::Told(told)
    }
}

/// All that is printed is complete before the first byte of it is written.
fn print(bytes: &[u8]) -> Result<bool, Failure> {
    let mut output = io::stdout().lock();
    match output.write_all(bytes).and_then(|()| output.flush()) {
        // A reader that has seen enough is no failure.
        Err(error) if error.kind() != ErrorKind::BrokenPipe => Err(format!("standard output: {error}").into()),
        _ => Ok(true),
    }
}

fn input(file: &str) -> Result<Vec<u8>, String> {
    let mut bytes = Vec::new();
    match file {
        "-" => io::stdin().lock().read_to_end(&mut bytes).map(|_| bytes),
        _ => std::fs::read(file),
    }
    .map_err(|error| format!("{file}: {error}"))
}

fn show(file: &str) -> Result<String, String> {
    let text = input(file)?;
    let lines = notation::lines(&text)?;
    let events: Vec<u8> = lines.iter().flat_map(|line| line.bytes.clone()).collect();
    let printed = programs::output(&programs::proved()?, &Input::Pipe(&events, usize::MAX))?;
    show::listing(&lines, &printed)
}

fn number(word: &str) -> Result<u64, Failure> {
    word.parse().map_err(|error| Failure::Told(format!("{word}: {error}")))
}

fn compare(mut options: &[&str]) -> Result<bool, Failure> {
    let (mut files, mut seed) = (300, 146_818);
    while let [name, value, rest @ ..] = options {
        match *name {
            "--files" => files = number(value)?,
            "--seed" => seed = number(value)?,
            _ => return Err(Failure::Usage),
        }
        options = rest;
    }
    match options {
        [] => Ok(compare::compare(files, seed)?),
        _ => Err(Failure::Usage),
    }
}

fn run(arguments: &[&str]) -> Result<bool, Failure> {
    match arguments {
        ["bytes"] => print(&notation::bytes(&input("-")?)?),
        ["text"] => print(notation::text(&input("-")?).as_bytes()),
        ["show", file] => print(show(file)?.as_bytes()),
        ["vcd", file] => print(vcd::dump(&notation::bytes(&input(file)?)?).as_bytes()),
        ["compare", options @ ..] => compare(options),
        ["bench-file", records] => print(&generate::bench_file(number(records)?)),
        ["bench", file] => Ok(bench::bench(Path::new(file)).map(|()| true)?),
        _ => Err(Failure::Usage),
    }
}

fn main() -> ExitCode {
    let arguments: Vec<String> = std::env::args().skip(1).collect();
    let arguments: Vec<&str> = arguments.iter().map(String::as_str).collect();
    match run(&arguments) {
        Ok(true) => ExitCode::SUCCESS,
        Ok(false) => ExitCode::FAILURE,
        Err(Failure::Told(told)) => {
            eprintln!("{told}");
            ExitCode::FAILURE
        }
        Err(Failure::Usage) => {
            eprintln!("{USAGE}");
            ExitCode::from(2)
        }
    }
}
