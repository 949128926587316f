//! Compares libmc146818.a with the second program, call by call.
//!
//! Both are given the same calls. After each call the word, all 72 bytes of the chip and all bytes of the buffer must
//! be the same, and the bytes beside them untouched.

mod calls;
mod corners;
mod faults;
mod numbers;
mod shrink;
mod sides;
mod tally;

use calls::Sequence;
use corners::Corners;
use faults::{Fault, FAULTS};
use sides::{replay, Difference, Pair};
use std::process::ExitCode;
use tally::Tally;

const USAGE: &str = "compare [--calls N] [--seed S] [--trace] [--plant K | --plant all | --replay FILE]
  --calls N      compare at least N calls, in whole sequences (1000000)
  --seed S       the seed of the inputs (146818)
  --trace        print each call before it is made: should one never come back, the end of the list tells it
  --plant K      lay fault K over the second program and look for it; all: one fault after the other
  --replay FILE  make the calls of a printed list again
Exit status: 0 as it should be, 1 a difference, a fault not found or a corner not reached, 2 bad usage";

/// From this many calls on, every corner must have been reached.
const ENOUGH: u64 = 1_000_000;

/// How often a long comparison tells where it is.
const PROGRESS: u64 = 10_000_000;

/// A difference, with the sequence that showed it.
struct Found {
    /// The number of the differing call, from 1, over all sequences.
    at: u64,
    sequence: Sequence,
    difference: Difference,
}

/// Which calls to make, and whether to print them.
#[derive(Clone, Copy)]
struct Inputs {
    seed: u64,
    calls: u64,
    trace: bool,
}

/// Makes sequences until there were enough calls or a difference.
fn compare(inputs: Inputs, fault: Option<&'static Fault>) -> Result<Tally, Box<Found>> {
    let Inputs { seed, calls, trace } = inputs;
    let mut tally = Tally::new();
    let mut told = 0;
    while tally.calls < calls {
        let mut corners = Corners::new(seed, tally.sequences);
        let mut opening = corners.opening();
        let mut pair = Pair::new(opening.sequence.shift, &opening.sequence.start, fault);
        let given = opening.sequence.calls.len();
        if trace {
            print!("{}", Sequence { calls: Vec::new(), ..opening.sequence });
        }
        for number in 0..given + opening.more as usize {
            if number >= given {
                opening.sequence.calls.push(corners.call(pair.chip()));
            }
            let call = &opening.sequence.calls[number];
            let before = *pair.chip();
            if trace {
                println!("{call}");
            }
            match pair.step(call) {
                Ok(word) => tally.count(call, word, &before, pair.chip()),
                Err(told) => {
                    let difference = Difference { call: number, chip: before, told };
                    return Err(Box::new(Found { at: tally.calls + 1, sequence: opening.sequence, difference }));
                }
            }
        }
        tally.sequences += 1;
        if tally.calls / PROGRESS > told {
            told = tally.calls / PROGRESS;
            eprintln!("{} of {calls} calls", tally.calls);
        }
    }
    Ok(tally)
}

/// Tells a difference, and the smallest sequence that shows one.
fn tell(found: Found, fault: Option<&'static Fault>) {
    let call = &found.sequence.calls[found.difference.call];
    println!("call {}: {call}\n{}", found.at, found.difference.told);
    let before = found.sequence.calls.len();
    let (sequence, difference) = shrink::shrink(found.sequence, found.difference, fault);
    // As comments, so that the list can be cut out and replayed as it stands.
    difference.told.lines().for_each(|line| println!("#{line}"));
    print!("# {} of {before} calls; compare --replay makes them again\n{sequence}", sequence.calls.len());
}

fn plain(inputs: Inputs) -> bool {
    let seed = inputs.seed;
    match compare(inputs, None) {
        Ok(tally) => {
            println!("seed {seed}: no difference in {tally}");
            let missing = if inputs.calls >= ENOUGH { tally.missing() } else { Vec::new() };
            missing.iter().for_each(|line| println!("not reached: {line}"));
            missing.is_empty()
        }
        Err(found) => {
            println!("seed {seed}: a difference");
            tell(*found, None);
            false
        }
    }
}

/// Looks for the planted fault of a number from 1.
fn planted(inputs: Inputs, number: usize, at_length: bool) -> bool {
    let fault = &FAULTS[number - 1];
    match compare(inputs, Some(fault)) {
        Ok(_) => {
            println!("fault {number:2} NOT FOUND in {} calls: {}", inputs.calls, fault.name);
            false
        }
        Err(found) => {
            println!("fault {number:2} found at call {:6}: {}", found.at, fault.name);
            if at_length {
                tell(*found, Some(fault));
            }
            true
        }
    }
}

fn replayed(file: &str) -> Result<bool, String> {
    let text = std::fs::read_to_string(file).map_err(|error| format!("{file}: {error}"))?;
    let sequence = Sequence::parse(&text).map_err(|error| format!("{file}: {error}"))?;
    Ok(match replay(&sequence, None) {
        None => {
            println!("no difference in {} calls", sequence.calls.len());
            true
        }
        Some(difference) => {
            println!("call {}: {}\n{}", difference.call + 1, sequence.calls[difference.call], difference.told);
            false
        }
    })
}

enum Task {
    Compare,
    Plant(usize),
    PlantAll,
    Replay(String),
}

fn run(mut arguments: impl Iterator<Item = String>) -> Result<bool, String> {
    let mut inputs = Inputs { seed: 146_818, calls: 1_000_000, trace: false };
    let mut task = Task::Compare;
    while let Some(name) = arguments.next() {
        let mut value = || arguments.next().ok_or(USAGE);
        match name.as_str() {
            "--calls" => inputs.calls = number(&value()?)?,
            "--seed" => inputs.seed = number(&value()?)?,
            "--trace" => inputs.trace = true,
            "--plant" => task = plant(&value()?)?,
            "--replay" => task = Task::Replay(value()?),
            _ => return Err(USAGE.to_owned()),
        }
    }
    match task {
        Task::Compare => Ok(plain(inputs)),
        Task::Plant(fault) => Ok(planted(inputs, fault, true)),
        Task::PlantAll => {
            let found = (1..=FAULTS.len()).filter(|&fault| planted(inputs, fault, false)).count();
            println!("{found} of {} faults found", FAULTS.len());
            Ok(found == FAULTS.len())
        }
        Task::Replay(file) => replayed(&file),
    }
}

fn number(word: &str) -> Result<u64, String> {
    word.parse().map_err(|error| format!("{word}: {error}"))
}

fn plant(word: &str) -> Result<Task, String> {
    if word == "all" {
        return Ok(Task::PlantAll);
    }
    match number(word)? as usize {
        fault if (1..=FAULTS.len()).contains(&fault) => Ok(Task::Plant(fault)),
        _ => Err(format!("{word}: faults are numbered from 1 to {}", FAULTS.len())),
    }
}

fn main() -> ExitCode {
    match run(std::env::args().skip(1)) {
        Ok(true) => ExitCode::SUCCESS,
        Ok(false) => ExitCode::FAILURE,
        Err(error) => {
            eprintln!("{error}");
            ExitCode::from(2)
        }
    }
}
