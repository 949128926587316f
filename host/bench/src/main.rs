//! Times every call of libmc146818.a beside the second program's, in one run.
//!
//! The two sides take turns, many short rounds each, and the best round of each side counts: a round can only be made
//! slower by the rest of the machine, never faster.

use archive::Record;
use second::host;
use std::hint::black_box;
use std::time::{Duration, Instant};

/// The goal: no call slower than this many times the second program.
const GOAL: f64 = 1.5;

const ROUNDS: u32 = 40;
/// How long a round should take, so that the machine's clock is fine enough.
const ROUND: Duration = Duration::from_millis(3);

/// A million ticks, in calls of at most 65,536.
const MILLION: [u32; 16] = {
    let mut parts = [65_536; 16];
    parts[15] = 1_000_000 - 15 * 65_536;
    parts
};

/// One side's calls. As pointers, so that neither side is compiled into the loop that times it.
struct Calls {
    fresh: fn(&mut Record),
    read: fn(&mut Record, u32) -> u32,
    write: fn(&mut Record, u32, u8) -> u32,
    run: fn(&mut Record, u32) -> u32,
    pins: fn(&mut Record, u32) -> u32,
    lines: fn(&Record) -> u32,
    load: fn(&mut Record, &[u8]) -> u32,
    save: fn(&Record, &mut [u8], usize) -> u32,
    decode: fn(&[u8], u8) -> u64,
    encode: fn(&mut [u8], u64, u32, u8) -> u32,
}

static ARCHIVE: Calls = Calls {
    fresh: archive::fresh,
    read: archive::read,
    write: archive::write,
    run: archive::run,
    pins: archive::pins,
    lines: archive::lines,
    load: archive::load,
    save: archive::save,
    decode: archive::decode,
    encode: archive::encode,
};

static SECOND: Calls = Calls {
    fresh: host::fresh,
    read: host::read,
    write: host::write,
    run: host::run,
    pins: host::pins,
    lines: host::lines,
    load: host::load,
    save: host::save,
    decode: host::decode,
    encode: host::encode,
};

/// What a call works on.
#[derive(Clone)]
struct Desk {
    chip: Record,
    input: Record,
    page: [u8; 4_096],
    time: [u8; 7],
}

struct Table {
    above: Vec<String>,
}

impl Table {
    /// Times one work on both sides and prints its line.
    fn time<T>(&mut self, name: &str, start: Record, work: impl Fn(&Calls, &mut Desk, u32) -> T) {
        let (ours, theirs) = (black_box(&ARCHIVE), black_box(&SECOND));
        let desk = Desk { chip: start, input: start, page: [0xA5; 4_096], time: [0; 7] };
        let mut desks = (desk.clone(), desk);
        let round = |calls: &Calls, desk: &mut Desk, times: u32| {
            let start = Instant::now();
            for number in 0..times {
                black_box(work(calls, black_box(&mut *desk), number));
            }
            start.elapsed()
        };
        let mut times = 1;
        while round(ours, &mut desks.0, times).max(round(theirs, &mut desks.1, times)) < ROUND {
            times *= 2;
        }
        let mut best = (Duration::MAX, Duration::MAX);
        for _ in 0..ROUNDS {
            best.0 = best.0.min(round(ours, &mut desks.0, times));
            best.1 = best.1.min(round(theirs, &mut desks.1, times));
        }
        let nanoseconds = |time: Duration| time.as_secs_f64() * 1e9 / f64::from(times);
        self.line(name, nanoseconds(best.0), nanoseconds(best.1));
    }

    fn line(&mut self, name: &str, archive: f64, second: f64) {
        let ratio = archive / second;
        let above = ratio > GOAL;
        println!("{name:32} {archive:12.1} {second:12.1} {ratio:7.2}{}", if above { "  above" } else { "" });
        if above {
            self.above.push(format!("{name} ({ratio:.2})"));
        }
    }
}

fn fresh() -> Record {
    let mut chip = [0; 72];
    host::fresh(&mut chip);
    chip
}

/// A chip that runs, BCD and 24-hour, with PF at 1,024 Hz.
fn running(divider: u8) -> Record {
    let mut chip = fresh();
    for (address, value) in [(11, 0x02), (10, divider | 6)] {
        assert_eq!(host::write(&mut chip, address, value), 0);
    }
    chip
}

/// A time somewhere in the century, so that no year is favoured.
fn seconds(number: u32) -> u64 {
    u64::from(number) * 1_000_003 % 3_155_760_000
}

fn main() {
    let mut table = Table { above: Vec::new() };
    let chip = running(0x20);
    println!("{:32} {:>12} {:>12} {:>7}", "nanoseconds for", "archive", "second", "ratio");

    table.time("fresh", chip, |side, desk, _| (side.fresh)(&mut desk.chip));
    table.time("read, RAM", chip, |side, desk, number| (side.read)(&mut desk.chip, 14 + number % 50));
    table.time("read, register C", chip, |side, desk, _| (side.read)(&mut desk.chip, 12));
    table.time("read, refused", chip, |side, desk, number| (side.read)(&mut desk.chip, 64 | number));
    table.time("write, RAM", chip, |side, desk, number| (side.write)(&mut desk.chip, 14 + number % 50, number as u8));
    table.time("write, register A", chip, |side, desk, number| {
        (side.write)(&mut desk.chip, 10, (number % 3 * 16 + 6) as u8)
    });
    table.time("write, register B", chip, |side, desk, number| (side.write)(&mut desk.chip, 11, number as u8));
    table.time("run, 0 ticks", chip, |side, desk, _| (side.run)(&mut desk.chip, 0));
    table.time("run, 1 tick", chip, |side, desk, _| (side.run)(&mut desk.chip, 1));
    table.time("pins", chip, |side, desk, number| (side.pins)(&mut desk.chip, number));
    table.time("lines", chip, |side, desk, _| (side.lines)(&desk.chip));
    table.time("load", chip, |side, desk, _| (side.load)(&mut desk.chip, &desk.input));
    table.time("save", chip, |side, desk, number| (side.save)(&desk.chip, &mut desk.page, (number % 4_000) as usize));

    for (name, mode) in [("BCD, 12-hour", 0), ("binary, 24-hour", 6)] {
        let times: Vec<[u8; 7]> = (0..1_024)
            .map(|number| {
                let mut bytes = [0; 7];
                assert_eq!(host::encode(&mut bytes, seconds(number * 3_001), 1 + number % 7, mode), 0);
                bytes
            })
            .collect();
        table.time(&format!("decode, {name}"), chip, |side, _, number| {
            (side.decode)(&times[number as usize % 1_024], mode)
        });
        table.time(&format!("encode, {name}"), chip, |side, desk, number| {
            (side.encode)(&mut desk.time, seconds(number), 1 + number % 7, mode)
        });
    }

    let bases = [("4.194304 MHz", 0x00), ("1.048576 MHz", 0x10), ("32.768 kHz", 0x20), ("held", 0x60)];
    for (name, divider) in bases {
        table.time(&format!("1,000,000 ticks, {name}"), running(divider), |side, desk, _| {
            MILLION.map(|ticks| assert_eq!((side.run)(&mut desk.chip, ticks), 0))
        });
    }

    if table.above.is_empty() {
        println!("no line is above {GOAL} times the second program");
    } else {
        println!("above {GOAL} times the second program: {}", table.above.join(", "));
    }
}
