//! What the calls reached, so that a comparison that finds nothing shows that it looked.

use crate::calls::{Call, KINDS};
use crate::corners::{base_of, CLOCK};
use archive::Record;
use second::calendar::Mode;
use second::registers::*;
use std::fmt;

const ANSWERS: usize = 11;

/// The answers that each kind of call can give, in the order of `KINDS`.
const POSSIBLE: [&[usize]; KINDS.len()] = [
    &[0],
    &[0, 2, 3, 4, 8],
    &[0, 2, 3, 4, 5, 6, 8],
    &[0, 7, 8],
    &[0, 8],
    &[0, 8],
    &[0, 1, 8],
    &[0, 1, 8],
    &[0, 9],
    &[0, 9],
];

/// How often each possible answer must have been seen in a million calls.
const LEAST: u64 = 100;

/// Clock bytes that an update can move: 256 for each field and mode, but bit 7 of the seconds is always 0.
const CLOCK_BYTES: usize = 4 * (7 * 256 - 128);
/// Running bases times rates that set PF.
const TAPS: usize = 3 * 15;

pub struct Tally {
    pub sequences: u64,
    pub calls: u64,
    ticks: u64,
    answers: [[u64; ANSWERS]; KINDS.len()],
    clock_bytes: Vec<bool>,
    taps: [bool; 4 * 16],
    alarms: u64,
    skips: u64,
    repeats: u64,
    withheld: u64,
    /// Changes made while an update was pending: SET rose, DV changed, RESET fell, PS fell.
    in_update: [u64; 4],
}

impl Tally {
    pub fn new() -> Tally {
        Tally {
            sequences: 0,
            calls: 0,
            ticks: 0,
            answers: [[0; ANSWERS]; KINDS.len()],
            clock_bytes: vec![false; 4 * 7 * 256],
            taps: [false; 4 * 16],
            alarms: 0,
            skips: 0,
            repeats: 0,
            withheld: 0,
            in_update: [0; 4],
        }
    }

    /// Counts a call on which both sides agreed.
    pub fn count(&mut self, call: &Call, word: u64, before: &Record, after: &Record) {
        self.calls += 1;
        let answer = if matches!(call, Call::Decode { .. }) { word >> 40 } else { word >> 8 };
        self.answers[call.kind()][answer as usize] += 1;
        match (call, word) {
            (Call::Run { ticks }, 0) => self.count_run(*ticks, before, after),
            (Call::Write { .. } | Call::Pins { .. }, 0) if before[67] & 1 != 0 => {
                let changes = [
                    after[REGISTER_B] & !before[REGISTER_B] & SET != 0,
                    (after[REGISTER_A] ^ before[REGISTER_A]) & DV != 0,
                    after[67] & !before[67] & 2 != 0,
                    after[67] & !before[67] & 4 != 0,
                ];
                for (times, change) in self.in_update.iter_mut().zip(changes) {
                    *times += u64::from(change);
                }
            }
            _ => {}
        }
    }

    fn count_run(&mut self, ticks: u32, before: &Record, after: &Record) {
        self.ticks += u64::from(ticks);
        let risen = after[REGISTER_C] & !before[REGISTER_C];
        if risen & PF != 0 {
            self.taps[usize::from(after[REGISTER_A] & 0x3F)] = true;
        }
        self.alarms += u64::from(risen & AF != 0);
        // Short runs only: a byte that differs was then moved by the one update in it.
        if ticks > 1_000 || base_of(before[REGISTER_A]).is_none() {
            return;
        }
        let mode = usize::from(before[REGISTER_B] >> 1 & 3);
        for (field, location) in CLOCK.into_iter().enumerate() {
            if before[location] != after[location] {
                self.clock_bytes[(mode * 7 + field) * 256 + usize::from(before[location])] = true;
            }
        }
        // The whole of the rule is not asked for: a time that leaves 1:59:59 on an October Sunday at its end is enough.
        let data = Mode::from_register_b(before[REGISTER_B]).data;
        let leaves_one = before[REGISTER_B] & DSE != 0 && before[HOURS] == 1 && before[MINUTES] != after[MINUTES];
        let october = before[MONTH] == data.byte(10) && before[WEEKDAY] == 1 && before[DATE] >= data.byte(25);
        self.skips += u64::from(leaves_one && after[HOURS] == 3);
        self.repeats += u64::from(!before[67] & after[67] & 8 != 0);
        self.withheld += u64::from(leaves_one && october && after[HOURS] == 2 && after[67] & 8 != 0);
    }

    fn taps_reached(&self) -> usize {
        self.taps.iter().filter(|&&reached| reached).count()
    }

    fn clock_bytes_reached(&self) -> usize {
        self.clock_bytes.iter().filter(|&&reached| reached).count()
    }

    /// What was not reached. Asked of a million calls or more.
    pub fn missing(&self) -> Vec<String> {
        let mut missing = Vec::new();
        for ((kind, answers), possible) in KINDS.iter().zip(&self.answers).zip(POSSIBLE) {
            for (answer, &times) in answers.iter().enumerate() {
                if possible.contains(&answer) && times < LEAST {
                    missing.push(format!("{kind} with answer {answer}: {times} of {LEAST}"));
                }
                if !possible.contains(&answer) && times > 0 {
                    missing.push(format!("{kind} with answer {answer}: must not be"));
                }
            }
        }
        let reached = [
            ("clock bytes", self.clock_bytes_reached(), CLOCK_BYTES),
            ("taps", self.taps_reached(), TAPS),
            ("alarms", self.alarms as usize, LEAST as usize),
            ("April skips", self.skips as usize, LEAST as usize),
            ("October repeats", self.repeats as usize, LEAST as usize),
            ("repeats withheld by the mark", self.withheld as usize, LEAST as usize),
            ("SET rising in an update", self.in_update[0] as usize, LEAST as usize),
            ("DV changing in an update", self.in_update[1] as usize, LEAST as usize),
            ("RESET falling in an update", self.in_update[2] as usize, LEAST as usize),
            ("PS falling in an update", self.in_update[3] as usize, LEAST as usize),
        ];
        for (name, times, least) in reached {
            if times < least {
                missing.push(format!("{name}: {times} of {least}"));
            }
        }
        missing
    }
}

impl fmt::Display for Tally {
    fn fmt(&self, to: &mut fmt::Formatter<'_>) -> fmt::Result {
        writeln!(to, "{} calls in {} sequences, {} ticks", self.calls, self.sequences, self.ticks)?;
        for (kind, answers) in KINDS.iter().zip(&self.answers) {
            write!(to, "{kind:7} {:9} ", answers.iter().sum::<u64>())?;
            for (answer, times) in answers.iter().enumerate().filter(|(_, &times)| times > 0) {
                write!(to, " {answer}: {times}")?;
            }
            writeln!(to)?;
        }
        write!(to, "answers")?;
        for answer in 0..ANSWERS - 1 {
            write!(to, " {answer}: {}", self.answers.iter().map(|answers| answers[answer]).sum::<u64>())?;
        }
        writeln!(to)?;
        writeln!(
            to,
            "corners clock bytes moved: {} of {CLOCK_BYTES}, taps risen: {} of {TAPS}, alarms: {}, April skips: {}, \
             October repeats: {}, withheld: {}",
            self.clock_bytes_reached(),
            self.taps_reached(),
            self.alarms,
            self.skips,
            self.repeats,
            self.withheld
        )?;
        let [set, divider, reset, ps] = self.in_update;
        write!(to, "in an update: SET rose: {set}, DV changed: {divider}, RESET fell: {reset}, PS fell: {ps}")
    }
}
