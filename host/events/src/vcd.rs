//! A run as a Value Change Dump, for a wave viewer.
//!
//! The archive runs it tick by tick, so that every change stands at its own tick. Time passes in runs alone: what reads,
//! writes and pins change stands at the tick that they follow, one change after the other.

use crate::notation::RECORD;
use archive::Record;
use std::fmt::Write;

const WIRES: [&str; 5] = ["IRQ", "SQW", "UIP", "RESET", "PS"];
const BYTES: [(&str, usize); 7] =
    [("seconds", 0), ("minutes", 2), ("hours", 4), ("weekday", 6), ("date", 7), ("month", 8), ("year", 9)];

/// By the divider bits: the base, the length of its tick, and the format's largest unit that is no longer.
const BASES: [(&str, &str, &str); 3] = [
    ("4.194304 MHz", "238.418579 ns", "100 ns"),
    ("1.048576 MHz", "953.674316 ns", "100 ns"),
    ("32.768 kHz", "30.517578125 us", "10 us"),
];

/// The wires and the clock bytes, in the order of the two lists.
type Levels = [u8; WIRES.len() + BYTES.len()];

fn levels(chip: &Record) -> Levels {
    let mut levels = [0; WIRES.len() + BYTES.len()];
    let lines = archive::lines(chip) as u8;
    // The status byte tells which pins are low.
    let pins = !chip[67];
    levels[..5].copy_from_slice(&[lines & 1, lines >> 1 & 1, chip[10] >> 7, pins >> 1 & 1, pins >> 2 & 1]);
    for (level, (_, location)) in levels[WIRES.len()..].iter_mut().zip(BYTES) {
        *level = chip[location];
    }
    levels
}

/// One letter names each signal.
fn letter(signal: usize) -> char {
    (b'a' + signal as u8) as char
}

struct Dump {
    text: String,
    shown: Levels,
    tick: u64,
    /// The last time that was written.
    told: u64,
}

impl Dump {
    fn value(&mut self, signal: usize, level: u8) {
        let letter = letter(signal);
        let _ = match signal < WIRES.len() {
            true => writeln!(self.text, "{level}{letter}"),
            false => writeln!(self.text, "b{level:08b} {letter}"),
        };
    }

    fn time(&mut self) {
        if self.told != self.tick {
            self.told = self.tick;
            let _ = writeln!(self.text, "#{}", self.tick);
        }
    }

    /// Writes what has changed.
    fn show(&mut self, chip: &Record) {
        let now = levels(chip);
        if now == self.shown {
            return;
        }
        self.time();
        for (signal, level) in now.into_iter().enumerate() {
            if level != self.shown[signal] {
                self.value(signal, level);
            }
        }
        self.shown = now;
    }
}

/// The dump of an event file.
pub fn dump(file: &[u8]) -> String {
    let mut chip = [0; 72];
    archive::fresh(&mut chip);
    let mut dump = Dump { text: String::new(), shown: levels(&chip), tick: 0, told: 0 };
    let mut bases = Vec::new();

    dump.text.push_str("#0\n$dumpvars\n");
    for (signal, level) in dump.shown.into_iter().enumerate() {
        dump.value(signal, level);
    }
    dump.text.push_str("$end\n");

    // A last part-record and kinds above 3 do nothing.
    for record in file.chunks_exact(RECORD) {
        let (address, low) = (u32::from(record[1]), record[2]);
        match record[0] {
            0 => drop(archive::read(&mut chip, address)),
            1 => drop(archive::write(&mut chip, address, low)),
            2 => {
                let base = usize::from(chip[10] >> 4 & 7);
                if base < BASES.len() && !bases.contains(&base) {
                    bases.push(base);
                }
                for _ in 0..u16::from_le_bytes([low, record[3]]) {
                    archive::run(&mut chip, 1);
                    dump.tick += 1;
                    dump.show(&chip);
                }
            }
            3 => drop(archive::pins(&mut chip, u32::from(low))),
            _ => {}
        }
        dump.show(&chip);
    }
    // The picture ends where the run does.
    dump.time();
    header(&bases) + &dump.text
}

/// The bases are those in which ticks passed, in order.
fn header(bases: &[usize]) -> String {
    let unit = bases.first().map_or("10 us", |&base| BASES[base].2);
    let mut text = String::from("$comment\n  MC146818. One time unit is one tick of the time base.\n");
    for &base in bases {
        let (name, length, _) = BASES[base];
        let _ = writeln!(text, "  At {name} a tick is {length}.");
    }
    text.push_str("  The timescale is the format's next lower unit for the first base: count units, not seconds.\n");
    text.push_str("  IRQ is 1 while asserted; RESET and PS are the levels of the pins.\n$end\n");
    let _ = writeln!(text, "$timescale {unit} $end\n$scope module mc146818 $end");
    for (signal, name) in WIRES.iter().enumerate() {
        let _ = writeln!(text, "$var wire 1 {} {name} $end", letter(signal));
    }
    for (signal, (name, _)) in BYTES.iter().enumerate() {
        let _ = writeln!(text, "$var reg 8 {} {name} [7:0] $end", letter(WIRES.len() + signal));
    }
    text.push_str("$upscope $end\n$enddefinitions $end\n");
    text
}

#[cfg(test)]
mod tests {
    use super::*;
    use crate::notation;
    use std::collections::HashMap;

    /// Reads a dump: each change as time, name and value.
    fn parse(text: &str) -> Result<Vec<(u64, String, String)>, String> {
        let (head, body) = text.split_once("$enddefinitions $end\n").ok_or("no end of the definitions")?;
        let mut words = head.split_whitespace();
        let mut declared = HashMap::new();
        let (mut units, mut depth) = (0, 0);
        while let Some(word) = words.next() {
            let inside: Vec<&str> = words.by_ref().take_while(|&word| word != "$end").collect();
            match (word, inside.as_slice()) {
                ("$comment", _) => {}
                ("$timescale", ["1" | "10" | "100", "s" | "ms" | "us" | "ns" | "ps" | "fs"]) => units += 1,
                ("$scope", ["module", _]) => depth += 1,
                ("$upscope", []) => depth -= 1,
                ("$var", ["wire", "1", letter, name]) | ("$var", ["reg", "8", letter, name, "[7:0]"]) => {
                    if declared.insert((*letter).to_owned(), ((*name).to_owned(), inside[1] == "1")).is_some() {
                        return Err(format!("{letter} twice"));
                    }
                }
                _ => return Err(format!("{word} {inside:?}")),
            }
        }
        if (units, depth) != (1, 0) {
            return Err("not one timescale, or a scope left open".to_owned());
        }
        let mut time = None;
        let mut changes = Vec::new();
        for line in body.lines() {
            if let Some(digits) = line.strip_prefix('#') {
                let next: u64 = digits.parse().map_err(|_| line)?;
                if time.is_some_and(|time| time >= next) {
                    return Err(format!("{line} does not come later"));
                }
                time = Some(next);
            } else if !["$dumpvars", "$end"].contains(&line) {
                let (value, letter) = match line.strip_prefix('b') {
                    Some(rest) => rest.split_once(' ').ok_or(line)?,
                    None => line.split_at(1),
                };
                let (name, wire) = declared.get(letter).ok_or(format!("{letter} is not declared"))?;
                let length = if *wire { 1 } else { 8 };
                if value.len() != length || !value.chars().all(|bit| "01".contains(bit)) {
                    return Err(line.to_owned());
                }
                changes.push((time.ok_or("a change before the first time")?, name.clone(), value.to_owned()));
            }
        }
        // The viewer needs a value of each signal to begin with.
        let first = changes.iter().take_while(|change| change.0 == 0).map(|change| &change.1);
        match declared.values().all(|(name, _)| first.clone().any(|first| first == name)) {
            true => Ok(changes),
            false => Err("a signal without a first value".to_owned()),
        }
    }

    fn changes(text: &str) -> Vec<(u64, String, String)> {
        parse(&dump(&notation::bytes(text.as_bytes()).unwrap())).unwrap()
    }

    fn of(changes: &[(u64, String, String)], name: &str) -> Vec<(u64, String)> {
        changes.iter().filter(|change| change.1 == name).map(|change| (change.0, change.2.clone())).collect()
    }

    #[test]
    fn the_samples_parse() {
        let mut samples = 0;
        for entry in std::fs::read_dir(concat!(env!("CARGO_MANIFEST_DIR"), "/../samples")).unwrap() {
            let path = entry.unwrap().path();
            if path.extension().is_some_and(|extension| extension == "events") {
                let file = notation::bytes(&std::fs::read(&path).unwrap()).unwrap();
                parse(&dump(&file)).unwrap_or_else(|error| panic!("{}: {error}", path.display()));
                samples += 1;
            }
        }
        assert_eq!(samples, 3);
    }

    #[test]
    fn an_empty_file_has_only_first_values() {
        assert_eq!(changes("").len(), WIRES.len() + BYTES.len());
        assert!(dump(&[]).contains("$timescale 10 us $end"));
    }

    /// From release at 32.768 kHz the count is 0 at tick 16,384, and the update ends at tick 16,457.
    #[test]
    fn changes_stand_at_their_ticks() {
        let changes = changes("write b 0x1a\nwrite a 0x2f\nrun 16500\nread c\nrun 10");
        let digits = |bits: &[(u64, &str)]| -> Vec<(u64, String)> {
            bits.iter().map(|&(time, value)| (time, value.to_owned())).collect()
        };
        assert_eq!(of(&changes, "UIP"), digits(&[(0, "0"), (16_384, "1"), (16_457, "0")]));
        assert_eq!(of(&changes, "IRQ"), digits(&[(0, "0"), (16_457, "1"), (16_500, "0")]));
        assert_eq!(of(&changes, "SQW"), digits(&[(0, "0"), (8_192, "1"), (16_384, "0")]));
        assert_eq!(of(&changes, "seconds"), digits(&[(0, "00000000"), (16_457, "00000001")]));
    }

    #[test]
    fn pins_are_shown_as_levels_and_the_unit_follows_the_base() {
        let text = "write a 0x00\nrun 5\npins low high\nrun 1\npins high low\nraw 9 0 0 0\nwrite a 0x20\nrun 7\npart 1";
        let changes = changes(text);
        let last = |name| of(&changes, name).last().cloned().unwrap();
        assert_eq!((last("RESET"), last("PS")), ((6, "1".to_owned()), (6, "0".to_owned())));
        let told = dump(&notation::bytes(text.as_bytes()).unwrap());
        assert!(told.contains("$timescale 100 ns $end") && told.contains("At 32.768 kHz") && told.ends_with("#13\n"));
    }

    #[test]
    fn the_checker_refuses() {
        let good = dump(&notation::bytes(b"write b 0x0a\nwrite a 0x2f\nrun 20000").unwrap());
        assert!(parse(&good).is_ok());
        for (from, to) in [
            ("$enddefinitions $end\n", ""),
            ("$timescale 10 us", "$timescale 30 us"),
            ("$var wire 1 b", "$var wire 1 a"),
            ("$upscope $end\n", ""),
            ("#8192\n", "#0\n"),
            ("#8192\n1b", "#8192\n1z"),
            ("#8192\n1b", "#8192\nxb"),
            ("0b\n", ""),
        ] {
            assert!(good.contains(from), "{from}");
            assert!(parse(&good.replacen(from, to, 1)).is_err(), "{from} {to}");
        }
    }
}
