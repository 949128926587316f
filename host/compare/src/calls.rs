//! The calls that are compared, and the text in which a sequence of them is printed and read back.

use archive::Record;
use std::fmt;
use std::num::ParseIntError;

/// A call with all that it is given, except the chip.
#[derive(Clone, Debug, PartialEq, Eq)]
pub enum Call {
    Fresh,
    Read { address: u32 },
    Write { address: u32, value: u8 },
    Run { ticks: u32 },
    Pins { levels: u32 },
    Lines,
    Load { input: Vec<u8> },
    Save { fill: u8, length: usize, offset: usize },
    Decode { mode: u8, bytes: Vec<u8> },
    Encode { mode: u8, fill: u8, length: usize, seconds: u64, weekday: u32 },
}

/// The kinds of call, in the header's order.
pub const KINDS: [&str; 10] = ["fresh", "read", "write", "run", "pins", "lines", "load", "save", "decode", "encode"];

impl Call {
    /// The position of this call in `KINDS`.
    pub fn kind(&self) -> usize {
        match self {
            Call::Fresh => 0,
            Call::Read { .. } => 1,
            Call::Write { .. } => 2,
            Call::Run { .. } => 3,
            Call::Pins { .. } => 4,
            Call::Lines => 5,
            Call::Load { .. } => 6,
            Call::Save { .. } => 7,
            Call::Decode { .. } => 8,
            Call::Encode { .. } => 9,
        }
    }

    /// What stands in the call's buffer before the call. A chip alone has none.
    pub fn buffer(&self) -> Vec<u8> {
        match self {
            Call::Load { input } => input.clone(),
            Call::Decode { bytes, .. } => bytes.clone(),
            Call::Save { fill, length, .. } | Call::Encode { fill, length, .. } => pattern(*fill, *length),
            _ => Vec::new(),
        }
    }
}

/// Bytes that differ from their neighbours, so that a shifted or a stray write shows.
pub fn pattern(fill: u8, length: usize) -> Vec<u8> {
    (0..length).map(|place| fill.wrapping_add((place as u8).wrapping_mul(37))).collect()
}

/// A chip to start from, and calls on it.
#[derive(Clone, Debug, PartialEq, Eq)]
pub struct Sequence {
    /// How far the buffers stand from an address divisible by 8.
    pub shift: usize,
    pub start: Record,
    pub calls: Vec<Call>,
}

/// Bytes as pairs of hexadecimal digits.
pub fn hex(bytes: &[u8]) -> String {
    if bytes.is_empty() {
        return "-".to_owned();
    }
    bytes.iter().map(|byte| format!("{byte:02x}")).collect()
}

impl fmt::Display for Call {
    fn fmt(&self, to: &mut fmt::Formatter<'_>) -> fmt::Result {
        match self {
            Call::Fresh => write!(to, "fresh"),
            Call::Read { address } => write!(to, "read address {address}"),
            Call::Write { address, value } => write!(to, "write address {address} value {value}"),
            Call::Run { ticks } => write!(to, "run ticks {ticks}"),
            Call::Pins { levels } => write!(to, "pins levels {levels}"),
            Call::Lines => write!(to, "lines"),
            Call::Load { input } => write!(to, "load input {}", hex(input)),
            Call::Save { fill, length, offset } => write!(to, "save fill {fill} length {length} offset {offset}"),
            Call::Decode { mode, bytes } => write!(to, "decode mode {mode} bytes {}", hex(bytes)),
            Call::Encode { mode, fill, length, seconds, weekday } => {
                write!(to, "encode mode {mode} fill {fill} length {length} seconds {seconds} weekday {weekday}")
            }
        }
    }
}

impl fmt::Display for Sequence {
    fn fmt(&self, to: &mut fmt::Formatter<'_>) -> fmt::Result {
        writeln!(to, "shift {}", self.shift)?;
        writeln!(to, "chip {}", hex(&self.start))?;
        self.calls.iter().try_for_each(|call| writeln!(to, "{call}"))
    }
}

impl Sequence {
    /// Reads what `Display` prints. Lines that are empty or begin with # are left out.
    pub fn parse(text: &str) -> Result<Sequence, String> {
        let mut sequence = Sequence { shift: 0, start: [0; 72], calls: Vec::new() };
        archive::fresh(&mut sequence.start);
        for (number, line) in text.lines().enumerate() {
            let words: Vec<&str> = line.split_whitespace().collect();
            let told = |error: String| format!("line {}: {error}", number + 1);
            match words[..] {
                [] => {}
                [first, ..] if first.starts_with('#') => {}
                ["shift", shift] => sequence.shift = parse_number::<usize>(shift).map_err(told)? % 8,
                ["chip", bytes] => {
                    let bytes = parse_hex(bytes).map_err(told)?;
                    sequence.start = bytes.try_into().map_err(|_| told("a chip is 72 bytes".to_owned()))?;
                }
                _ => sequence.calls.push(parse_call(&words).map_err(told)?),
            }
        }
        Ok(sequence)
    }
}

fn parse_call(words: &[&str]) -> Result<Call, String> {
    Ok(match *words {
        ["fresh"] => Call::Fresh,
        ["read", "address", address] => Call::Read { address: parse_number(address)? },
        ["write", "address", address, "value", value] => {
            Call::Write { address: parse_number(address)?, value: parse_number(value)? }
        }
        ["run", "ticks", ticks] => Call::Run { ticks: parse_number(ticks)? },
        ["pins", "levels", levels] => Call::Pins { levels: parse_number(levels)? },
        ["lines"] => Call::Lines,
        ["load", "input", input] => Call::Load { input: parse_hex(input)? },
        ["save", "fill", fill, "length", length, "offset", offset] => {
            Call::Save { fill: parse_number(fill)?, length: parse_number(length)?, offset: parse_number(offset)? }
        }
        ["decode", "mode", mode, "bytes", bytes] => {
            Call::Decode { mode: parse_number(mode)?, bytes: parse_hex(bytes)? }
        }
        ["encode", "mode", mode, "fill", fill, "length", length, "seconds", seconds, "weekday", weekday] => {
            Call::Encode {
                mode: parse_number(mode)?,
                fill: parse_number(fill)?,
                length: parse_number(length)?,
                seconds: parse_number(seconds)?,
                weekday: parse_number(weekday)?,
            }
        }
        _ => return Err(format!("no call: {}", words.join(" "))),
    })
}

fn parse_number<T: std::str::FromStr<Err = ParseIntError>>(word: &str) -> Result<T, String> {
    word.parse().map_err(|error| format!("{word}: {error}"))
}

fn parse_hex(word: &str) -> Result<Vec<u8>, String> {
    if word == "-" {
        return Ok(Vec::new());
    }
    if !word.is_ascii() || !word.len().is_multiple_of(2) {
        return Err("bytes are pairs of hexadecimal digits".to_owned());
    }
    (0..word.len() / 2)
        .map(|place| u8::from_str_radix(&word[2 * place..2 * place + 2], 16).map_err(|error| error.to_string()))
        .collect()
}

#[cfg(test)]
mod tests {
    use super::*;

    #[test]
    fn what_is_printed_is_read_back() {
        let calls = vec![
            Call::Fresh,
            Call::Read { address: u32::MAX },
            Call::Write { address: 10, value: 255 },
            Call::Run { ticks: 65_537 },
            Call::Pins { levels: 3 },
            Call::Lines,
            Call::Load { input: vec![1, 2, 255] },
            Call::Load { input: Vec::new() },
            Call::Save { fill: 7, length: 100, offset: usize::MAX },
            Call::Decode { mode: 2, bytes: vec![0; 7] },
            Call::Encode { mode: 4, fill: 9, length: 7, seconds: u64::MAX, weekday: 8 },
        ];
        let kinds: Vec<&str> = calls.iter().map(|call| KINDS[call.kind()]).collect();
        for (call, kind) in calls.iter().zip(kinds) {
            assert!(call.to_string().starts_with(kind));
        }
        let sequence = Sequence { shift: 5, start: [0xA5; 72], calls };
        assert_eq!(Sequence::parse(&sequence.to_string()), Ok(sequence));
        assert!(Sequence::parse("read address -1").is_err());
        assert!(Sequence::parse("chip 00").is_err());
    }
}
