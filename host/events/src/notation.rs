//! Event files as text.
//!
//! One event a line; `#` starts a comment; blank lines do not count. A number is decimal, or hex after `0x`.
//!
//! ```text
//! read ADDRESS                 ADDRESS: 0 to 255, seconds, seconds_alarm, minutes, minutes_alarm, hours, hours_alarm,
//! write ADDRESS VALUE          weekday, date, month, year, a, b, c, d, or ram+0 to ram+49
//! run TICKS                    more than 65,535 ticks become several records: full ones, then the rest
//! pins RESET PS                each high or low
//! raw KIND ADDRESS LOW HIGH    the four bytes of any record
//! part BYTE..                  one to three bytes that end the file
//! ```
//!
//! Bytes that an event does not use are written as 0. A record that is not so is shown as `raw`, so that no file is
//! changed by a way through text and back.

use std::fmt::Write;

/// The bytes of a record.
pub const RECORD: usize = 4;

/// The most ticks that one line may ask for.
const MOST_TICKS: u64 = u32::MAX as u64;

/// The first location of the user RAM, and how many there are.
const RAM: u64 = 14;
const RAM_LENGTH: u64 = 50;

const NAMES: [&str; RAM as usize] = [
    "seconds",
    "seconds_alarm",
    "minutes",
    "minutes_alarm",
    "hours",
    "hours_alarm",
    "weekday",
    "date",
    "month",
    "year",
    "a",
    "b",
    "c",
    "d",
];

/// One line of text and the bytes that it stands for: none for a comment, several records for a long run.
#[derive(Debug)]
pub struct Line<'a> {
    pub text: &'a str,
    pub bytes: Vec<u8>,
}

/// Reads a text. What is wrong with it is told as `line N: reason`.
pub fn lines(text: &[u8]) -> Result<Vec<Line<'_>>, String> {
    let mut lines = Vec::new();
    let mut ended = false;
    // The piece behind the last end of a line is no line.
    let text = text.strip_suffix(b"\n").unwrap_or(text);
    for (number, line) in text.split(|&byte| byte == b'\n').enumerate() {
        let told = |reason: String| format!("line {}: {reason}", number + 1);
        let line = std::str::from_utf8(line).map_err(|_| told("not UTF-8".to_owned()))?.trim_end();
        let bytes = event(line).map_err(told)?;
        if ended && !bytes.is_empty() {
            return Err(told("an event after the part-record, which must be the last".to_owned()));
        }
        ended |= bytes.len() % RECORD != 0;
        lines.push(Line { text: line, bytes });
    }
    Ok(lines)
}

/// The event file of a text.
pub fn bytes(text: &[u8]) -> Result<Vec<u8>, String> {
    Ok(lines(text)?.into_iter().flat_map(|line| line.bytes).collect())
}

/// The text of an event file.
pub fn text(bytes: &[u8]) -> String {
    let mut text = String::new();
    for record in bytes.chunks(RECORD) {
        // A String takes whatever is written to it.
        let _ = match *record {
            [0, address, 0, 0] => writeln!(text, "read {}", address_text(address)),
            [1, address, value, 0] => writeln!(text, "write {} 0x{value:02x}", address_text(address)),
            [2, 0, low, high] => writeln!(text, "run {}", u16::from_le_bytes([low, high])),
            [3, 0, levels @ 0..=3, 0] => writeln!(text, "pins {} {}", level_text(levels & 1), level_text(levels & 2)),
            [kind, address, low, high] => writeln!(text, "raw {kind} 0x{address:02x} 0x{low:02x} 0x{high:02x}"),
            _ => {
                let bytes: Vec<String> = record.iter().map(|byte| format!("0x{byte:02x}")).collect();
                writeln!(text, "part {}", bytes.join(" "))
            }
        };
    }
    text
}

fn address_text(address: u8) -> String {
    match NAMES.get(usize::from(address)) {
        Some(name) => (*name).to_owned(),
        None if u64::from(address) < RAM + RAM_LENGTH => format!("ram+{}", u64::from(address) - RAM),
        None => address.to_string(),
    }
}

fn level_text(bit: u8) -> &'static str {
    if bit == 0 {
        "low"
    } else {
        "high"
    }
}

/// The bytes of one line.
fn event(line: &str) -> Result<Vec<u8>, String> {
    let words: Vec<&str> = line.split('#').next().unwrap_or_default().split_whitespace().collect();
    let Some((&event, operands)) = words.split_first() else {
        return Ok(Vec::new());
    };
    match (event, operands) {
        ("read", &[place]) => Ok(vec![0, address(place)?, 0, 0]),
        ("write", &[place, value]) => Ok(vec![1, address(place)?, byte(value)?, 0]),
        ("run", &[ticks]) => Ok(run(number(ticks, MOST_TICKS)?)),
        ("pins", &[reset, ps]) => Ok(vec![3, 0, level(reset)? | level(ps)? << 1, 0]),
        ("raw", &[_, _, _, _]) | ("part", &[_] | &[_, _] | &[_, _, _]) => {
            operands.iter().map(|word| byte(word)).collect()
        }
        ("read", _) => Err("read takes ADDRESS".to_owned()),
        ("write", _) => Err("write takes ADDRESS VALUE".to_owned()),
        ("run", _) => Err("run takes TICKS".to_owned()),
        ("pins", _) => Err("pins takes RESET PS, each high or low".to_owned()),
        ("raw", _) => Err("raw takes KIND ADDRESS LOW HIGH".to_owned()),
        ("part", _) => Err("part takes one to three bytes".to_owned()),
        _ => Err(format!("{event} is no event: read, write, run, pins, raw or part")),
    }
}

fn run(ticks: u64) -> Vec<u8> {
    let most = u64::from(u16::MAX);
    let full = [2, 0, 0xFF, 0xFF].repeat((ticks / most) as usize);
    let [low, high] = ((ticks % most) as u16).to_le_bytes();
    // A run of 0 ticks is a record too; a rest of 0 is not.
    if ticks > 0 && ticks.is_multiple_of(most) {
        full
    } else {
        [full, vec![2, 0, low, high]].concat()
    }
}

fn address(word: &str) -> Result<u8, String> {
    if let Some(place) = NAMES.iter().position(|name| name.eq_ignore_ascii_case(word)) {
        return Ok(place as u8);
    }
    if let Some(offset) = word.strip_prefix("ram+") {
        return Ok((RAM + number(offset, RAM_LENGTH - 1)?) as u8);
    }
    if word.starts_with(|first: char| first.is_ascii_digit()) {
        return byte(word);
    }
    Err(format!("{word} is no address: a number, seconds to year, a to d, or ram+N"))
}

fn level(word: &str) -> Result<u8, String> {
    match word {
        "low" => Ok(0),
        "high" => Ok(1),
        _ => Err(format!("{word} is no level: high or low")),
    }
}

fn byte(word: &str) -> Result<u8, String> {
    Ok(number(word, u64::from(u8::MAX))? as u8)
}

fn number(word: &str, most: u64) -> Result<u64, String> {
    let (digits, radix) = word.strip_prefix("0x").map_or((word, 10), |digits| (digits, 16));
    // The parser of the library takes a sign, the notation does not.
    if digits.is_empty() || !digits.chars().all(|digit| digit.is_digit(radix)) {
        return Err(format!("{word} is no number"));
    }
    match u64::from_str_radix(digits, radix) {
        Ok(number) if number <= most => Ok(number),
        _ => Err(format!("{word} is above {most}")),
    }
}

#[cfg(test)]
mod tests {
    use super::*;

    fn both_ways(line: &str, record: &[u8]) {
        assert_eq!(bytes(line.as_bytes()).unwrap(), record, "{line}");
        assert_eq!(text(record), format!("{line}\n"));
    }

    #[test]
    fn every_form_both_ways() {
        both_ways("read seconds", &[0, 0, 0, 0]);
        both_ways("read ram+0", &[0, 14, 0, 0]);
        both_ways("read ram+49", &[0, 63, 0, 0]);
        both_ways("read 64", &[0, 64, 0, 0]);
        both_ways("read 255", &[0, 255, 0, 0]);
        both_ways("write hours_alarm 0xc0", &[1, 5, 0xC0, 0]);
        both_ways("write b 0x82", &[1, 11, 0x82, 0]);
        both_ways("run 0", &[2, 0, 0, 0]);
        both_ways("run 16457", &[2, 0, 0x49, 0x40]);
        both_ways("run 65535", &[2, 0, 0xFF, 0xFF]);
        both_ways("pins low low", &[3, 0, 0, 0]);
        both_ways("pins high low", &[3, 0, 1, 0]);
        both_ways("pins low high", &[3, 0, 2, 0]);
        both_ways("pins high high", &[3, 0, 3, 0]);
        both_ways("raw 4 0x0a 0x00 0x00", &[4, 10, 0, 0]);
        both_ways("part 0x01", &[1]);
        both_ways("part 0x01 0x0e", &[1, 14]);
        both_ways("part 0x01 0x0e 0xa5", &[1, 14, 0xA5]);
        for (place, name) in NAMES.iter().enumerate() {
            both_ways(&format!("read {name}"), &[0, place as u8, 0, 0]);
        }
    }

    #[test]
    fn numbers_names_and_comments_are_free() {
        let same = ["read 10", "read 0x0A", "read a", "read A", "  read\ta # UIP \r"]
            .map(|line| bytes(line.as_bytes()).unwrap());
        assert!(same.iter().all(|record| record == &[0, 10, 0, 0]));
        assert!(bytes(b"").unwrap().is_empty());
        assert!(bytes("\n # only words, also Größe\n\n".as_bytes()).unwrap().is_empty());
        assert_eq!(bytes(b"run 1\n\nrun 2").unwrap(), [2, 0, 1, 0, 2, 0, 2, 0]);
    }

    #[test]
    fn unused_bytes_that_are_not_0_make_a_raw_line() {
        for record in [[0, 1, 1, 0], [0, 1, 0, 1], [1, 1, 0, 1], [2, 1, 0, 0], [3, 1, 0, 0], [3, 0, 4, 0], [3, 0, 0, 1]]
        {
            assert!(text(&record).starts_with("raw "), "{record:?}");
            assert_eq!(bytes(text(&record).as_bytes()).unwrap(), record);
        }
    }

    #[test]
    fn long_runs_are_split() {
        let ticks = |text: &str| -> Vec<u64> {
            let file = bytes(text.as_bytes()).unwrap();
            file.chunks(4).map(|record| u64::from(u16::from_le_bytes([record[2], record[3]]))).collect()
        };
        assert_eq!(ticks("run 65536"), [65_535, 1]);
        assert_eq!(ticks("run 131070"), [65_535, 65_535]);
        assert_eq!(ticks("run 200000"), [65_535, 65_535, 65_535, 3_395]);
        assert_eq!(ticks("run 0xffffffff").iter().sum::<u64>(), MOST_TICKS);
    }

    /// Every byte in every place, beside bytes that matter to the choice of a form.
    #[test]
    fn every_record_comes_back() {
        let mut file = Vec::new();
        for byte in 0..=255 {
            for kind in [0, 1, 2, 3, 4, 255] {
                for other in [0, 1, 3, 4, 14, 64, 255] {
                    file.extend([kind, byte, other, 0, kind, byte, 0, other, kind, other, byte, 0]);
                    file.extend([kind, 0, byte, other, kind, 0, other, byte, byte, other, 0, 0, byte, 0, 0, other]);
                }
            }
        }
        for last in 0..=3 {
            file.extend(vec![0x5A; last]);
            let told = text(&file);
            assert!(bytes(told.as_bytes()).unwrap() == file);
            assert!(text(&bytes(told.as_bytes()).unwrap()) == told);
            file.truncate(file.len() - last);
        }
    }

    #[test]
    fn bad_lines_with_their_reasons() {
        let cases: [(&[u8], &str); 21] = [
            (b"look 1", "line 1: look is no event: read, write, run, pins, raw or part"),
            (b"read", "line 1: read takes ADDRESS"),
            (b"read 1 2", "line 1: read takes ADDRESS"),
            (b"read 256", "line 1: 256 is above 255"),
            (b"read e", "line 1: e is no address: a number, seconds to year, a to d, or ram+N"),
            (b"read 1x", "line 1: 1x is no number"),
            (b"read ram+50", "line 1: 50 is above 49"),
            (b"read ram+", "line 1:  is no number"),
            (b"write a", "line 1: write takes ADDRESS VALUE"),
            (b"write a 0x100", "line 1: 0x100 is above 255"),
            (b"write a +1", "line 1: +1 is no number"),
            (b"write a 0x", "line 1: 0x is no number"),
            (b"# fine\n\nrun", "line 3: run takes TICKS"),
            (b"run 4294967296", "line 1: 4294967296 is above 4294967295"),
            (b"run 99999999999999999999", "line 1: 99999999999999999999 is above 4294967295"),
            (b"pins high", "line 1: pins takes RESET PS, each high or low"),
            (b"pins high 1", "line 1: 1 is no level: high or low"),
            (b"raw 1 2 3", "line 1: raw takes KIND ADDRESS LOW HIGH"),
            (b"part 1 2 3 4", "line 1: part takes one to three bytes"),
            (b"run 1\npart 1\n# fine\nrun 2\n", "line 4: an event after the part-record, which must be the last"),
            (b"run 1\n\xFF\n", "line 2: not UTF-8"),
        ];
        for (input, reason) in cases {
            assert_eq!(bytes(input).unwrap_err(), reason);
        }
    }
}
