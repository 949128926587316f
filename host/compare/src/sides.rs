//! One call on both sides, and the comparison of all that it may have touched.

use crate::calls::{hex, Call, Sequence};
use crate::faults::Fault;
use archive::Record;
use second::host;
use std::hint::black_box;

/// How many guard bytes stand on each side of a buffer.
const GUARD: usize = 64;

/// A buffer between guard bytes, at a chosen distance from an aligned address.
pub struct Guarded {
    bytes: Vec<u8>,
    start: usize,
    length: usize,
}

impl Guarded {
    pub fn new(content: &[u8], shift: usize) -> Guarded {
        let mut bytes: Vec<u8> = (0..content.len() + 2 * GUARD + 16).map(Self::guard_byte).collect();
        let start = GUARD + bytes[GUARD..].as_ptr().align_offset(8) + shift % 8;
        bytes[start..start + content.len()].copy_from_slice(content);
        Guarded { bytes, start, length: content.len() }
    }

    fn guard_byte(place: usize) -> u8 {
        (place as u8).wrapping_mul(113) ^ 0x5A
    }

    pub fn content(&self) -> &[u8] {
        &self.bytes[self.start..self.start + self.length]
    }

    pub fn content_mut(&mut self) -> &mut [u8] {
        &mut self.bytes[self.start..self.start + self.length]
    }

    /// The bytes with their guards, for a planted fault; the content begins at the second value.
    pub fn whole(&mut self) -> (&mut [u8], usize) {
        (&mut self.bytes, self.start)
    }

    fn guards_hold(&self) -> bool {
        // The compiler must not know that a call was given the middle part only.
        let bytes = black_box(&self.bytes);
        let holds =
            |places: std::ops::Range<usize>| places.into_iter().all(|place| bytes[place] == Self::guard_byte(place));
        holds(0..self.start) && holds(self.start + self.length..bytes.len())
    }
}

/// A chip between guard bytes.
fn chip_of(guarded: &mut Guarded) -> &mut Record {
    guarded.content_mut().try_into().expect("a chip is 72 bytes")
}

/// What a call gives besides the chip: its word, and its buffer afterwards.
#[derive(Clone, Debug, PartialEq, Eq)]
pub struct Seen {
    pub word: u64,
    pub buffer: Vec<u8>,
}

fn on_archive(call: &Call, chip: &mut Guarded, buffer: &mut Guarded) -> u64 {
    match call {
        Call::Fresh => {
            archive::fresh(chip_of(chip));
            0
        }
        Call::Read { address } => archive::read(chip_of(chip), *address).into(),
        Call::Write { address, value } => archive::write(chip_of(chip), *address, *value).into(),
        Call::Run { ticks } => archive::run(chip_of(chip), *ticks).into(),
        Call::Pins { levels } => archive::pins(chip_of(chip), *levels).into(),
        Call::Lines => archive::lines(chip_of(chip)).into(),
        Call::Load { .. } => archive::load(chip_of(chip), buffer.content()).into(),
        Call::Save { offset, .. } => archive::save(chip_of(chip), buffer.content_mut(), *offset).into(),
        Call::Decode { mode, .. } => archive::decode(buffer.content(), *mode),
        Call::Encode { mode, seconds, weekday, .. } => {
            archive::encode(buffer.content_mut(), *seconds, *weekday, *mode).into()
        }
    }
}

/// The call on the second program.
pub fn on_second(call: &Call, chip: &mut Record, mut buffer: Vec<u8>) -> Seen {
    let word = match call {
        Call::Fresh => {
            host::fresh(chip);
            0
        }
        Call::Read { address } => host::read(chip, *address).into(),
        Call::Write { address, value } => host::write(chip, *address, *value).into(),
        Call::Run { ticks } => host::run(chip, *ticks).into(),
        Call::Pins { levels } => host::pins(chip, *levels).into(),
        Call::Lines => host::lines(chip).into(),
        Call::Load { .. } => host::load(chip, &buffer).into(),
        Call::Save { offset, .. } => host::save(chip, &mut buffer, *offset).into(),
        Call::Decode { mode, .. } => host::decode(&buffer, *mode),
        Call::Encode { mode, seconds, weekday, .. } => host::encode(&mut buffer, *seconds, *weekday, *mode).into(),
    };
    Seen { word, buffer }
}

/// The two sides in the course of a sequence.
pub struct Pair {
    fault: Option<&'static Fault>,
    shift: usize,
    archive: Guarded,
    second: Record,
}

impl Pair {
    pub fn new(shift: usize, start: &Record, fault: Option<&'static Fault>) -> Pair {
        Pair { fault, shift, archive: Guarded::new(start, shift), second: *start }
    }

    /// The chip. While no difference was found it is the same on both sides.
    pub fn chip(&self) -> &Record {
        &self.second
    }

    /// Makes the call on both sides and gives its word, or tells the difference.
    pub fn step(&mut self, call: &Call) -> Result<u64, String> {
        let before = call.buffer();
        let mut guarded = Guarded::new(&before, self.shift + 3);
        let word = on_archive(call, &mut self.archive, &mut guarded);
        let seen = match self.fault {
            None => on_second(call, &mut self.second, before),
            Some(fault) => {
                fault.on_archive(call, &mut self.archive, &mut guarded);
                fault.on_second(call, &mut self.second, before)
            }
        };
        // A buffer that is passed const is compared like any other: the second program cannot change it.
        let (chip, buffer) = (black_box(self.archive.content()), black_box(guarded.content()));
        if word == seen.word
            && chip == self.second
            && buffer == seen.buffer
            && self.archive.guards_hold()
            && guarded.guards_hold()
        {
            return Ok(word);
        }
        let mut told = format!("  {:8} word {word:#x}\n  {:8} word {:#x}\n", "archive", "second", seen.word);
        told += &differing("chip", chip, &self.second);
        told += &differing("buffer", buffer, &seen.buffer);
        if !self.archive.guards_hold() {
            told += "  the archive wrote beside the chip\n";
        }
        if !guarded.guards_hold() {
            told += "  the archive wrote beside the buffer\n";
        }
        Err(told)
    }
}

/// The bytes that differ, a line each; only the first few of many.
fn differing(name: &str, archive: &[u8], second: &[u8]) -> String {
    let mut told = String::new();
    let places: Vec<usize> = (0..archive.len()).filter(|&place| archive[place] != second[place]).collect();
    for &place in places.iter().take(16) {
        told += &format!("  {name} byte {place}: archive {:02x}, second {:02x}\n", archive[place], second[place]);
    }
    if places.len() > 16 {
        told += &format!("  {name}: {} more bytes differ\n", places.len() - 16);
    }
    if name == "chip" && !places.is_empty() {
        told += &format!("  archive chip {}\n  second  chip {}\n", hex(archive), hex(second));
    }
    told
}

/// Where a sequence shows a difference first.
pub struct Difference {
    pub call: usize,
    /// The chip before that call.
    pub chip: Record,
    pub told: String,
}

/// Makes all calls of a sequence, up to the first difference.
pub fn replay(sequence: &Sequence, fault: Option<&'static Fault>) -> Option<Difference> {
    let mut pair = Pair::new(sequence.shift, &sequence.start, fault);
    for (number, call) in sequence.calls.iter().enumerate() {
        let chip = *pair.chip();
        if let Err(told) = pair.step(call) {
            return Some(Difference { call: number, chip, told });
        }
    }
    None
}

#[cfg(test)]
mod tests {
    use super::*;

    #[test]
    fn guards_see_every_byte_beside_the_buffer() {
        for shift in 0..8 {
            for length in [0, 1, 7, 72] {
                let mut guarded = Guarded::new(&vec![1; length], shift);
                assert_eq!(guarded.content().as_ptr() as usize % 8, shift);
                guarded.content_mut().fill(2);
                assert!(guarded.guards_hold());
                let (whole, start) = guarded.whole();
                let places: Vec<usize> = (0..start).chain(start + length..whole.len()).collect();
                for place in places {
                    guarded.whole().0[place] ^= 1;
                    assert!(!guarded.guards_hold());
                    guarded.whole().0[place] ^= 1;
                }
            }
        }
    }
}
