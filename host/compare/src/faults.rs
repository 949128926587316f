//! Planted faults: mistakes that a program like this could have, to show that the comparison finds them.
//!
//! Each is laid over a right result, so that the second program itself stays as it is. The faults of memory, which safe
//! Rust cannot have, are laid over the archive's side.

use crate::calls::Call;
use crate::corners::{base_of, clock_of, count_of, set_count};
use crate::sides::{on_second, Guarded, Seen};
use archive::Record;
use second::calendar::{self, DataMode, HourMode, Mode};
use second::host;
use second::registers::*;

const STATUS: usize = 67;
const PENDING: u8 = 1;
const RESET_LOW: u8 = 2;
const PS_LOW: u8 = 4;
const REPEAT_USED: u8 = 8;

pub struct Fault {
    pub name: &'static str,
    change: Change,
}

enum Change {
    /// After each tick: the chip before it and after it.
    Tick(fn(&Record, &mut Record)),
    /// After each call: the chip before it and after it, and what else the call gave.
    Call(fn(&Call, &Record, &mut Record, &mut Seen)),
    /// After each call of the archive: its chip and its buffer, with their guard bytes.
    Memory(fn(&Call, &mut Guarded, &mut Guarded)),
}

impl Fault {
    /// The call on the second program with the fault in it.
    pub fn on_second(&self, call: &Call, chip: &mut Record, buffer: Vec<u8>) -> Seen {
        let before = *chip;
        match (&self.change, call) {
            (Change::Tick(change), Call::Run { ticks }) => {
                let seen = on_second(call, chip, buffer);
                if seen.word == 0 {
                    *chip = before;
                    for _ in 0..*ticks {
                        let before = *chip;
                        host::run(chip, 1);
                        change(&before, chip);
                    }
                }
                seen
            }
            (Change::Call(change), _) => {
                let mut seen = on_second(call, chip, buffer);
                change(call, &before, chip, &mut seen);
                seen
            }
            _ => on_second(call, chip, buffer),
        }
    }

    /// What a fault of memory does beside the archive's own work.
    pub fn on_archive(&self, call: &Call, chip: &mut Guarded, buffer: &mut Guarded) {
        if let Change::Memory(change) = self.change {
            change(call, chip, buffer);
        }
    }
}

fn mode_of(record: &Record) -> Mode {
    Mode::from_register_b(record[REGISTER_B])
}

/// Whether this tick ended an update.
fn updated(before: &Record, after: &Record) -> bool {
    before[STATUS] & PENDING != 0 && after[STATUS] & PENDING == 0
}

/// Sets a flag or clears it, and IRQF with it.
fn set_flag(chip: &mut Record, flag: u8, to: bool) {
    let flags = chip[REGISTER_C] & FLAGS & !flag | if to { flag } else { 0 };
    let requested = interrupt_requested(chip[REGISTER_B], flags);
    chip[REGISTER_C] = flags | if requested { IRQF } else { 0 };
}

fn selected_tap(register_a: u8) -> Option<u32> {
    match (register_a & RS, register_a >> 4 & 7) {
        (0, _) => None,
        (rate @ 1..=2, 2) => Some(12 + u32::from(rate)),
        (rate, _) => Some(5 + u32::from(rate)),
    }
}

/// Whether the clock stands at 1:59:59 AM on a Sunday of this month.
fn at_change(chip: &Record, month: u8) -> bool {
    let data = mode_of(chip).data;
    let at = [59, 59, 1, 1].map(|number| data.byte(number));
    chip[REGISTER_B] & DSE != 0 && clock_of(chip)[..4] == at && chip[MONTH] == data.byte(month)
}

fn date_of(chip: &Record) -> Option<u8> {
    mode_of(chip).data.number(chip[DATE])
}

fn set_time(chip: &mut Record, hour: u8) {
    let hours = mode_of(chip).data.byte(hour);
    (chip[SECONDS], chip[MINUTES], chip[HOURS]) = (0, 0, hours);
}

const REFUSED_1: u64 = 1 << 8;
const REFUSED_4: u64 = 4 << 8;
const REFUSED_7: u64 = 7 << 8;
const REFUSED_8: u64 = 8 << 8;

/// The clock byte or alarm byte that was refused in the closed window is read all the same.
fn read_in_window(call: &Call, before: &Record, seen: &mut Seen) {
    if let Call::Read { address } = call {
        if seen.word == REFUSED_4 | 255 {
            seen.word = before[*address as usize].into();
        }
    }
}

pub static FAULTS: [Fault; 36] = [
    Fault {
        name: "the date moves from 12 to 1",
        change: Change::Tick(|before, after| {
            let mode = mode_of(before);
            let hour = before[HOURS] & 0x7F;
            let moved = updated(before, after) && before[HOURS] != after[HOURS];
            if moved && mode.hours == HourMode::Twelve && hour == mode.data.byte(12) {
                let last = calendar::last_day(mode.data, before[MONTH], before[YEAR]);
                after[DATE] = mode.data.advance_field(before[DATE], 1, last).0;
            }
        }),
    },
    Fault {
        name: "leap year by the BCD byte",
        change: Change::Tick(|before, after| {
            let mode = mode_of(before);
            let february = before[MONTH] == 2 && before[DATE] == 0x28 && after[DATE] != 0x28;
            if updated(before, after) && mode.data == DataMode::Bcd && february {
                (after[DATE], after[MONTH]) = if before[YEAR] % 4 == 0 { (0x29, 2) } else { (1, 3) };
            }
        }),
    },
    Fault {
        name: "a read of C clears the enabled flags only",
        change: Change::Call(|call, before, chip, seen| {
            if *call == (Call::Read { address: 12 }) && seen.word < 256 {
                chip[REGISTER_C] = before[REGISTER_C] & FLAGS & !before[REGISTER_B];
            }
        }),
    },
    Fault {
        name: "the alarm against the old time",
        change: Change::Tick(|before, after| {
            if updated(before, after) && after[STATUS] & RESET_LOW == 0 {
                let matches = (0..3).all(|field| {
                    let location = 2 * field;
                    calendar::alarm_byte_matches(before[location + 1], before[location])
                });
                set_flag(after, AF, matches || before[REGISTER_C] & AF != 0);
            }
        }),
    },
    Fault {
        name: "a full second after release",
        change: Change::Call(|call, before, chip, seen| {
            let released = base_of(before[REGISTER_A]).is_none() && base_of(chip[REGISTER_A]).is_some();
            if matches!(call, Call::Write { address: 10, .. }) && seen.word == 0 && released {
                set_count(chip, 0);
            }
        }),
    },
    Fault {
        name: "PF where the tap falls",
        change: Change::Tick(|before, after| {
            let fell = selected_tap(after[REGISTER_A]).is_some_and(|tap| count_of(after).trailing_zeros() > tap);
            if base_of(after[REGISTER_A]).is_some() && after[STATUS] & RESET_LOW == 0 {
                set_flag(after, PF, fell || before[REGISTER_C] & PF != 0);
            }
        }),
    },
    Fault {
        name: "UIE stays as SET rises",
        change: Change::Call(|call, before, chip, seen| {
            if let (Call::Write { address: 11, value }, 0) = (call, seen.word) {
                if before[REGISTER_B] & SET == 0 && value & SET != 0 {
                    chip[REGISTER_B] |= value & UIE;
                    set_flag(chip, 0, false);
                }
            }
        }),
    },
    Fault {
        name: "UIE goes at every SET",
        change: Change::Call(|call, _, chip, seen| {
            if let (Call::Write { address: 11, value }, 0) = (call, seen.word) {
                if value & SET != 0 {
                    chip[REGISTER_B] &= !UIE;
                    set_flag(chip, 0, false);
                }
            }
        }),
    },
    Fault {
        name: "SET drops no update",
        change: Change::Call(|call, before, chip, seen| {
            if matches!(call, Call::Write { address: 11, .. }) && seen.word == 0 {
                chip[STATUS] |= before[STATUS] & PENDING;
                chip[REGISTER_A] |= before[REGISTER_A] & UIP;
            }
        }),
    },
    Fault {
        name: "VRT rises with PS low",
        change: Change::Call(|call, before, chip, seen| {
            if *call == (Call::Read { address: 13 }) && seen.word < 256 && before[STATUS] & PS_LOW != 0 {
                chip[REGISTER_D] = VRT;
            }
        }),
    },
    Fault {
        name: "UIP only in the closed window",
        change: Change::Call(|call, before, _, seen| {
            if *call == (Call::Read { address: 10 }) && seen.word < 256 && count_of(before) < 1_024 {
                seen.word &= !u64::from(UIP);
            }
        }),
    },
    Fault {
        name: "the window begins a count late",
        change: Change::Call(|call, before, _, seen| {
            if count_of(before) == 1_024 {
                read_in_window(call, before, seen);
            }
        }),
    },
    Fault {
        name: "the window ends a tick early",
        change: Change::Call(|call, before, _, seen| {
            if base_of(before[REGISTER_A]).is_some_and(|(step, end)| count_of(before) + step == end) {
                read_in_window(call, before, seen);
            }
        }),
    },
    Fault {
        name: "encode: no 29 February in year 00",
        change: Change::Call(|call, _, chip, seen| {
            if let (Call::Encode { mode, fill, length, seconds, weekday }, 0) = (call, seen.word) {
                if (59 * 86_400..366 * 86_400).contains(seconds) {
                    let late = seconds + 86_400;
                    let call =
                        Call::Encode { mode: *mode, fill: *fill, length: *length, seconds: late, weekday: *weekday };
                    *seen = on_second(&call, chip, call.buffer());
                }
            }
        }),
    },
    Fault {
        name: "decode: 29 February in every year",
        change: Change::Call(|call, _, chip, seen| {
            if let Call::Decode { mode, bytes } = call {
                let data = Mode::from_register_b(*mode).data;
                if bytes.len() == 7 && bytes[4] == data.byte(29) && bytes[5] == 2 && seen.word >> 40 != 0 {
                    let mut bytes = bytes.clone();
                    (bytes[4], bytes[5]) = (1, 3);
                    let call = Call::Decode { mode: *mode, bytes };
                    seen.word = on_second(&call, chip, call.buffer()).word;
                }
            }
        }),
    },
    Fault {
        name: "decode: 12 AM is hour 12",
        change: Change::Call(|call, _, _, seen| {
            if let Call::Decode { mode, bytes } = call {
                let mode = Mode::from_register_b(*mode);
                let noon = bytes.len() == 7 && bytes[2] == mode.data.byte(12) && mode.hours == HourMode::Twelve;
                if noon && seen.word >> 40 == 0 {
                    seen.word += 12 * 3_600;
                }
            }
        }),
    },
    Fault {
        name: "save writes a byte more",
        change: Change::Call(|call, _, _, seen| {
            if let (Call::Save { length, offset, .. }, 0) = (call, seen.word) {
                if offset + 72 < *length {
                    seen.buffer[offset + 72] = 0;
                }
            }
        }),
    },
    Fault {
        name: "a refused write stores",
        change: Change::Call(|call, _, chip, seen| {
            if let (Call::Write { address: address @ 1..=9, value }, REFUSED_4) = (call, seen.word) {
                chip[*address as usize] = *value;
            }
        }),
    },
    Fault {
        name: "a refused encode leaves its buffer",
        change: Change::Call(|call, _, _, seen| {
            if matches!(call, Call::Encode { .. }) && seen.word != 0 {
                seen.buffer = call.buffer();
            }
        }),
    },
    Fault {
        name: "the repeat forgets its mark",
        change: Change::Tick(|before, after| {
            let repeats = at_change(before, 10) && date_of(before).is_some_and(|date| (25..=31).contains(&date));
            if updated(before, after) && repeats {
                set_time(after, 1);
                after[STATUS] |= REPEAT_USED;
            }
        }),
    },
    Fault {
        name: "the mark outlives its day",
        change: Change::Tick(|before, after| after[STATUS] |= before[STATUS] & REPEAT_USED),
    },
    Fault {
        name: "April from the 23rd",
        change: Change::Tick(|before, after| {
            if updated(before, after) && at_change(before, 4) && date_of(before) == Some(23) {
                set_time(after, 3);
            }
        }),
    },
    Fault {
        name: "load takes a spare byte",
        change: Change::Call(|call, _, chip, seen| {
            if let (Call::Load { input }, REFUSED_8) = (call, seen.word) {
                let mut cleared = input.clone();
                cleared[68..].fill(0);
                let word = host::load(chip, &cleared);
                seen.word = word.into();
            }
        }),
    },
    Fault {
        name: "load takes a count off the step",
        change: Change::Call(|call, _, chip, seen| {
            if let (Call::Load { input }, REFUSED_8) = (call, seen.word) {
                let mut rounded: Record = input[..].try_into().expect("refusal 8 is for 72 bytes");
                let (count, step) = (count_of(&rounded), base_of(rounded[REGISTER_A]).map_or(1, |(step, _)| step));
                if count % step != 0 {
                    set_count(&mut rounded, count - count % step);
                    seen.word = host::load(chip, &rounded).into();
                }
            }
        }),
    },
    Fault {
        name: "SQWE outlives RESET",
        change: Change::Call(|call, before, chip, seen| {
            if matches!(call, Call::Pins { .. }) && seen.word == 0 {
                chip[REGISTER_B] |= before[REGISTER_B] & SQWE;
            }
        }),
    },
    Fault {
        name: "UF rises with RESET low",
        change: Change::Tick(|before, after| {
            if updated(before, after) {
                set_flag(after, UF, true);
            }
        }),
    },
    Fault {
        name: "new DV bits keep the low stages",
        change: Change::Call(|call, before, chip, seen| {
            let runs = base_of(before[REGISTER_A]).is_some() && base_of(chip[REGISTER_A]).is_some();
            if matches!(call, Call::Write { address: 10, .. }) && seen.word == 0 && runs {
                set_count(chip, count_of(before));
            }
        }),
    },
    Fault {
        name: "rates 1 and 2 unmapped at 32.768 kHz",
        change: Change::Tick(|before, after| {
            if matches!(after[REGISTER_A] & 0x7F, 0x21 | 0x22) && before[REGISTER_C] & PF == 0 {
                set_flag(after, PF, false);
            }
        }),
    },
    Fault {
        name: "offset + 72 wraps",
        change: Change::Call(|call, _, _, seen| {
            if let (Call::Save { offset, .. }, REFUSED_1) = (call, seen.word) {
                if offset.checked_add(72).is_none() {
                    seen.word = 0;
                }
            }
        }),
    },
    Fault {
        name: "65,536 ticks refused",
        change: Change::Call(|call, before, chip, seen| {
            if *call == (Call::Run { ticks: 65_536 }) && seen.word == 0 {
                *chip = *before;
                seen.word = REFUSED_7;
            }
        }),
    },
    Fault {
        name: "BCD digits above 9 count on",
        change: Change::Tick(|before, after| {
            let seconds = before[SECONDS];
            let bcd = mode_of(before).data == DataMode::Bcd;
            if updated(before, after) && bcd && seconds & 0x0F > 9 && seconds < 0x59 {
                after[SECONDS] = seconds + 1;
            }
        }),
    },
    Fault {
        name: "hours above 12 lose PM",
        change: Change::Tick(|before, after| {
            let mode = mode_of(before);
            let above = before[HOURS] & 0x7F > mode.data.byte(12);
            if updated(before, after) && mode.hours == HourMode::Twelve && above && before[HOURS] != after[HOURS] {
                after[HOURS] &= 0x7F;
            }
        }),
    },
    Fault {
        name: "IRQF waits for a tick after a write to B",
        change: Change::Call(|call, before, chip, seen| {
            if matches!(call, Call::Write { address: 11, .. }) && seen.word == 0 {
                chip[REGISTER_C] = before[REGISTER_C];
            }
        }),
    },
    Fault {
        name: "a byte behind the chip is written",
        change: Change::Memory(|call, chip, _| {
            if matches!(call, Call::Run { .. }) {
                let (whole, start) = chip.whole();
                whole[start + 72] ^= 1;
            }
        }),
    },
    Fault {
        name: "a byte before the page is written",
        change: Change::Memory(|call, _, buffer| {
            if matches!(call, Call::Save { offset: 0, .. }) {
                let (whole, start) = buffer.whole();
                whole[start - 1] ^= 1;
            }
        }),
    },
    Fault {
        name: "load changes its input",
        change: Change::Memory(|call, _, buffer| {
            if matches!(call, Call::Load { input } if input.len() == 72) {
                buffer.content_mut()[71] ^= 0x80;
            }
        }),
    },
];

#[cfg(test)]
mod tests {
    use super::*;

    #[test]
    fn names_differ() {
        for (place, fault) in FAULTS.iter().enumerate() {
            assert!(FAULTS[..place].iter().all(|other| other.name != fault.name));
        }
    }
}
