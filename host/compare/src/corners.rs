//! Inputs that lie where rules meet: chips, times, counts and arguments next to every edge.

use crate::calls::{Call, Sequence};
use crate::numbers::Numbers;
use archive::Record;
use second::calendar::{self, Clock, DataMode, HourMode, Mode};
use second::registers::*;

const COUNT: usize = 64;
const STATUS: usize = 67;
const COUNT_LIMIT: u32 = 4_194_304;
const HELD_COUNT: u32 = 2_097_152;
const WINDOW_START: u32 = 1_024;
const MOST_TICKS: u32 = 65_536;
const LAST_SECOND: u64 = 3_155_759_999;
const DAY: u64 = 86_400;

/// The clock's locations in their order.
pub const CLOCK: [usize; 7] = [SECONDS, MINUTES, HOURS, WEEKDAY, DATE, MONTH, YEAR];
/// The clock fields of a sweep: each of four modes, each of seven fields, each of 256 bytes.
const SWEEP: u64 = 4 * 7 * 256;

/// The divider count of a record.
pub fn count_of(record: &Record) -> u32 {
    u32::from_le_bytes([record[COUNT], record[COUNT + 1], record[COUNT + 2], 0])
}

pub fn set_count(record: &mut Record, count: u32) {
    record[COUNT..STATUS].copy_from_slice(&count.to_le_bytes()[..3]);
}

/// What a tick adds, and where an update ends; nothing where the divider does not run.
pub fn base_of(register_a: u8) -> Option<(u32, u32)> {
    match register_a >> 4 & 7 {
        0 => Some((1, 2_064)),
        1 => Some((4, 2_064)),
        2 => Some((128, 9_344)),
        _ => None,
    }
}

/// The seven clock bytes of a record.
pub fn clock_of(record: &Record) -> [u8; 7] {
    CLOCK.map(|location| record[location])
}

/// The byte that holds a number in a data mode.
fn byte(mode: Mode, number: u64) -> u8 {
    mode.data.byte(number as u8)
}

/// The hours byte for an hour from 0 to 23.
fn hours_byte(mode: Mode, hour: u64) -> u8 {
    match (mode.hours, hour % 12) {
        (HourMode::TwentyFour, _) => byte(mode, hour),
        (HourMode::Twelve, shown) => byte(mode, if shown == 0 { 12 } else { shown }) | if hour < 12 { 0 } else { 0x80 },
    }
}

/// A source of inputs for one sequence.
pub struct Corners {
    numbers: Numbers,
    number: u64,
}

/// What the calls of a sequence begin with, and how many calls follow it.
pub struct Opening {
    pub sequence: Sequence,
    pub more: u64,
}

impl Corners {
    pub fn new(seed: u64, number: u64) -> Corners {
        Corners { numbers: Numbers::new(seed, number), number }
    }

    /// The chip to start with, the first calls, and the length of the rest.
    pub fn opening(&mut self) -> Opening {
        let shift = self.numbers.below(8) as usize;
        match self.number % 48 {
            // One in three: a byte of a field, in turn, so that none is left to chance.
            turn if turn % 3 == 0 => self.sweep(shift),
            // One in twenty-four: a bit of the record, in turn.
            1 | 25 => self.one_bit(shift),
            _ => {
                let start = self.start();
                let more = match self.numbers.below(100) {
                    0..=39 => self.numbers.between(1, 8),
                    40..=84 => self.numbers.between(8, 60),
                    _ => self.numbers.between(60, 500),
                };
                Opening { sequence: Sequence { shift, start, calls: Vec::new() }, more }
            }
        }
    }

    /// A chip whose update is about to carry into the field whose turn it is, and the same byte decoded.
    fn sweep(&mut self, shift: usize) -> Opening {
        // The stride is coprime to the number of turns: all are taken, and neighbours lie far apart.
        let turn = self.number / 3 * 2_999 % SWEEP;
        let mode = Mode::from_register_b((turn % 4) as u8 * 2);
        let (field, value) = ((turn / 4 % 7) as usize, (turn / 28) as u8);
        let mut clock = self.valid_clock(mode);
        let last = [byte(mode, 59), byte(mode, 59), hours_byte(mode, 23)];
        clock[..field.min(3)].copy_from_slice(&last[..field.min(3)]);
        // The weekday moves with the date, so the date's carry starts at the hours too.
        if field > 4 {
            clock[4] = byte(mode, 31);
        }
        if field > 5 {
            clock[5] = byte(mode, 12);
        }
        clock[field] = value;
        let mut start = self.record_with(mode, clock);
        self.bring_to_update_end(&mut start);
        // The record stands at most three ticks before the end.
        let ticks = self.numbers.pick(&[3, 3, 4, 70]);
        let bytes = self.with_byte(mode, field, value);
        let calls = vec![
            Call::Run { ticks },
            Call::Decode { mode: self.mode_byte(mode), bytes },
            Call::Load { input: self.before_a_rule(mode, field, value).to_vec() },
            Call::Run { ticks },
        ];
        Opening { sequence: Sequence { shift, start, calls }, more: self.numbers.below(4) }
    }

    /// A chip about to meet the rule that a field takes part in beside its carry: February's end for the year, the
    /// daylight changes for the others.
    fn before_a_rule(&mut self, mode: Mode, field: usize, value: u8) -> Record {
        let mut clock = if field == 6 {
            let date = self.numbers.pick(&[28, 28, 29]);
            [byte(mode, 59), byte(mode, 59), hours_byte(mode, 23), 1, byte(mode, date), 2, 0]
        } else {
            let (month, date) = self.numbers.pick(&[(4, 24), (4, 30), (10, 25), (10, 31)]);
            [byte(mode, 59), byte(mode, 59), 1, 1, byte(mode, date), byte(mode, month), 0x79]
        };
        clock[field] = value;
        let mut record = self.record_with(mode, clock);
        record[REGISTER_B] |= DSE;
        self.bring_to_update_end(&mut record);
        record
    }

    /// A valid time, but for one byte.
    fn with_byte(&mut self, mode: Mode, field: usize, value: u8) -> Vec<u8> {
        let mut bytes = self.valid_clock(mode);
        bytes[field] = value;
        bytes.to_vec()
    }

    /// A chip that is one bit away from one that loads.
    fn one_bit(&mut self, shift: usize) -> Opening {
        let place = self.number / 24 % (72 * 8);
        let mut start = self.record();
        let valid = start;
        start[(place / 8) as usize] ^= 1 << (place % 8);
        let mut calls = vec![Call::Lines];
        for _ in 0..self.numbers.below(4) {
            calls.push(self.call(&start));
        }
        calls.push(Call::Load { input: valid.to_vec() });
        calls.push(Call::Load { input: start.to_vec() });
        Opening { sequence: Sequence { shift, start, calls }, more: self.numbers.below(3) }
    }

    fn start(&mut self) -> Record {
        match self.numbers.below(100) {
            0..=19 => {
                let mut chip = [0; 72];
                archive::fresh(&mut chip);
                chip
            }
            20..=91 => self.record(),
            92..=97 => self.nearly_valid(),
            _ => std::array::from_fn(|_| self.numbers.byte()),
        }
    }

    /// A record that breaks a rule, most times only just.
    fn nearly_valid(&mut self) -> Record {
        let mut record = self.record();
        match self.numbers.below(6) {
            0 => {
                set_count(&mut record, self.numbers.pick(&[0, 1, 4, 127, 128, HELD_COUNT, HELD_COUNT + 1, COUNT_LIMIT]))
            }
            1 => {
                // Pending, at the first count that it may not have, or with a SET or a divider that forbid it.
                let end = base_of(record[REGISTER_A]).map_or(2_064, |(_, end)| end);
                set_count(&mut record, self.numbers.pick(&[end, end - 128, end - 1, 0, HELD_COUNT]));
                record[STATUS] |= 1;
                record[REGISTER_A] |= UIP;
                record[REGISTER_B] &= if self.numbers.chance(50) { !SET } else { 0xFF };
            }
            2 => record[REGISTER_B] = self.numbers.byte(),
            3 => record[REGISTER_C] = self.numbers.byte(),
            4 => record[REGISTER_A] = self.numbers.byte(),
            _ => {
                let place = self.numbers.below(72 * 8);
                record[(place / 8) as usize] ^= 1 << (place % 8);
            }
        }
        record
    }

    /// A record that keeps the rules.
    fn record(&mut self) -> Record {
        let mode = Mode::from_register_b(self.numbers.byte());
        let clock = self.clock(mode);
        let mut record = self.record_with(mode, clock);
        if self.numbers.chance(45) {
            self.bring_to_update_end(&mut record);
        }
        record
    }

    /// A record that keeps the rules, around a clock (bit 7 of its seconds is dropped).
    fn record_with(&mut self, mode: Mode, clock: [u8; 7]) -> Record {
        let mut record = [0; 72];
        if self.numbers.chance(50) {
            record[14..64].iter_mut().for_each(|byte| *byte = self.numbers.byte());
        }
        for (location, byte) in CLOCK.into_iter().zip(clock) {
            record[location] = byte;
        }
        record[SECONDS] &= 0x7F;
        record[REGISTER_A] = self.register_a();
        record[REGISTER_B] = self.numbers.byte() & 0x78 | self.mode_byte(mode) & (DM | HOURS_24);
        record[REGISTER_B] |= if self.numbers.chance(15) { SET } else { 0 };
        record[REGISTER_B] |= if self.numbers.chance(75) { DSE } else { 0 };
        self.set_alarm(&mut record, mode);
        let count = self.count(record[REGISTER_A]);
        set_count(&mut record, count);
        for (percent, bit) in [(12, 2), (15, 4), (40, 8)] {
            record[STATUS] |= if self.numbers.chance(percent) { bit } else { 0 };
        }
        record[REGISTER_C] = if self.numbers.chance(60) { 0 } else { self.numbers.byte() & FLAGS };
        record[REGISTER_D] = self.numbers.byte() & VRT;
        let pending = self.numbers.chance(85);
        keep_rules(&mut record, pending);
        record
    }

    /// Moves a chip to one of the last ticks of a pending update.
    fn bring_to_update_end(&mut self, record: &mut Record) {
        if base_of(record[REGISTER_A]).is_none() {
            record[REGISTER_A] = self.numbers.pick(&[0x00, 0x10, 0x20]) | record[REGISTER_A] & RS;
        }
        let (step, end) = base_of(record[REGISTER_A]).unwrap_or((1, 2_064));
        record[REGISTER_B] &= !SET;
        set_count(record, end - step * self.numbers.pick(&[1, 1, 1, 2, 3]));
        keep_rules(record, true);
    }

    /// A register A byte whose divider bits are no test pattern.
    fn register_a(&mut self) -> u8 {
        let divider = self.numbers.pick(&[0x00, 0x00, 0x10, 0x10, 0x20, 0x20, 0x20, 0x60, 0x70]);
        divider | self.numbers.byte() & RS
    }

    /// A register B byte with these modes.
    fn mode_byte(&mut self, mode: Mode) -> u8 {
        let data = if mode.data == DataMode::Binary { DM } else { 0 };
        let hours = if mode.hours == HourMode::TwentyFour { HOURS_24 } else { 0 };
        self.numbers.byte() & !(DM | HOURS_24) | data | hours
    }

    /// A count where something happens on this base: an edge of a tap, of the window or of the second.
    fn corner_count(&mut self, register_a: u8) -> u32 {
        let end = base_of(register_a).map_or(2_064, |(_, end)| end);
        let rate = u32::from(register_a & RS);
        let tap = match self.numbers.below(4) {
            0 => 6 + self.numbers.below(15) as u32,
            1 if (1..=2).contains(&rate) => 12 + rate,
            _ => 5 + rate,
        };
        let edge = (self.numbers.below(u64::from(COUNT_LIMIT)) as u32 >> tap) << tap;
        self.numbers.pick(&[0, 0, WINDOW_START, WINDOW_START, end, end, edge, edge, edge, HELD_COUNT])
    }

    /// A count that a record on this base may have.
    fn count(&mut self, register_a: u8) -> u32 {
        let Some((step, _)) = base_of(register_a) else { return HELD_COUNT };
        let count = if self.numbers.chance(85) {
            let ticks = self.numbers.between(0, 6) as u32;
            self.corner_count(register_a).wrapping_add(ticks * step).wrapping_sub(3 * step)
        } else {
            self.numbers.word() as u32
        };
        count % COUNT_LIMIT / step * step
    }

    /// Alarm bytes for the second that comes, the one that is, any second, or none.
    fn set_alarm(&mut self, record: &mut Record, mode: Mode) {
        let clock = Clock::from_bytes(clock_of(record));
        let daylight = record[REGISTER_B] & DSE != 0;
        let coming = calendar::advance(mode, daylight, clock, record[STATUS] & 8 != 0).0.to_bytes();
        for (field, location) in [SECONDS_ALARM, MINUTES_ALARM, HOURS_ALARM].into_iter().enumerate() {
            record[location] = match self.numbers.below(100) {
                0..=39 => coming[field],
                40..=54 => record[CLOCK[field]],
                55..=64 => 0xC0,
                65..=79 => self.numbers.between(0xC0, 0xFF) as u8,
                80..=84 => 0xBF,
                _ => self.numbers.byte(),
            };
        }
    }

    /// Seven clock bytes.
    fn clock(&mut self, mode: Mode) -> [u8; 7] {
        match self.numbers.below(100) {
            0..=39 => self.carrying_clock(mode),
            40..=64 => self.daylight_clock(mode),
            65..=81 => {
                let mut clock =
                    if self.numbers.chance(70) { self.carrying_clock(mode) } else { self.daylight_clock(mode) };
                for _ in 0..self.numbers.between(1, 3) {
                    let field = self.numbers.below(7) as usize;
                    clock[field] = self.invalid_byte(mode, clock[field]);
                }
                clock
            }
            82..=86 => std::array::from_fn(|_| self.numbers.byte()),
            // Bytes that were written in another mode.
            87..=91 => {
                let other = Mode::from_register_b(self.numbers.byte());
                self.carrying_clock(other)
            }
            _ => self.valid_clock(mode),
        }
    }

    /// A byte that has no business where it stands.
    fn invalid_byte(&mut self, mode: Mode, byte: u8) -> u8 {
        match self.numbers.below(4) {
            0 => byte.wrapping_add(1),
            1 => mode.data.next(byte),
            2 => byte ^ 1 << self.numbers.below(8),
            _ => self.numbers.byte(),
        }
    }

    fn valid_clock(&mut self, mode: Mode) -> [u8; 7] {
        let (month, year) = self.month_and_year();
        let last = calendar::last_day(DataMode::Binary, month as u8, year as u8).into();
        [
            byte(mode, self.numbers.below(60)),
            byte(mode, self.numbers.below(60)),
            hours_byte(mode, self.numbers.below(24)),
            byte(mode, self.numbers.between(1, 7)),
            byte(mode, self.numbers.between(1, last)),
            byte(mode, month),
            byte(mode, year),
        ]
    }

    /// A valid time with one field at an end of its range, or one past it.
    fn edge_clock(&mut self, mode: Mode) -> [u8; 7] {
        let mut clock = self.valid_clock(mode);
        let field = self.numbers.below(7) as usize;
        let number = match field {
            0 | 1 => self.numbers.pick(&[0, 59, 60]),
            2 => self.numbers.pick(&[0, 1, 12, 13, 23, 24]),
            3 => self.numbers.pick(&[0, 1, 7, 8]),
            4 => self.numbers.pick(&[0, 1, 28, 29, 30, 31, 32]),
            5 => self.numbers.pick(&[0, 1, 12, 13]),
            _ => self.numbers.pick(&[0, 99]),
        };
        clock[field] = byte(mode, number);
        match field {
            2 => clock[2] |= self.numbers.byte() & 0x80,
            // 100 has no BCD byte: the next byte stands for it.
            6 if self.numbers.chance(30) => clock[6] = mode.data.next(byte(mode, 99)),
            _ => {}
        }
        clock
    }

    fn month_and_year(&mut self) -> (u64, u64) {
        let month = if self.numbers.chance(35) { 2 } else { self.numbers.between(1, 12) };
        let year = if self.numbers.chance(30) { self.numbers.pick(&[0, 1, 3, 4, 99]) } else { self.numbers.below(100) };
        (month, year)
    }

    /// A valid time, or one just past a month's end, of which a second's carry runs through some fields.
    fn carrying_clock(&mut self, mode: Mode) -> [u8; 7] {
        let mut clock = self.valid_clock(mode);
        let depth = self.numbers.between(1, 6);
        clock[0] = byte(mode, 59);
        if depth > 1 {
            clock[1] = byte(mode, 59);
        }
        if depth > 2 {
            // The ends of the day and of its halves.
            let hour = self.numbers.pick(&[23, 23, 23, 23, 11, 12, 0, 10, 22]);
            clock[2] = hours_byte(mode, hour);
        }
        if depth > 3 {
            let (month, year) = self.month_and_year();
            let last = u64::from(calendar::last_day(DataMode::Binary, month as u8, year as u8));
            let date = self.numbers.pick(&[last, last, last, last - 1, last + 1, 28, 29, 30]);
            (clock[4], clock[5], clock[6]) = (byte(mode, date), byte(mode, month), byte(mode, year));
        }
        if depth > 4 {
            (clock[4], clock[5]) = (byte(mode, 31), byte(mode, 12));
        }
        if depth > 5 {
            clock[6] = byte(mode, 99);
        }
        // One second short of it, now and then.
        if self.numbers.chance(15) {
            clock[0] = byte(mode, 58);
        }
        clock
    }

    /// The last second before 2 AM on a Sunday around the change, or nearly.
    fn daylight_clock(&mut self, mode: Mode) -> [u8; 7] {
        let month = self.numbers.pick(&[4, 10]);
        let mut clock = [
            byte(mode, 59),
            byte(mode, 59),
            byte(mode, 1),
            byte(mode, 1),
            byte(mode, self.numbers.pick(&[22, 23, 23, 24, 24, 25, 25, 26, 28, 30, 31, 31, 32])),
            byte(mode, month),
            byte(mode, self.numbers.below(100)),
        ];
        if self.numbers.chance(30) {
            match self.numbers.below(7) {
                0 => clock[0] = byte(mode, self.numbers.pick(&[58, 57])),
                1 => clock[1] = byte(mode, 58),
                2 => clock[2] = self.numbers.pick(&[0x81, 0x12, 0x0C, 0x00, 0x02, 0x82]),
                3 => clock[3] = self.numbers.pick(&[2, 7, 0, 0x11, 0x81]),
                // Dates of the other data mode, and bytes between two BCD numbers.
                4 => clock[4] = self.numbers.between(0x16, 0x34) as u8,
                5 => clock[5] = self.numbers.pick(&[0x03, 0x05, 0x09, 0x0A, 0x10, 0x11, 0x14]),
                _ => clock[6] = self.numbers.byte(),
            }
        }
        clock
    }

    /// The next call, with an eye on the chip as it stands.
    pub fn call(&mut self, chip: &Record) -> Call {
        match self.numbers.below(100) {
            0 => Call::Fresh,
            1..=21 => Call::Read { address: self.address() },
            22..=45 => self.write(chip),
            46..=69 => Call::Run { ticks: self.ticks(chip) },
            70..=75 => Call::Pins { levels: self.levels() },
            76..=80 => Call::Lines,
            81..=86 => Call::Load { input: self.input(chip) },
            87..=91 => self.save(),
            92..=95 => self.decode(),
            _ => self.encode(),
        }
    }

    fn address(&mut self) -> u32 {
        match self.numbers.below(100) {
            0..=29 => self.numbers.below(10) as u32,
            30..=69 => self.numbers.between(10, 13) as u32,
            70..=86 => self.numbers.between(14, 63) as u32,
            87..=93 => self.numbers.between(63, 70) as u32,
            // Addresses that would be in range if some upper bits were dropped.
            94..=97 => self.numbers.below(64) as u32 | 1 << self.numbers.between(6, 31),
            98 => self.numbers.word() as u32,
            _ => u32::MAX,
        }
    }

    fn write(&mut self, chip: &Record) -> Call {
        let address = self.address();
        let mode = Mode::from_register_b(chip[REGISTER_B]);
        let stored = chip[(address % 64) as usize];
        let value = match address {
            10 => match self.numbers.below(10) {
                0..=4 => self.register_a() | self.numbers.byte() & UIP,
                // The same divider bits, at another rate.
                5..=6 => stored & DV | self.numbers.byte() & !DV,
                _ => self.numbers.byte(),
            },
            11 => match self.numbers.below(10) {
                0..=5 => stored ^ 1 << self.numbers.below(8),
                6 => stored | SET | UIE,
                7 => stored & !SET,
                _ => self.numbers.byte(),
            },
            0..=9 if self.numbers.chance(70) => {
                let mut record = *chip;
                for (location, byte) in CLOCK.into_iter().zip(self.clock(mode)) {
                    record[location] = byte;
                }
                self.set_alarm(&mut record, mode);
                record[address as usize]
            }
            _ => self.numbers.byte(),
        };
        Call::Write { address, value }
    }

    fn ticks(&mut self, chip: &Record) -> u32 {
        match self.numbers.below(100) {
            0..=21 => self.numbers.pick(&[0, 1, 1, 1, 2, 3]),
            22..=84 => self.ticks_to_corner(chip),
            85..=88 => self.numbers.below(3_000) as u32,
            89..=90 => self.numbers.below(65_537) as u32,
            91..=92 => self.numbers.pick(&[MOST_TICKS, MOST_TICKS, MOST_TICKS - 1]),
            93..=96 => MOST_TICKS + 1,
            97..=98 => self.numbers.pick(&[u32::MAX, u32::MAX, 1 << 31, 1 << 17, (1 << 17) + 1, 1 << 16 | 1 << 24]),
            _ => self.numbers.word() as u32,
        }
    }

    /// So many ticks that the chip comes to a corner, or one short of it, or one past it.
    fn ticks_to_corner(&mut self, chip: &Record) -> u32 {
        let Some((step, _)) = base_of(chip[REGISTER_A]) else { return self.numbers.below(200) as u32 };
        let way = |to: u32| to.wrapping_sub(count_of(chip)) % COUNT_LIMIT / step;
        // The nearest of a few: otherwise most ways would be too long for one call.
        let mut ticks = u32::MAX;
        for _ in 0..self.numbers.between(1, 3) {
            ticks = ticks.min(way(self.corner_count(chip[REGISTER_A])));
        }
        let ticks = (ticks + self.numbers.below(3) as u32).saturating_sub(1);
        if ticks <= 2_500 || ticks <= MOST_TICKS && self.numbers.chance(30) {
            ticks
        } else {
            self.numbers.below(300) as u32
        }
    }

    fn levels(&mut self) -> u32 {
        let levels = self.numbers.pick(&[3, 3, 3, 3, 1, 2, 0]);
        if self.numbers.chance(20) {
            levels | (self.numbers.word() as u32) << 2
        } else {
            levels
        }
    }

    fn input(&mut self, chip: &Record) -> Vec<u8> {
        let mut input = match self.numbers.below(100) {
            0..=59 => self.record(),
            60..=64 => *chip,
            65..=94 => self.nearly_valid(),
            _ => std::array::from_fn(|_| self.numbers.byte()),
        }
        .to_vec();
        if self.numbers.chance(20) {
            let length = match self.numbers.below(20) {
                0..=9 => self.numbers.pick(&[71, 73]),
                10..=11 => 0,
                12..=17 => self.numbers.below(300) as usize,
                18 => self.numbers.pick(&[144, 72 + 256, 4_096]),
                _ => 72 + (1 << 16),
            };
            input.resize(length, 0);
        }
        input
    }

    fn save(&mut self) -> Call {
        let length = match self.numbers.below(20) {
            0..=3 => self.numbers.pick(&[0, 1, 70, 71]),
            4..=8 => self.numbers.pick(&[72, 73, 74, 143, 144, 145]),
            9..=18 => self.numbers.below(400) as usize,
            _ => 4_096,
        };
        // The last offset that fits; where none does, the difference is as far from the top.
        let fits = length.wrapping_sub(72);
        let near = self.numbers.below(3) as usize;
        let offset = match self.numbers.below(20) {
            0..=7 => fits.wrapping_add(near).wrapping_sub(1),
            8..=9 => near,
            10..=13 => self.numbers.below(length as u64 + 3) as usize,
            14..=15 => (usize::MAX - 72).wrapping_add(near),
            16 => (usize::MAX - 72).wrapping_add(length).wrapping_add(near),
            17 => usize::MAX - near,
            // Offsets that would fit if some upper bits were dropped.
            18 => near | 1 << self.numbers.between(8, 63),
            _ => self.numbers.word() as usize,
        };
        Call::Save { fill: self.numbers.byte(), length, offset }
    }

    fn decode(&mut self) -> Call {
        let mode = Mode::from_register_b(self.numbers.byte());
        let mut bytes = match self.numbers.below(10) {
            0..=3 => self.valid_clock(mode),
            4..=6 => self.edge_clock(mode),
            _ => self.clock(mode),
        }
        .to_vec();
        if self.numbers.chance(10) {
            let length = self.numbers.pick(&[0, 1, 6, 8, 14, 72, 263]);
            bytes.resize(length, 1);
        }
        Call::Decode { mode: self.mode_byte(mode), bytes }
    }

    fn encode(&mut self) -> Call {
        let near = self.numbers.below(3);
        let seconds = match self.numbers.below(100) {
            0..=29 => self.numbers.below(LAST_SECOND + 1),
            30..=44 => (self.numbers.below(36_526) * DAY + near).saturating_sub(1),
            45..=59 => (self.numbers.below(36_526 * 24) * 3_600 + near).saturating_sub(1),
            // The days around the end of February, year by year.
            60..=79 => {
                let year = self.numbers.below(100);
                let days = year * 365 + year.div_ceil(4) + self.numbers.between(58, 61);
                (days * DAY + near).saturating_sub(1)
            }
            80..=83 => near,
            84..=89 => LAST_SECOND - 1 + near,
            90..=92 => u64::from(u32::MAX) - 1 + near,
            93..=95 => self.numbers.below(LAST_SECOND + 1) | 1 << self.numbers.between(32, 63),
            96..=97 => u64::MAX - near,
            _ => self.numbers.word(),
        };
        let weekday = match self.numbers.below(100) {
            0..=84 => self.numbers.between(1, 7) as u32,
            85..=93 => self.numbers.pick(&[0, 8, 9, u32::MAX]),
            94..=97 => self.numbers.between(1, 7) as u32 | 1 << self.numbers.between(3, 31),
            _ => self.numbers.word() as u32,
        };
        let length = if self.numbers.chance(90) { 7 } else { self.numbers.pick(&[0, 1, 6, 8, 14, 72, 263]) };
        Call::Encode { mode: self.numbers.byte(), fill: self.numbers.byte(), length, seconds, weekday }
    }
}

/// Brings the registers that depend on others into line, and makes an update pending where that may be.
fn keep_rules(record: &mut Record, pending: bool) {
    let end = base_of(record[REGISTER_A]).map_or(0, |(_, end)| end);
    let pending = pending && record[REGISTER_B] & SET == 0 && count_of(record) < end;
    record[STATUS] = record[STATUS] & !1 | u8::from(pending);
    record[REGISTER_A] = record[REGISTER_A] & !UIP | if pending { UIP } else { 0 };
    if record[STATUS] & 2 != 0 {
        record[REGISTER_B] &= !CLEARED_BY_RESET;
        record[REGISTER_C] = 0;
    }
    if record[STATUS] & 4 != 0 {
        record[REGISTER_D] = 0;
    }
    let requested = interrupt_requested(record[REGISTER_B], record[REGISTER_C]);
    record[REGISTER_C] = record[REGISTER_C] & FLAGS | if requested { IRQF } else { 0 };
}

#[cfg(test)]
mod tests {
    use super::*;

    #[test]
    fn built_records_load() {
        for number in 0..20_000 {
            let record = Corners::new(7, number).record();
            let mut chip = [0; 72];
            assert_eq!(archive::load(&mut chip, &record), 0, "{record:?}");
        }
    }

    #[test]
    fn every_length_and_offset_stays_affordable() {
        for number in 0..20_000 {
            let mut corners = Corners::new(9, number);
            let opening = corners.opening();
            assert!(opening.more <= 500);
            let call = corners.call(&opening.sequence.start);
            assert!(call.buffer().len() <= 72 + (1 << 16));
        }
    }
}
