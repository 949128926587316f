//! The clock bytes: how they move by one second, and which time they stand for.
//!
//! The specification, "Advancing by one second". Every rule here gives a result for all 256 values of every byte, because a
//! program may have written anything into the clock.

use crate::registers::{DM, HOURS_24};
use std::ops::RangeInclusive;

/// How a byte holds a number: the DM bit.
#[derive(Clone, Copy, Debug, PartialEq, Eq)]
pub enum DataMode {
    /// Two decimal digits of four bits.
    Bcd,
    /// The number itself.
    Binary,
}

/// How the hours byte counts: the 24/12 bit.
#[derive(Clone, Copy, Debug, PartialEq, Eq)]
pub enum HourMode {
    /// 1 to 12, with bit 7 for PM.
    Twelve,
    /// 0 to 23.
    TwentyFour,
}

/// Both modes together.
#[derive(Clone, Copy, Debug, PartialEq, Eq)]
pub struct Mode {
    /// The data mode.
    pub data: DataMode,
    /// The hour mode.
    pub hours: HourMode,
}

/// The bit of a 12-hour hours byte that stands for PM.
const PM: u8 = 0x80;

/// Alarm bytes from here on match every clock byte.
const DO_NOT_CARE: u8 = 0xC0;

/// The length of each month in an ordinary year.
const LAST_DAYS: [u8; 12] = [31, 28, 31, 30, 31, 30, 31, 31, 30, 31, 30, 31];

const SUNDAY: u8 = 1;
const FEBRUARY: u8 = 2;
const APRIL: u8 = 4;
const OCTOBER: u8 = 10;

const SECONDS_OF_A_DAY: u32 = 86_400;

/// The first number of seconds that is no longer inside the hundred years: 36,525 days.
pub const SECONDS_OF_THE_CENTURY: u32 = 36_525 * SECONDS_OF_A_DAY;

impl Mode {
    /// The modes that a register B byte selects; its other bits do not matter.
    pub const fn from_register_b(register_b: u8) -> Mode {
        Mode {
            data: if register_b & DM != 0 { DataMode::Binary } else { DataMode::Bcd },
            hours: if register_b & HOURS_24 != 0 { HourMode::TwentyFour } else { HourMode::Twelve },
        }
    }
}

impl DataMode {
    /// The byte that holds a number from 0 to 99.
    pub const fn byte(self, number: u8) -> u8 {
        match self {
            DataMode::Binary => number,
            DataMode::Bcd => ((number / 10) << 4) | (number % 10),
        }
    }

    /// The number that a byte holds. In BCD a byte with a digit above 9 holds none.
    pub const fn number(self, byte: u8) -> Option<u8> {
        match self {
            DataMode::Binary => Some(byte),
            DataMode::Bcd => {
                let (tens, ones) = (byte >> 4, byte & 0x0F);
                if tens <= 9 && ones <= 9 {
                    Some(tens * 10 + ones)
                } else {
                    None
                }
            }
        }
    }

    /// The number that a byte holds, if it lies in the given range.
    pub fn number_in(self, byte: u8, range: RangeInclusive<u8>) -> Option<u8> {
        self.number(byte).filter(|number| range.contains(number))
    }

    /// The ordinary next byte.
    ///
    /// A field never asks for more than its last value, so the wrap of the highest bytes is only there to be total.
    pub const fn next(self, byte: u8) -> u8 {
        match self {
            DataMode::Bcd if byte & 0x0F >= 9 => (byte & 0xF0).wrapping_add(0x10),
            _ => byte.wrapping_add(1),
        }
    }

    /// Moves a field on by one and says whether it carries. The bounds are numbers, the comparison is one of bytes.
    pub const fn advance_field(self, byte: u8, first: u8, last: u8) -> (u8, bool) {
        if byte >= self.byte(last) {
            (self.byte(first), true)
        } else {
            (self.next(byte), false)
        }
    }
}

/// Moves the hours on by one and says whether a day ends with it.
pub const fn advance_hours(mode: Mode, byte: u8) -> (u8, bool) {
    let data = mode.data;
    match mode.hours {
        HourMode::TwentyFour => data.advance_field(byte, 0, 23),
        HourMode::Twelve => {
            let half = byte & PM;
            let hour = byte & !PM;
            if hour >= data.byte(12) {
                // 12 is the first hour of its half, so nothing carries here.
                (data.byte(1) | half, false)
            } else if hour == data.byte(11) {
                (data.byte(12) | (half ^ PM), half == PM)
            } else {
                (data.next(hour) | half, false)
            }
        }
    }
}

/// Whether a year byte holds a leap year. The number is tested, never the BCD byte itself.
pub fn is_leap_year(data: DataMode, year: u8) -> bool {
    data.number_in(year, 0..=99).is_some_and(|number| number.is_multiple_of(4))
}

/// The last day of the month that the two bytes give; 31 where the byte is no month.
pub fn last_day(data: DataMode, month: u8, year: u8) -> u8 {
    match data.number_in(month, 1..=12) {
        Some(FEBRUARY) if is_leap_year(data, year) => 29,
        Some(month) => LAST_DAYS[usize::from(month) - 1],
        None => 31,
    }
}

/// The seven clock bytes, as they stand in their locations.
#[derive(Clone, Copy, Debug, PartialEq, Eq)]
pub struct Clock {
    /// Location 0.
    pub seconds: u8,
    /// Location 2.
    pub minutes: u8,
    /// Location 4.
    pub hours: u8,
    /// Location 6.
    pub weekday: u8,
    /// Location 7.
    pub date: u8,
    /// Location 8.
    pub month: u8,
    /// Location 9.
    pub year: u8,
}

impl Clock {
    /// The clock whose bytes stand here in the order of their locations.
    pub const fn from_bytes(bytes: [u8; 7]) -> Clock {
        let [seconds, minutes, hours, weekday, date, month, year] = bytes;
        Clock { seconds, minutes, hours, weekday, date, month, year }
    }

    /// The seven bytes in the order of their locations.
    pub const fn to_bytes(self) -> [u8; 7] {
        [self.seconds, self.minutes, self.hours, self.weekday, self.date, self.month, self.year]
    }
}

/// The two special updates of DSE.
#[derive(Clone, Copy, Debug, PartialEq, Eq)]
enum DaylightChange {
    /// April: the hour after 1:59:59 AM is left out.
    Skip,
    /// October: the hour before 2:00:00 AM is lived through twice.
    Repeat,
}

/// The daylight change that this clock's second would end with, were DSE on and no repeat used.
fn daylight_change(mode: Mode, clock: Clock) -> Option<DaylightChange> {
    let data = mode.data;
    // 1 AM is the byte 1 in both hour modes: bit 7 of the 12-hour byte is 0.
    let last_second = clock.hours == data.byte(1) && clock.minutes == data.byte(59) && clock.seconds == data.byte(59);
    if !last_second || clock.weekday != data.byte(SUNDAY) {
        return None;
    }
    // The last seven days of the month hold its last Sunday.
    if clock.month == data.byte(APRIL) && data.number_in(clock.date, 24..=30).is_some() {
        Some(DaylightChange::Skip)
    } else if clock.month == data.byte(OCTOBER) && data.number_in(clock.date, 25..=31).is_some() {
        Some(DaylightChange::Repeat)
    } else {
        None
    }
}

/// Moves the clock on by one second. Takes and returns the mark beside it: whether this Sunday's repeat has been used.
pub fn advance(mode: Mode, daylight_enabled: bool, clock: Clock, repeat_used: bool) -> (Clock, bool) {
    if daylight_enabled {
        let at_hour = |hour| Clock { seconds: 0, minutes: 0, hours: mode.data.byte(hour), ..clock };
        match daylight_change(mode, clock) {
            Some(DaylightChange::Skip) => return (at_hour(3), repeat_used),
            Some(DaylightChange::Repeat) if !repeat_used => return (at_hour(1), true),
            _ => {}
        }
    }
    let (clock, date_moved) = advance_ordinary(mode, clock);
    (clock, repeat_used && !date_moved)
}

/// Moves the clock on by one second without the daylight rule, and says whether the date moved.
fn advance_ordinary(mode: Mode, mut clock: Clock) -> (Clock, bool) {
    let data = mode.data;
    let mut carry;
    (clock.seconds, carry) = data.advance_field(clock.seconds, 0, 59);
    if carry {
        (clock.minutes, carry) = data.advance_field(clock.minutes, 0, 59);
    }
    if carry {
        (clock.hours, carry) = advance_hours(mode, clock.hours);
    }
    let date_moved = carry;
    if carry {
        // The weekday moves beside the date; its own wrap goes nowhere.
        (clock.weekday, _) = data.advance_field(clock.weekday, 1, 7);
        let last = last_day(data, clock.month, clock.year);
        (clock.date, carry) = data.advance_field(clock.date, 1, last);
    }
    if carry {
        (clock.month, carry) = data.advance_field(clock.month, 1, 12);
    }
    if carry {
        (clock.year, _) = data.advance_field(clock.year, 0, 99);
    }
    (clock, date_moved)
}

/// Whether one alarm byte lets its clock byte pass.
pub const fn alarm_byte_matches(alarm: u8, clock: u8) -> bool {
    alarm >= DO_NOT_CARE || alarm == clock
}

/// A moment of the hundred years, with the weekday the clock shows for it.
#[derive(Clone, Copy, Debug, PartialEq, Eq)]
pub struct Time {
    /// 1 to 7; nothing ties it to the date.
    pub weekday: u8,
    /// Seconds since the start of year 00.
    pub seconds: u32,
}

/// The hour from 0 to 23 that an hours byte stands for.
fn decode_hours(mode: Mode, byte: u8) -> Option<u8> {
    match mode.hours {
        HourMode::TwentyFour => mode.data.number_in(byte, 0..=23),
        HourMode::Twelve => {
            let hour = mode.data.number_in(byte & !PM, 1..=12)?;
            let afternoon = if byte & PM != 0 { 12 } else { 0 };
            Some(hour % 12 + afternoon)
        }
    }
}

/// The hours byte for an hour from 0 to 23.
fn encode_hours(mode: Mode, hour: u8) -> u8 {
    match mode.hours {
        HourMode::TwentyFour => mode.data.byte(hour),
        HourMode::Twelve => {
            let half = if hour >= 12 { PM } else { 0 };
            let shown = match hour % 12 {
                0 => 12,
                other => other,
            };
            mode.data.byte(shown) | half
        }
    }
}

/// The length of a year from 0 to 99.
const fn days_of_year(year: u8) -> u32 {
    if year.is_multiple_of(4) {
        366
    } else {
        365
    }
}

/// The length of a month from 1 to 12 in a year from 0 to 99.
fn days_of_month(month: u8, year: u8) -> u32 {
    u32::from(last_day(DataMode::Binary, month, year))
}

/// The time that the clock stands for, or `None` where it is not a valid time.
pub fn decode(mode: Mode, clock: Clock) -> Option<Time> {
    let data = mode.data;
    let second = data.number_in(clock.seconds, 0..=59)?;
    let minute = data.number_in(clock.minutes, 0..=59)?;
    let hour = decode_hours(mode, clock.hours)?;
    let weekday = data.number_in(clock.weekday, 1..=7)?;
    let month = data.number_in(clock.month, 1..=12)?;
    let year = data.number_in(clock.year, 0..=99)?;
    let date = data.number_in(clock.date, 1..=last_day(data, clock.month, clock.year))?;

    let days_of_years: u32 = (0..year).map(days_of_year).sum();
    let days_of_months: u32 = (1..month).map(|month| days_of_month(month, year)).sum();
    let days = days_of_years + days_of_months + u32::from(date - 1);
    let seconds = u32::from(hour) * 3_600 + u32::from(minute) * 60 + u32::from(second);
    Some(Time { weekday, seconds: days * SECONDS_OF_A_DAY + seconds })
}

/// Whether the clock holds a valid time.
pub fn is_valid(mode: Mode, clock: Clock) -> bool {
    decode(mode, clock).is_some()
}

/// The clock that stands for a time, or `None` where the weekday or the seconds are out of range.
pub fn encode(mode: Mode, time: Time) -> Option<Clock> {
    if !(1..=7).contains(&time.weekday) || time.seconds >= SECONDS_OF_THE_CENTURY {
        return None;
    }
    let mut days = time.seconds / SECONDS_OF_A_DAY;
    let seconds = time.seconds % SECONDS_OF_A_DAY;
    let mut year = 0;
    while days >= days_of_year(year) {
        days -= days_of_year(year);
        year += 1;
    }
    let mut month = 1;
    while days >= days_of_month(month, year) {
        days -= days_of_month(month, year);
        month += 1;
    }
    // What is left of each count is below 60, 24 or 31, so the narrowing loses nothing.
    let data = mode.data;
    Some(Clock {
        seconds: data.byte((seconds % 60) as u8),
        minutes: data.byte((seconds / 60 % 60) as u8),
        hours: encode_hours(mode, (seconds / 3_600) as u8),
        weekday: data.byte(time.weekday),
        date: data.byte(days as u8 + 1),
        month: data.byte(month),
        year: data.byte(year),
    })
}

#[cfg(test)]
mod tests {
    use super::*;

    const BCD_12: Mode = Mode { data: DataMode::Bcd, hours: HourMode::Twelve };
    const BCD_24: Mode = Mode { data: DataMode::Bcd, hours: HourMode::TwentyFour };
    const BINARY_12: Mode = Mode { data: DataMode::Binary, hours: HourMode::Twelve };
    const BINARY_24: Mode = Mode { data: DataMode::Binary, hours: HourMode::TwentyFour };
    const MODES: [Mode; 4] = [BCD_12, BCD_24, BINARY_12, BINARY_24];

    /// Advances without DSE and without a mark.
    fn plain(mode: Mode, bytes: [u8; 7]) -> [u8; 7] {
        let (clock, repeat_used) = advance(mode, false, Clock::from_bytes(bytes), false);
        assert!(!repeat_used);
        clock.to_bytes()
    }

    /// Advances with DSE, giving the three time bytes and the mark.
    fn daylight(mode: Mode, bytes: [u8; 7], repeat_used: bool) -> ([u8; 3], bool) {
        let (clock, repeat_used) = advance(mode, true, Clock::from_bytes(bytes), repeat_used);
        ([clock.seconds, clock.minutes, clock.hours], repeat_used)
    }

    #[test]
    fn register_b_selects_the_modes() {
        for register_b in 0..=255u8 {
            let expected = match register_b >> 1 & 3 {
                0b00 => BCD_12,
                0b01 => BCD_24,
                0b10 => BINARY_12,
                _ => BINARY_24,
            };
            assert_eq!(Mode::from_register_b(register_b), expected);
        }
    }

    // The plate-room examples.

    #[test]
    fn example_bcd_24_hour_end_of_the_century() {
        let before = [0x59, 0x59, 0x23, 0x06, 0x31, 0x12, 0x99];
        assert_eq!(plain(BCD_24, before), [0x00, 0x00, 0x00, 0x07, 0x01, 0x01, 0x00]);
    }

    #[test]
    fn example_bcd_12_hour() {
        let cases = [(0x91, 0x12, true), (0x11, 0x92, false), (0x12, 0x01, false), (0x92, 0x81, false)];
        for (before, after, moves) in cases {
            let date = if moves { 0x16 } else { 0x15 };
            let weekday = if moves { 0x04 } else { 0x03 };
            assert_eq!(
                plain(BCD_12, [0x59, 0x59, before, 0x03, 0x15, 0x06, 0x42]),
                [0x00, 0x00, after, weekday, date, 0x06, 0x42]
            );
        }
    }

    #[test]
    fn example_binary_end_of_february() {
        let february = |year| plain(BINARY_24, [59, 59, 23, 2, 28, 2, year]);
        assert_eq!(february(0), [0, 0, 0, 3, 0x1D, 0x02, 0]);
        assert_eq!(february(1), [0, 0, 0, 3, 0x01, 0x03, 1]);
    }

    #[test]
    fn example_seconds() {
        let with_seconds = |mode, seconds| {
            let after = plain(mode, [seconds, 0, 1, 1, 1, 1, 1]);
            (after[0], after[1])
        };
        assert_eq!(with_seconds(BCD_24, 0x09), (0x10, 0));
        assert_eq!(with_seconds(BINARY_24, 0x09), (0x0A, 0));
        assert_eq!(with_seconds(BINARY_24, 0x3C), (0x00, 1));
    }

    #[test]
    fn example_daylight_in_april() {
        let april = |date| daylight(BCD_24, [0x59, 0x59, 0x01, 0x01, date, 0x04, 0x87], false);
        assert_eq!(april(0x26), ([0x00, 0x00, 0x03], false));
        assert_eq!(april(0x23), ([0x00, 0x00, 0x02], false));
    }

    #[test]
    fn example_alarm_bytes() {
        for clock in 0..=255 {
            assert!(alarm_byte_matches(0xC0, clock));
            assert_eq!(alarm_byte_matches(0xBF, clock), clock == 0xBF);
        }
    }

    #[test]
    fn example_decode() {
        let time = Time { weekday: 5, seconds: 2_496_981_501 };
        let bcd = Clock::from_bytes([0x21, 0x58, 0x05, 0x05, 0x15, 0x02, 0x79]);
        let binary = Clock::from_bytes([0x15, 0x3A, 0x05, 0x05, 0x0F, 0x02, 0x4F]);
        for mode in [BCD_12, BCD_24] {
            assert_eq!(decode(mode, bcd), Some(time));
            assert_eq!(encode(mode, time), Some(bcd));
        }
        for mode in [BINARY_12, BINARY_24] {
            assert_eq!(decode(mode, binary), Some(time));
            assert_eq!(encode(mode, time), Some(binary));
        }
    }

    // Single bytes, over all 256 values.

    #[test]
    fn bytes_and_numbers_are_inverse() {
        for data in [DataMode::Bcd, DataMode::Binary] {
            for number in 0..=99 {
                assert_eq!(data.number(data.byte(number)), Some(number));
            }
        }
        // Each decimal two-digit text, read as hex, is the BCD byte.
        for number in 0..=99u8 {
            let byte = u8::from_str_radix(&number.to_string(), 16).unwrap();
            assert_eq!(DataMode::Bcd.byte(number), byte);
        }
        let valid = (0..=255u8).filter(|&byte| DataMode::Bcd.number(byte).is_some()).count();
        assert_eq!(valid, 100);
        assert_eq!(DataMode::Bcd.number(0x0A), None);
        assert_eq!(DataMode::Bcd.number(0xA0), None);
    }

    #[test]
    fn ordinary_next_of_every_byte() {
        for byte in 0..=255u8 {
            assert_eq!(u16::from(DataMode::Binary.next(byte)), (u16::from(byte) + 1) % 256);
            let (tens, ones) = (u16::from(byte / 16), u16::from(byte % 16));
            let expected = if ones >= 9 { (tens + 1) * 16 } else { tens * 16 + ones + 1 };
            assert_eq!(u16::from(DataMode::Bcd.next(byte)), expected % 256);
        }
    }

    #[test]
    fn valid_fields_run_through_all_their_values() {
        let fields = [(0, 59), (0, 23), (1, 7), (1, 28), (1, 29), (1, 30), (1, 31), (1, 12), (0, 99)];
        for data in [DataMode::Bcd, DataMode::Binary] {
            for (first, last) in fields {
                for number in first..last {
                    assert_eq!(data.advance_field(data.byte(number), first, last), (data.byte(number + 1), false));
                }
                assert_eq!(data.advance_field(data.byte(last), first, last), (data.byte(first), true));
                for byte in data.byte(last)..=255 {
                    assert_eq!(data.advance_field(byte, first, last), (data.byte(first), true));
                }
            }
        }
    }

    #[test]
    fn odd_bcd_bytes_below_the_last_value_go_to_the_next_tens() {
        let data = DataMode::Bcd;
        assert_eq!(data.advance_field(0x4F, 0, 59), (0x50, false));
        assert_eq!(data.advance_field(0x5A, 0, 59), (0x00, true));
        assert_eq!(data.advance_field(0x1A, 0, 23), (0x20, false));
        assert_eq!(data.advance_field(0x83, 0, 23), (0x00, true));
        assert_eq!(data.advance_field(0x0C, 1, 12), (0x10, false));
        assert_eq!(data.advance_field(0x00, 1, 12), (0x01, false));
        assert_eq!(data.advance_field(0x8F, 0, 99), (0x90, false));
        assert_eq!(data.advance_field(0x9A, 0, 99), (0x00, true));
        assert_eq!(data.advance_field(0x00, 1, 7), (0x01, false));
        assert_eq!(data.advance_field(0x09, 1, 7), (0x01, true));
    }

    #[test]
    fn twelve_hour_rule_of_every_byte() {
        for (mode, eleven, twelve) in [(BCD_12, 0x11, 0x12), (BINARY_12, 0x0B, 0x0C)] {
            for byte in 0..=255u8 {
                let afternoon = byte >= 128;
                let hour = byte % 128;
                let (new_hour, new_afternoon, carry) = if hour >= twelve {
                    (1, afternoon, false)
                } else if hour == eleven {
                    (twelve, !afternoon, afternoon)
                } else {
                    (mode.data.next(hour), afternoon, false)
                };
                let expected = (new_hour + if new_afternoon { 128 } else { 0 }, carry);
                assert_eq!(advance_hours(mode, byte), expected, "{mode:?} {byte:02X}");
            }
        }
    }

    #[test]
    fn twelve_hour_day_in_order() {
        for mode in [BCD_12, BINARY_12] {
            let mut byte = mode.data.byte(12);
            for hour in 0..24 {
                assert_eq!(decode_hours(mode, byte), Some(hour));
                assert_eq!(encode_hours(mode, hour), byte);
                let (next, carry) = advance_hours(mode, byte);
                assert_eq!(carry, hour == 23);
                byte = next;
            }
            assert_eq!(byte, mode.data.byte(12));
        }
    }

    #[test]
    fn leap_years_are_valid_and_divisible_by_four() {
        for year in 0..=255u8 {
            assert_eq!(is_leap_year(DataMode::Binary, year), year <= 99 && year % 4 == 0);
            let (tens, ones) = (year / 16, year % 16);
            let expected = tens <= 9 && ones <= 9 && (tens * 10 + ones) % 4 == 0;
            assert_eq!(is_leap_year(DataMode::Bcd, year), expected);
        }
        // Hex 10 is divisible by 4, ten is not; twelve is, hex 12 is not.
        assert!(!is_leap_year(DataMode::Bcd, 0x10));
        assert!(is_leap_year(DataMode::Bcd, 0x12));
        assert!(!is_leap_year(DataMode::Bcd, 0x0C));
        assert!(!is_leap_year(DataMode::Binary, 100));
    }

    #[test]
    fn last_day_of_every_month_byte() {
        let lengths = [31, 28, 31, 30, 31, 30, 31, 31, 30, 31, 30, 31];
        for data in [DataMode::Bcd, DataMode::Binary] {
            for month in 0..=255u8 {
                let number = (1..=12u8).find(|&number| data.byte(number) == month);
                let expected = number.map_or(31, |number| lengths[usize::from(number) - 1]);
                assert_eq!(last_day(data, month, data.byte(1)), expected);
                let leap = if month == 2 { 29 } else { expected };
                assert_eq!(last_day(data, month, data.byte(96)), leap);
            }
        }
        // An invalid year gives February its 28 days.
        assert_eq!(last_day(DataMode::Bcd, 2, 0x9C), 28);
        assert_eq!(last_day(DataMode::Binary, 2, 100), 28);
    }

    // Whole clocks.

    #[test]
    fn the_end_of_the_day_moves_weekday_and_date_together() {
        // The weekday's wrap carries nothing, and the date moves whatever the weekday is.
        assert_eq!(plain(BCD_24, [0x59, 0x59, 0x23, 0x07, 0x15, 0x06, 0x42]), [0, 0, 0, 1, 0x16, 0x06, 0x42]);
        assert_eq!(plain(BCD_24, [0x59, 0x59, 0x23, 0xFF, 0x15, 0x06, 0x42]), [0, 0, 0, 1, 0x16, 0x06, 0x42]);
        assert_eq!(plain(BCD_24, [0x59, 0x59, 0x23, 0x00, 0x15, 0x06, 0x42]), [0, 0, 0, 1, 0x16, 0x06, 0x42]);
    }

    #[test]
    fn odd_months_and_dates_at_the_end_of_the_day() {
        let after = |mode, date, month, year| {
            let bytes = plain(mode, [0xFF, 0xFF, 0x7F, 1, date, month, year]);
            (bytes[4], bytes[5], bytes[6])
        };
        // No month: 31 days.
        assert_eq!(after(BCD_24, 0x30, 0x00, 0x01), (0x31, 0x00, 0x01));
        assert_eq!(after(BCD_24, 0x31, 0x00, 0x01), (0x01, 0x01, 0x01));
        assert_eq!(after(BCD_24, 0x31, 0x0B, 0x01), (0x01, 0x10, 0x01));
        assert_eq!(after(BINARY_24, 30, 13, 1), (31, 13, 1));
        assert_eq!(after(BINARY_24, 31, 13, 1), (1, 1, 2));
        // A date past the last day goes to 1 like the last day.
        assert_eq!(after(BCD_24, 0x31, 0x04, 0x01), (0x01, 0x05, 0x01));
        assert_eq!(after(BCD_24, 0xFF, 0x12, 0x9A), (0x01, 0x01, 0x00));
        // A date of 0 goes to 1 without a carry.
        assert_eq!(after(BINARY_24, 0, 2, 1), (1, 2, 1));
        // An odd BCD date below the last day goes to the next tens.
        assert_eq!(after(BCD_24, 0x1F, 0x02, 0x00), (0x20, 0x02, 0x00));
        assert_eq!(after(BCD_24, 0x29, 0x02, 0x00), (0x01, 0x03, 0x00));
        assert_eq!(after(BCD_24, 0x28, 0x02, 0xA0), (0x01, 0x03, 0xA0));
    }

    #[test]
    fn every_alarm_byte_against_every_clock_byte() {
        for alarm in 0..=255u8 {
            for clock in 0..=255u8 {
                assert_eq!(alarm_byte_matches(alarm, clock), alarm & 0xC0 == 0xC0 || alarm == clock);
            }
        }
    }

    // Daylight saving.

    #[test]
    fn daylight_days_of_every_month_and_date_byte() {
        for mode in MODES {
            let data = mode.data;
            for month in 0..=255u8 {
                for date in 0..=255u8 {
                    let bytes = [data.byte(59), data.byte(59), 1, 1, date, month, data.byte(50)];
                    let date_between = |first, last| (first..=last).any(|number: u8| data.byte(number) == date);
                    let april = month == 4 && date_between(24, 30);
                    let october = month == data.byte(10) && date_between(25, 31);
                    let hour = if april {
                        3
                    } else if october {
                        1
                    } else {
                        2
                    };
                    assert_eq!(daylight(mode, bytes, false), ([0, 0, hour], october));
                    // With the mark set, October's hour goes on as any other; the date stays, so the mark does.
                    let hour = if april { 3 } else { 2 };
                    assert_eq!(daylight(mode, bytes, true), ([0, 0, hour], true));
                    // Without DSE nothing is special.
                    let (clock, mark) = advance(mode, false, Clock::from_bytes(bytes), false);
                    assert_eq!((clock.hours, mark), (2, false));
                }
            }
        }
    }

    #[test]
    fn daylight_wants_exactly_its_second_and_sunday() {
        for mode in MODES {
            let data = mode.data;
            let sunday = [data.byte(59), data.byte(59), 1, 1, data.byte(26), 4, data.byte(50)];
            assert_eq!(daylight(mode, sunday, false), ([0, 0, 3], false));
            for position in 0..4 {
                for byte in 0..=255u8 {
                    let mut bytes = sunday;
                    bytes[position] = byte;
                    if bytes == sunday {
                        continue;
                    }
                    let with = advance(mode, true, Clock::from_bytes(bytes), false);
                    let without = advance(mode, false, Clock::from_bytes(bytes), false);
                    assert_eq!(with, without);
                }
            }
            // The year does not count, valid or not.
            for year in 0..=255 {
                let mut bytes = sunday;
                bytes[6] = year;
                assert_eq!(daylight(mode, bytes, false), ([0, 0, 3], false));
            }
        }
    }

    #[test]
    fn october_repeats_one_hour_once_and_the_next_day_clears_the_mark() {
        for mode in MODES {
            let data = mode.data;
            let midnight = encode_hours(mode, 0);
            let start = Clock::from_bytes([0, 0, midnight, 1, data.byte(25), data.byte(10), data.byte(81)]);
            let (mut clock, mut mark) = (start, false);
            let mut at_one = 0;
            let mut marked_seconds = 0;
            let mut seconds = 0;
            while clock.date == start.date {
                if (clock.hours, clock.minutes, clock.seconds) == (1, 0, 0) {
                    at_one += 1;
                }
                (clock, mark) = advance(mode, true, clock, mark);
                seconds += 1;
                marked_seconds += u32::from(mark);
            }
            assert_eq!(at_one, 2);
            assert_eq!(seconds, 25 * 3_600);
            // Marked from the repeat on: 23 hours are left, and the last update clears the mark.
            assert_eq!(marked_seconds, 23 * 3_600);
            assert!(!mark);
            assert_eq!(clock.weekday, 2);
        }
    }

    #[test]
    fn april_leaves_out_one_hour() {
        for mode in MODES {
            let data = mode.data;
            let midnight = encode_hours(mode, 0);
            let start = Clock::from_bytes([0, 0, midnight, 1, data.byte(26), 4, data.byte(87)]);
            let mut clock = start;
            let mut seconds = 0;
            while clock.date == start.date {
                assert_ne!(clock.hours, 2);
                (clock, _) = advance(mode, true, clock, false);
                seconds += 1;
            }
            assert_eq!(seconds, 23 * 3_600);
        }
    }

    #[test]
    fn any_move_of_the_date_clears_the_mark_and_nothing_else_does() {
        for mode in MODES {
            let data = mode.data;
            for dse in [false, true] {
                for month in [0, 1, 4, data.byte(10), 0xFF] {
                    for weekday in [0, 1, 2, 7, 0xFF] {
                        let last_hour = encode_hours(mode, 23);
                        let end = [data.byte(59), data.byte(59), last_hour, weekday, data.byte(25), month, 0];
                        assert!(!advance(mode, dse, Clock::from_bytes(end), true).1);
                        assert!(!advance(mode, dse, Clock::from_bytes(end), false).1);
                        let noon =
                            [data.byte(59), data.byte(59), encode_hours(mode, 11), weekday, data.byte(25), month, 0];
                        assert!(advance(mode, dse, Clock::from_bytes(noon), true).1);
                        assert!(!advance(mode, dse, Clock::from_bytes(noon), false).1);
                    }
                }
            }
        }
    }

    // Decode and encode.

    /// Calls back with each day of the hundred years: its number, date, month and year.
    fn each_day(mut visit: impl FnMut(u32, u8, u8, u8)) {
        let mut day = 0;
        for year in 0..=99u8 {
            for month in 1..=12u8 {
                let length = match month {
                    4 | 6 | 9 | 11 => 30,
                    2 if year % 4 == 0 => 29,
                    2 => 28,
                    _ => 31,
                };
                for date in 1..=length {
                    visit(day, date, month, year);
                    day += 1;
                }
            }
        }
        assert_eq!(day, 36_525);
    }

    #[test]
    fn every_day_of_the_hundred_years_in_every_mode() {
        for mode in MODES {
            let byte = |number| mode.data.byte(number);
            each_day(|day, date, month, year| {
                // The first and the last second of the day, and one inside that differs from day to day.
                let inside = (day * 7_919) % 86_400;
                for second in [0, inside, 86_399] {
                    let time = Time { weekday: (day % 7) as u8 + 1, seconds: day * 86_400 + second };
                    let hour = (second / 3_600) as u8;
                    let hours = match (mode.hours, hour) {
                        (HourMode::TwentyFour, _) => byte(hour),
                        (HourMode::Twelve, 0) => byte(12),
                        (HourMode::Twelve, 1..=11) => byte(hour),
                        (HourMode::Twelve, 12) => byte(12) + 128,
                        (HourMode::Twelve, _) => byte(hour - 12) + 128,
                    };
                    let clock = Clock {
                        seconds: byte((second % 60) as u8),
                        minutes: byte((second / 60 % 60) as u8),
                        hours,
                        weekday: byte(time.weekday),
                        date: byte(date),
                        month: byte(month),
                        year: byte(year),
                    };
                    assert_eq!(decode(mode, clock), Some(time));
                    assert_eq!(encode(mode, time), Some(clock));
                    assert!(is_valid(mode, clock));
                }
            });
        }
    }

    #[test]
    fn advancing_a_valid_clock_adds_one_second() {
        for mode in MODES {
            let check = |seconds: u32| {
                let weekday = (seconds / 86_400 % 7) as u8 + 1;
                let clock = encode(mode, Time { weekday, seconds }).unwrap();
                let (next, mark) = advance(mode, false, clock, true);
                let seconds = (seconds + 1) % SECONDS_OF_THE_CENTURY;
                let date_moves = seconds.is_multiple_of(86_400);
                let weekday = if date_moves { weekday % 7 + 1 } else { weekday };
                assert_eq!(decode(mode, next), Some(Time { weekday, seconds }));
                assert_eq!(mark, !date_moves);
            };
            for day in 0..36_525 {
                check(day * 86_400 + 86_399);
            }
            for second in 0..86_400 {
                check(12_345 * 86_400 + second);
            }
        }
    }

    #[test]
    fn each_byte_is_held_to_its_range() {
        for mode in MODES {
            let data = mode.data;
            // January of a leap year takes every date from 1 to 31.
            let base = [0, 0, data.byte(1), 1, 1, 1, 0];
            let ranges = [(0, 59), (0, 59), (0, 23), (1, 7), (1, 31), (1, 12), (0, 99)];
            for (position, (first, last)) in ranges.into_iter().enumerate() {
                for byte in 0..=255u8 {
                    let mut bytes = base;
                    bytes[position] = byte;
                    let expected = if position == 2 && mode.hours == HourMode::Twelve {
                        (1..=12).any(|hour| data.byte(hour) == byte || data.byte(hour) + 128 == byte)
                    } else {
                        (first..=last).any(|number| data.byte(number) == byte)
                    };
                    assert_eq!(is_valid(mode, Clock::from_bytes(bytes)), expected, "{mode:?} {bytes:02X?}");
                }
            }
        }
    }

    #[test]
    fn dates_are_held_to_their_month() {
        for mode in MODES {
            let data = mode.data;
            for year in 0..=99 {
                for month in 1..=12 {
                    let length = match month {
                        4 | 6 | 9 | 11 => 30,
                        2 if year % 4 == 0 => 29,
                        2 => 28,
                        _ => 31,
                    };
                    for date in 0..=32 {
                        let bytes = [0, 0, data.byte(1), 7, data.byte(date), data.byte(month), data.byte(year)];
                        let expected = (1..=length).contains(&date);
                        assert_eq!(is_valid(mode, Clock::from_bytes(bytes)), expected);
                    }
                }
            }
        }
    }

    #[test]
    fn encode_refuses_times_out_of_range() {
        for mode in MODES {
            for weekday in 0..=255 {
                for seconds in [0, SECONDS_OF_THE_CENTURY - 1, SECONDS_OF_THE_CENTURY, u32::MAX] {
                    let expected = (1..=7).contains(&weekday) && seconds <= 3_155_759_999;
                    assert_eq!(encode(mode, Time { weekday, seconds }).is_some(), expected);
                }
            }
        }
        assert_eq!(SECONDS_OF_THE_CENTURY, 3_155_760_000);
    }
}
