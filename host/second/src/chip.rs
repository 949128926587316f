//! The chip: its locations, divider, flags and pins (the specification, "Locations" and "Divider and ticks").

use crate::calendar::{self, Clock, Mode};
use crate::registers::*;
use crate::Refusal;

/// The divider has 22 stages.
pub const COUNT_LIMIT: u32 = 1 << 22;

/// The count while the divider is held: half a second before the 1 Hz edge.
pub const HELD_COUNT: u32 = COUNT_LIMIT / 2;

/// The count at which a pending update takes the clock and alarm bytes off the bus: 244 microseconds.
pub const WINDOW_START: u32 = 1_024;

/// The most ticks that one call of run takes.
pub const MOST_TICKS: u32 = 65_536;

/// A time base that the divider can run on.
#[derive(Clone, Copy, Debug, PartialEq, Eq)]
pub enum TimeBase {
    /// 4.194304 MHz.
    Megahertz4,
    /// 1.048576 MHz.
    Megahertz1,
    /// 32.768 kHz.
    Kilohertz32,
}

impl TimeBase {
    /// What a tick adds to the count: a slower base bypasses the first 2 or 7 stages.
    pub const fn step(self) -> u32 {
        match self {
            TimeBase::Megahertz4 => 1,
            TimeBase::Megahertz1 => 4,
            TimeBase::Kilohertz32 => 128,
        }
    }

    /// The count at which a pending update ends, called E in the specification.
    pub const fn update_end(self) -> u32 {
        match self {
            TimeBase::Megahertz4 | TimeBase::Megahertz1 => 2_064,
            TimeBase::Kilohertz32 => 9_344,
        }
    }
}

/// What the DV bits make of the divider.
#[derive(Clone, Copy, Debug, PartialEq, Eq)]
pub enum Divider {
    /// 000, 001 and 010.
    Running(TimeBase),
    /// 110 and 111.
    Held,
    /// 011, 100 and 101: for factory tests, never inside a chip.
    Test,
}

impl Divider {
    /// The divider that a register A byte selects.
    pub const fn from_register_a(register_a: u8) -> Divider {
        match (register_a & DV) >> 4 {
            0b000 => Divider::Running(TimeBase::Megahertz4),
            0b001 => Divider::Running(TimeBase::Megahertz1),
            0b010 => Divider::Running(TimeBase::Kilohertz32),
            0b110 | 0b111 => Divider::Held,
            _ => Divider::Test,
        }
    }
}

/// The bit of the count that the RS bits select, if any.
const fn selected_tap(register_a: u8) -> Option<u32> {
    let rate = match (register_a & RS, Divider::from_register_a(register_a)) {
        (0, _) => return None,
        // The stages that rates 1 and 2 name are bypassed on this base.
        (1, Divider::Running(TimeBase::Kilohertz32)) => 8,
        (2, Divider::Running(TimeBase::Kilohertz32)) => 9,
        (rate, _) => rate,
    };
    Some(5 + rate as u32)
}

/// The two output lines.
#[derive(Clone, Copy, Debug, PartialEq, Eq)]
pub struct Lines {
    /// The interrupt request is asserted.
    pub irq: bool,
    /// The square wave is high.
    pub sqw: bool,
}

/// The state of a chip.
///
/// UIP and IRQF are not stored but derived, so that they cannot disagree with what they report: bit 7 of `locations` at
/// A and C is always 0. Every other record rule is kept by the calls below.
#[derive(Clone, Debug, PartialEq, Eq)]
pub struct Chip {
    pub(crate) locations: [u8; LOCATIONS],
    pub(crate) count: u32,
    pub(crate) update_pending: bool,
    pub(crate) reset_low: bool,
    pub(crate) ps_low: bool,
    pub(crate) repeat_used: bool,
}

impl Default for Chip {
    fn default() -> Chip {
        Chip::fresh()
    }
}

impl Chip {
    /// A fresh chip: divider held, SET on, both pins high.
    pub const fn fresh() -> Chip {
        let mut locations = [0; LOCATIONS];
        locations[REGISTER_A] = 0x60;
        locations[REGISTER_B] = SET;
        Chip {
            locations,
            count: HELD_COUNT,
            update_pending: false,
            reset_low: false,
            ps_low: false,
            repeat_used: false,
        }
    }

    /// Reads an address.
    pub fn read(&mut self, address: u32) -> Result<u8, Refusal> {
        let address = self.accessible(address)?;
        let byte = self.byte_at(address);
        match address {
            // All flags go, enabled or not; IRQF follows from them.
            REGISTER_C => self.locations[REGISTER_C] = 0,
            REGISTER_D if !self.ps_low => self.locations[REGISTER_D] = VRT,
            _ => {}
        }
        Ok(byte)
    }

    /// Writes an address.
    pub fn write(&mut self, address: u32, value: u8) -> Result<(), Refusal> {
        match self.accessible(address)? {
            SECONDS => self.locations[SECONDS] = value & !SECONDS_READ_ONLY,
            REGISTER_A => self.write_register_a(value)?,
            REGISTER_B => self.write_register_b(value),
            REGISTER_C | REGISTER_D => return Err(Refusal::ReadOnly),
            address => self.locations[address] = value,
        }
        Ok(())
    }

    /// Sets both pins. A low pin acts by its level, so the clearing is done at every call (the specification, "Locations").
    pub fn pins(&mut self, reset_high: bool, ps_high: bool) {
        self.reset_low = !reset_high;
        self.ps_low = !ps_high;
        if self.reset_low {
            self.locations[REGISTER_B] &= !CLEARED_BY_RESET;
            self.locations[REGISTER_C] = 0;
        }
        if self.ps_low {
            self.locations[REGISTER_D] = 0;
        }
    }

    /// Lets a number of ticks pass, one by one.
    pub fn run(&mut self, ticks: u32) -> Result<(), Refusal> {
        if ticks > MOST_TICKS {
            return Err(Refusal::TooManyTicks);
        }
        for _ in 0..ticks {
            self.tick();
        }
        Ok(())
    }

    /// Lets one period of the time base pass: count, PF, pending, update (the specification, "Divider and ticks").
    #[inline]
    pub fn tick(&mut self) {
        let register_a = self.locations[REGISTER_A];
        let Divider::Running(base) = Divider::from_register_a(register_a) else {
            return;
        };
        self.count = (self.count + base.step()) % COUNT_LIMIT;
        // A tap has just risen where all stages below it have fallen to 0. Count 0 has 32 of them: no tap.
        if selected_tap(register_a) == Some(self.count.trailing_zeros()) {
            self.raise(PF);
        }
        if self.count == 0 && self.locations[REGISTER_B] & SET == 0 {
            self.update_pending = true;
        }
        if self.update_pending && self.count == base.update_end() {
            self.end_update();
        }
    }

    /// The output lines as they stand.
    pub fn lines(&self) -> Lines {
        Lines { irq: self.irq(), sqw: self.sqw() }
    }

    /// The byte of a location as a program would see it, without the effects of a read.
    pub(crate) fn byte_at(&self, address: usize) -> u8 {
        let stored = self.locations[address];
        match address {
            REGISTER_A if self.update_pending => stored | UIP,
            REGISTER_C if self.irq() => stored | IRQF,
            _ => stored,
        }
    }

    /// The refusals that reads and writes share, in the order of the specification, "Calls and their refusals": 2, 3, then 4.
    /// Refusals 5 and 6 concern other addresses than 4, so that a write can look for them afterwards.
    fn accessible(&self, address: u32) -> Result<usize, Refusal> {
        let address = usize::try_from(address).unwrap_or(usize::MAX);
        if address >= LOCATIONS {
            Err(Refusal::Address)
        } else if self.reset_low {
            Err(Refusal::ResetLow)
        } else if address <= YEAR && self.in_closed_window() {
            Err(Refusal::ClosedWindow)
        } else {
            Ok(address)
        }
    }

    /// Whether the update logic has the clock and alarm bytes to itself.
    fn in_closed_window(&self) -> bool {
        // A pending update always has a count below the end of its base, so only the start needs a comparison.
        self.update_pending && self.count >= WINDOW_START
    }

    /// A change of the DV bits restarts the chain's front stages and gives up an update that counted on the old base
    /// (the specification, "Divider and ticks"); a change of the RS bits alone does neither.
    fn write_register_a(&mut self, value: u8) -> Result<(), Refusal> {
        let divider = Divider::from_register_a(value);
        if divider == Divider::Test {
            return Err(Refusal::TestPattern);
        }
        if (value ^ self.locations[REGISTER_A]) & DV != 0 {
            self.update_pending = false;
            self.count = match divider {
                Divider::Running(base) => self.count - self.count % base.step(),
                _ => HELD_COUNT,
            };
        }
        self.locations[REGISTER_A] = value & !UIP;
        Ok(())
    }

    /// Only SET's way from 0 to 1 has an effect of its own; while it stays 1, UIE can be written (the specification,
    /// "Locations").
    fn write_register_b(&mut self, value: u8) {
        let set_rises = value & SET != 0 && self.locations[REGISTER_B] & SET == 0;
        self.locations[REGISTER_B] = if set_rises { value & !UIE } else { value };
        if set_rises {
            self.update_pending = false;
        }
    }

    /// Sets a flag, unless RESET holds it down.
    fn raise(&mut self, flag: u8) {
        if !self.reset_low {
            self.locations[REGISTER_C] |= flag;
        }
    }

    /// The last moment of an update: the clock moves, then the alarm is compared with what it has become.
    #[cold]
    fn end_update(&mut self) {
        let register_b = self.locations[REGISTER_B];
        let mode = Mode::from_register_b(register_b);
        let (clock, repeat_used) = calendar::advance(mode, register_b & DSE != 0, self.clock(), self.repeat_used);
        self.set_clock(clock);
        self.repeat_used = repeat_used;
        self.update_pending = false;
        self.raise(UF);
        if self.alarm_matches() {
            self.raise(AF);
        }
    }

    fn clock(&self) -> Clock {
        let at = |address: usize| self.locations[address];
        Clock {
            seconds: at(SECONDS),
            minutes: at(MINUTES),
            hours: at(HOURS),
            weekday: at(WEEKDAY),
            date: at(DATE),
            month: at(MONTH),
            year: at(YEAR),
        }
    }

    fn set_clock(&mut self, clock: Clock) {
        self.locations[SECONDS] = clock.seconds;
        self.locations[MINUTES] = clock.minutes;
        self.locations[HOURS] = clock.hours;
        self.locations[WEEKDAY] = clock.weekday;
        self.locations[DATE] = clock.date;
        self.locations[MONTH] = clock.month;
        self.locations[YEAR] = clock.year;
    }

    fn alarm_matches(&self) -> bool {
        [(SECONDS_ALARM, SECONDS), (MINUTES_ALARM, MINUTES), (HOURS_ALARM, HOURS)]
            .iter()
            .all(|&(alarm, clock)| calendar::alarm_byte_matches(self.locations[alarm], self.locations[clock]))
    }

    fn irq(&self) -> bool {
        interrupt_requested(self.locations[REGISTER_B], self.locations[REGISTER_C])
    }

    fn sqw(&self) -> bool {
        self.locations[REGISTER_B] & SQWE != 0
            && selected_tap(self.locations[REGISTER_A]).is_some_and(|tap| self.count >> tap & 1 == 1)
    }
}

#[cfg(test)]
mod tests {
    use super::*;
    use crate::record;

    const BASES: [(u8, u32, u32); 3] = [(0x00, 1, 2_064), (0x10, 4, 2_064), (0x20, 128, 9_344)];

    /// A chip that runs on the base of `register_a`, with SET 0, from a given count.
    fn running(register_a: u8, register_b: u8, count: u32) -> Chip {
        let mut chip = Chip::fresh();
        chip.write(11, register_b).unwrap();
        chip.write(10, register_a).unwrap();
        chip.count = count;
        keeps_rules(&chip);
        chip
    }

    fn ticks(chip: &mut Chip, number: u32) {
        for _ in 0..number {
            chip.tick();
        }
    }

    /// A running chip with an update pending, at the given count.
    fn pending(register_a: u8, register_b: u8, count: u32) -> Chip {
        let Divider::Running(base) = Divider::from_register_a(register_a) else { panic!("a base must run") };
        let mut chip = running(register_a, register_b, COUNT_LIMIT - base.step());
        ticks(&mut chip, 1 + count / base.step());
        assert!(chip.update_pending);
        assert_eq!(chip.count, count);
        chip.locations[REGISTER_C] = 0;
        keeps_rules(&chip);
        chip
    }

    fn keeps_rules(chip: &Chip) {
        let mut bytes = [0; record::LENGTH];
        record::store(chip, &mut bytes);
        assert_eq!(record::load(&bytes).as_ref(), Ok(chip));
    }

    /// A small generator of test numbers.
    struct Numbers(u64);

    impl Numbers {
        fn below(&mut self, limit: u32) -> u32 {
            self.0 = self.0.wrapping_mul(6_364_136_223_846_793_005).wrapping_add(1_442_695_040_888_963_407);
            (self.0 >> 33) as u32 % limit
        }
    }

    #[test]
    fn a_fresh_chip() {
        let mut chip = Chip::fresh();
        assert_eq!(chip, Chip::default());
        assert_eq!(chip.count, 2_097_152);
        assert_eq!(chip.lines(), Lines { irq: false, sqw: false });
        for address in 0..64 {
            let expected = match address {
                10 => 0x60,
                11 => 0x80,
                _ => 0,
            };
            assert_eq!(chip.read(address), Ok(expected));
        }
        keeps_rules(&chip);
    }

    #[test]
    fn ordinary_locations_hold_every_byte() {
        let mut chip = Chip::fresh();
        for address in (1..10).chain(14..64) {
            for value in 0..=255 {
                assert_eq!(chip.write(address, value), Ok(()));
                assert_eq!(chip.read(address), Ok(value));
            }
        }
        for value in 0..=255 {
            assert_eq!(chip.write(0, value), Ok(()));
            assert_eq!(chip.read(0), Ok(value & 0x7F));
        }
    }

    // The refusals of read and write.

    #[test]
    fn addresses_above_63_are_refused() {
        let mut chip = Chip::fresh();
        let before = chip.clone();
        for address in [64, 65, 127, 128, 255, 256, 1 << 16, u32::MAX] {
            assert_eq!(chip.read(address), Err(Refusal::Address));
            assert_eq!(chip.write(address, 0xFF), Err(Refusal::Address));
        }
        assert_eq!(chip, before);
    }

    #[test]
    fn reset_low_refuses_every_address_after_the_address_itself() {
        let mut chip = pending(0x20, 0x02, 1_024);
        chip.pins(false, true);
        let before = chip.clone();
        for address in 0..70 {
            let expected = if address > 63 { Refusal::Address } else { Refusal::ResetLow };
            assert_eq!(chip.read(address), Err(expected));
            // Also ahead of the read-only registers and of the test patterns.
            for value in [0x00, 0x30, 0x40, 0x50, 0xFF] {
                assert_eq!(chip.write(address, value), Err(expected));
            }
        }
        assert_eq!(chip, before);
    }

    #[test]
    fn the_closed_window_refuses_clock_and_alarm_bytes() {
        for (register_a, step, end) in BASES {
            let mut chip = running(register_a, 0x02, COUNT_LIMIT - step);
            for _ in 0..12_000 / step {
                chip.tick();
                let count = chip.count;
                let closed = (1_024..end).contains(&count);
                // Each of the clock bytes at the borders, one of them elsewhere.
                let near = count.abs_diff(1_024) <= step || count.abs_diff(end) <= step;
                let clock_addresses = if near { 0..10 } else { 0..1 };
                for address in clock_addresses {
                    let before = chip.clone();
                    if closed {
                        assert_eq!(chip.read(address), Err(Refusal::ClosedWindow));
                        assert_eq!(chip.write(address, 1), Err(Refusal::ClosedWindow));
                        assert_eq!(chip, before);
                    } else {
                        let byte = chip.read(address).unwrap();
                        assert_eq!(chip.write(address, byte), Ok(()));
                        assert_eq!(chip, before);
                    }
                }
                let uip = if count < end { 0x80 } else { 0 };
                assert_eq!(chip.read(10), Ok(register_a | uip));
            }
        }
    }

    #[test]
    fn registers_and_user_ram_are_open_in_the_closed_window() {
        let mut chip = pending(0x10, 0x02, 1_500);
        for address in 10..64 {
            assert!(chip.read(address).is_ok());
        }
        for address in (10..12).chain(14..64) {
            let value = chip.byte_at(address as usize);
            assert_eq!(chip.write(address, value), Ok(()));
        }
        for address in [12, 13] {
            assert_eq!(chip.write(address, 0), Err(Refusal::ReadOnly));
        }
        assert_eq!(chip.write(10, 0x30), Err(Refusal::TestPattern));
        assert!(chip.update_pending);
    }

    #[test]
    fn without_a_pending_update_the_window_never_closes() {
        for (register_a, step, _) in BASES {
            let mut chip = running(register_a, 0x82, COUNT_LIMIT - step);
            for _ in 0..12_000 / step {
                chip.tick();
                assert!(chip.read(9).is_ok());
                assert_eq!(chip.read(10), Ok(register_a));
            }
        }
    }

    #[test]
    fn registers_c_and_d_refuse_writes() {
        let mut chip = Chip::fresh();
        let before = chip.clone();
        for address in [12, 13] {
            for value in 0..=255 {
                assert_eq!(chip.write(address, value), Err(Refusal::ReadOnly));
            }
        }
        assert_eq!(chip, before);
    }

    #[test]
    fn test_patterns_are_refused_and_nothing_else_of_register_a() {
        for value in 0..=255u8 {
            let mut chip = Chip::fresh();
            let before = chip.clone();
            if (3..=5).contains(&(value >> 4 & 7)) {
                assert_eq!(chip.write(10, value), Err(Refusal::TestPattern));
                assert_eq!(chip, before);
            } else {
                assert_eq!(chip.write(10, value), Ok(()));
                assert_eq!(chip.read(10), Ok(value & 0x7F));
                keeps_rules(&chip);
            }
        }
    }

    #[test]
    fn run_takes_65536_ticks_and_no_more() {
        let held = Chip::fresh();
        let mut in_reset = running(0x20, 0x02, 0);
        in_reset.pins(false, true);
        for start in [held, in_reset, running(0x00, 0x02, 0)] {
            for number in [65_537, 65_538, 1 << 20, u32::MAX] {
                let mut chip = start.clone();
                assert_eq!(chip.run(number), Err(Refusal::TooManyTicks));
                assert_eq!(chip, start);
            }
            let mut chip = start.clone();
            assert_eq!(chip.run(0), Ok(()));
            assert_eq!(chip, start);
            let mut one_by_one = start.clone();
            assert_eq!(chip.run(65_536), Ok(()));
            ticks(&mut one_by_one, 65_536);
            assert_eq!(chip, one_by_one);
        }
    }

    // Registers.

    #[test]
    fn set_going_up_drops_the_update_and_uie() {
        for value in 0..=255u8 {
            let mut chip = pending(0x20, 0x12, 1_280);
            chip.write(11, value).unwrap();
            let rises = value & SET != 0;
            assert_eq!(chip.update_pending, !rises);
            assert_eq!(chip.read(11), Ok(if rises { value & !UIE } else { value }));
            assert_eq!(chip.read(10), Ok(if rises { 0x20 } else { 0xA0 }));
            assert_eq!(chip.read(0).is_ok(), rises);
            keeps_rules(&chip);
        }
    }

    #[test]
    fn set_that_stays_up_stores_uie_as_written() {
        let mut chip = Chip::fresh();
        for value in 128..=255 {
            chip.write(11, value).unwrap();
            assert_eq!(chip.read(11), Ok(value));
        }
        chip.write(11, 0x12).unwrap();
        assert_eq!(chip.read(11), Ok(0x12));
    }

    #[test]
    fn set_going_down_leaves_the_update_to_the_next_edge() {
        let mut chip = running(0x20, 0x82, COUNT_LIMIT - 128);
        chip.tick();
        assert_eq!(chip.count, 0);
        assert!(!chip.update_pending);
        chip.write(11, 0x02).unwrap();
        ticks(&mut chip, 32_767);
        assert_eq!(chip.read(0), Ok(0));
        assert!(!chip.update_pending);
        chip.tick();
        assert!(chip.update_pending);
    }

    #[test]
    fn irqf_and_the_line_follow_flags_and_enables_at_once() {
        for flags in [0x00, 0x10, 0x20, 0x30, 0x40, 0x50, 0x60, 0x70] {
            let mut chip = running(0x20, 0x02, 0);
            chip.locations[REGISTER_C] = flags;
            for value in 0..=127u8 {
                chip.write(11, value).unwrap();
                let expected = value & flags & 0x70 != 0;
                assert_eq!(chip.lines().irq, expected);
                assert_eq!(chip.byte_at(12), flags | if expected { 0x80 } else { 0 });
                keeps_rules(&chip);
            }
        }
        // SET going up takes UIE away, and so UF's part of the line.
        let mut chip = running(0x20, 0x12, 0);
        chip.locations[REGISTER_C] = UF;
        assert!(chip.lines().irq);
        chip.write(11, 0x92).unwrap();
        assert_eq!(chip.byte_at(12), UF);
        assert!(!chip.lines().irq);
    }

    #[test]
    fn reading_c_clears_all_flags() {
        let mut chip = running(0x20, 0x42, 0);
        chip.locations[REGISTER_C] = PF | AF | UF;
        assert!(chip.lines().irq);
        assert_eq!(chip.read(12), Ok(0xF0));
        assert!(!chip.lines().irq);
        assert_eq!(chip.read(12), Ok(0));
        assert_eq!(chip.read(11), Ok(0x42));
    }

    #[test]
    fn reading_d_returns_the_old_byte_and_then_sets_vrt_if_ps_is_high() {
        let mut chip = Chip::fresh();
        assert_eq!(chip.read(13), Ok(0x00));
        assert_eq!(chip.read(13), Ok(0x80));
        chip.pins(true, false);
        assert_eq!(chip.read(13), Ok(0x00));
        assert_eq!(chip.read(13), Ok(0x00));
        chip.pins(true, true);
        assert_eq!(chip.read(13), Ok(0x00));
        assert_eq!(chip.read(13), Ok(0x80));
        // RESET does not touch VRT.
        chip.pins(false, true);
        chip.pins(true, true);
        assert_eq!(chip.read(13), Ok(0x80));
    }

    #[test]
    fn reset_clears_enables_and_flags_at_the_call() {
        let mut chip = running(0x2F, 0x7F, 1 << 20);
        chip.locations[REGISTER_C] = PF | AF | UF;
        assert_eq!(chip.lines(), Lines { irq: true, sqw: true });
        chip.pins(false, true);
        assert_eq!(chip.lines(), Lines { irq: false, sqw: false });
        keeps_rules(&chip);
        chip.pins(true, true);
        assert_eq!(chip.read(11), Ok(0x07));
        assert_eq!(chip.read(12), Ok(0x00));
        assert_eq!(chip.read(10), Ok(0x2F));
    }

    #[test]
    fn reset_and_ps_do_not_touch_a_pending_update_set_or_the_mark() {
        let mut chip = pending(0x20, 0x07, 1_280);
        chip.repeat_used = true;
        chip.pins(false, false);
        assert!(chip.update_pending && chip.repeat_used);
        assert_eq!(chip.count, 1_280);
        chip.pins(true, true);
        assert_eq!(chip.read(10), Ok(0xA0));
        let mut chip = Chip::fresh();
        chip.pins(false, false);
        chip.pins(true, true);
        assert_eq!(chip, Chip::fresh());
    }

    #[test]
    fn no_flag_rises_while_reset_is_low_but_time_goes_on() {
        let mut chip = running(0x23, 0x02, COUNT_LIMIT - 128);
        for alarm in [1, 3, 5] {
            chip.write(alarm, 0xC0).unwrap();
        }
        let mut free = chip.clone();
        chip.pins(false, true);
        for _ in 0..32_768 {
            chip.tick();
            free.tick();
            assert_eq!(chip.locations[REGISTER_C], 0);
        }
        assert_eq!(free.read(12), Ok(PF | AF | UF));
        // What was missed is lost.
        chip.pins(true, true);
        assert_eq!(chip.read(12), Ok(0));
        assert_eq!(chip.read(0), Ok(1));
        assert_eq!(chip, free);
        keeps_rules(&chip);
    }

    // The divider.

    #[test]
    fn a_held_divider_does_not_tick() {
        for register_a in 0x60..=0x7F {
            let mut chip = Chip::fresh();
            chip.write(11, 0x0A).unwrap();
            chip.write(10, register_a).unwrap();
            let before = chip.clone();
            assert_eq!(chip.run(1_000), Ok(()));
            assert_eq!(chip, before);
            assert!(!chip.lines().sqw);
        }
    }

    #[test]
    fn changing_dv_drops_the_update_and_aligns_the_count() {
        let values = [0x00, 0x10, 0x20, 0x60, 0x70];
        for from in values {
            for to in values {
                for rate in [0x00, 0x05, 0x8F] {
                    for count in [1, 3, 127, 128, 129, 1_023, 1_151, 2_063, 9_343, 2_097_279, 4_194_303] {
                        let mut chip = running(from, 0x02, HELD_COUNT);
                        if let Divider::Running(base) = Divider::from_register_a(from) {
                            chip.count = count / base.step() * base.step();
                            chip.update_pending = chip.count < base.update_end();
                        }
                        keeps_rules(&chip);
                        let before = chip.clone();
                        chip.write(10, to | rate).unwrap();
                        if from == to {
                            assert_eq!(chip.count, before.count);
                            assert_eq!(chip.update_pending, before.update_pending);
                        } else {
                            let expected = match to {
                                0x00 => before.count,
                                0x10 => before.count & !3,
                                0x20 => before.count & !127,
                                _ => 2_097_152,
                            };
                            assert_eq!(chip.count, expected);
                            assert!(!chip.update_pending);
                        }
                        let uip = if chip.update_pending { 0x80 } else { 0 };
                        assert_eq!(chip.read(10), Ok(to | rate & 0x7F | uip));
                        assert_eq!(chip.read(12), Ok(0));
                        keeps_rules(&chip);
                    }
                }
            }
        }
    }

    #[test]
    fn a_write_that_turns_the_count_to_zero_starts_no_update() {
        let mut chip = running(0x00, 0x02, 100);
        chip.write(10, 0x20).unwrap();
        assert_eq!(chip.count, 0);
        assert!(!chip.update_pending);
        ticks(&mut chip, 73);
        assert_eq!(chip.read(0), Ok(0));
    }

    #[test]
    fn the_periodic_flag_rises_with_the_selected_tap() {
        for (base, step, _) in BASES {
            for rate in 0..=15u8 {
                let tap = match (base, rate) {
                    (_, 0) => None,
                    (0x20, 1) => Some(13),
                    (0x20, 2) => Some(14),
                    _ => Some(5 + u32::from(rate)),
                };
                // A whole second on the slow base, the ends of it on the others.
                let span = if step == 128 { 32_768 } else { 200_000 };
                for start in [0, COUNT_LIMIT - 128 * 400, COUNT_LIMIT / 2 - 128 * 300, 128 * 77] {
                    let mut chip = running(base | rate, 0x88, start);
                    for _ in 0..span {
                        let level = |count: u32| tap.is_some_and(|tap| count & 1 << tap != 0);
                        let before = level(chip.count);
                        assert_eq!(chip.lines().sqw, before);
                        chip.tick();
                        let after = level(chip.count);
                        let flag = chip.read(12).unwrap();
                        assert_eq!(flag, if after && !before { PF } else { 0 }, "{base} {rate} {}", chip.count);
                    }
                }
            }
        }
    }

    #[test]
    fn the_square_wave_needs_sqwe() {
        for register_b in 0..=255u8 {
            let chip = running(0x06, register_b, 0x0800);
            assert_eq!(chip.lines().sqw, register_b & SQWE != 0);
        }
        for register_a in 0..=15u8 {
            let chip = running(register_a, SQWE, COUNT_LIMIT - 1);
            assert_eq!(chip.lines().sqw, register_a != 0);
        }
    }

    #[test]
    fn example_periodic_flag_at_64_and_then_each_128() {
        let mut chip = running(0x01, 0x80, 0);
        let mut risen = Vec::new();
        for tick in 1..=2_000 {
            chip.tick();
            if chip.read(12) == Ok(PF) {
                risen.push(tick);
            }
        }
        let expected: Vec<u32> = (0..).map(|number| 64 + 128 * number).take_while(|&tick| tick <= 2_000).collect();
        assert_eq!(risen, expected);
    }

    // Updates.

    #[test]
    fn example_first_and_second_update_after_release() {
        let mut chip = Chip::fresh();
        chip.write(11, 0x00).unwrap();
        chip.run(65_536).unwrap();
        chip.write(10, 0x20).unwrap();
        let mut ended = Vec::new();
        for tick in 1..=60_000 {
            chip.tick();
            if chip.read(12) == Ok(UF) {
                ended.push(tick);
                assert_eq!(chip.read(0), Ok(ended.len() as u8));
            }
        }
        assert_eq!(ended, [16_457, 49_225]);
    }

    #[test]
    fn uip_is_set_from_the_edge_to_the_end() {
        for (register_a, step, end) in BASES {
            let mut chip = running(register_a, 0x02, COUNT_LIMIT - step);
            assert_eq!(chip.read(10), Ok(register_a));
            for _ in 0..end / step {
                chip.tick();
                assert_eq!(chip.read(10), Ok(register_a | 0x80));
                assert_eq!(chip.read(12).unwrap() & UF, 0);
            }
            chip.tick();
            assert_eq!(chip.count, end);
            assert_eq!(chip.read(10), Ok(register_a));
            assert_eq!(chip.read(12).unwrap() & UF, UF);
            assert_eq!(chip.read(0), Ok(1));
        }
    }

    #[test]
    fn completed_updates_follow_the_tick_formula() {
        for (register_a, step, end) in BASES {
            let span = 2 * COUNT_LIMIT / step + 20_000 / step;
            for start in [0, step, end - step, end, end + step, HELD_COUNT, COUNT_LIMIT - step] {
                let mut chip = running(register_a, 0x02, start);
                let mut completed = 0;
                for number in 1..=u64::from(span) {
                    chip.tick();
                    if chip.locations[REGISTER_C] != 0 {
                        assert_eq!(chip.read(12), Ok(UF));
                        completed += 1;
                    }
                    let sum = u64::from(start) + number * u64::from(step);
                    let expected = sum.saturating_sub(u64::from(end)) / u64::from(COUNT_LIMIT);
                    assert_eq!(completed, expected);
                    assert_eq!(u64::from(chip.locations[SECONDS]), expected);
                }
                assert!(completed >= 1);
            }
        }
    }

    #[test]
    fn the_alarm_is_compared_with_the_new_time() {
        let last_tick = |alarm: [u8; 3]| {
            let mut chip = pending(0x20, 0x22, 0);
            let clock = [(0, 0x59), (2, 0x59), (4, 0x09), (6, 0x02), (7, 0x03), (8, 0x04), (9, 0x05)];
            for (address, value) in clock {
                chip.write(address, value).unwrap();
            }
            for (address, value) in [1, 3, 5].into_iter().zip(alarm) {
                chip.write(address, value).unwrap();
            }
            ticks(&mut chip, 72);
            assert!(!chip.lines().irq);
            chip.tick();
            assert_eq!(chip.read(4), Ok(0x10));
            let irq = chip.lines().irq;
            assert_eq!(chip.read(12), Ok(if irq { IRQF | AF | UF } else { UF }));
            irq
        };
        assert!(last_tick([0x00, 0x00, 0x10]));
        assert!(!last_tick([0x59, 0x59, 0x09]));
        assert!(last_tick([0xC0, 0xFF, 0xDE]));
        assert!(!last_tick([0xBF, 0xFF, 0xDE]));
        assert!(!last_tick([0xC0, 0x01, 0x10]));
        assert!(!last_tick([0xC0, 0x00, 0x09]));
        assert!(last_tick([0x00, 0xC5, 0x10]));
    }

    #[test]
    fn an_update_uses_the_modes_of_its_last_tick_and_keeps_the_mark() {
        let mut chip = pending(0x20, 0x03, 1_280);
        let october = [(0, 0x59), (2, 0x59), (4, 0x01), (6, 0x01), (7, 0x25), (8, 0x10), (9, 0x81)];
        for (address, value) in october {
            chip.locations[address] = value;
        }
        ticks(&mut chip, 63);
        assert_eq!(chip.count, 9_344);
        assert_eq!((chip.read(4), chip.repeat_used), (Ok(0x01), true));
        // No write, pin or SET touches the mark.
        chip.write(11, 0x83).unwrap();
        chip.write(7, 0x01).unwrap();
        chip.write(11, 0x03).unwrap();
        chip.write(10, 0x60).unwrap();
        chip.write(10, 0x20).unwrap();
        chip.pins(false, false);
        chip.pins(true, true);
        assert!(chip.repeat_used);
        keeps_rules(&chip);
        // Binary chosen while the update is under way.
        let mut chip = pending(0x20, 0x02, 512);
        chip.write(0, 0x09).unwrap();
        ticks(&mut chip, 20);
        chip.write(11, 0x06).unwrap();
        ticks(&mut chip, 49);
        assert_eq!(chip.read(0), Ok(0x0A));
    }

    #[test]
    fn a_dropped_update_does_not_end() {
        let mut chip = pending(0x20, 0x02, 9_216);
        chip.write(11, 0x82).unwrap();
        chip.write(11, 0x02).unwrap();
        chip.tick();
        assert_eq!(chip.read(12), Ok(0));
        assert_eq!(chip.read(0), Ok(0));
        let mut chip = pending(0x00, 0x02, 2_060);
        chip.write(10, 0x10).unwrap();
        chip.tick();
        assert_eq!(chip.count, 2_064);
        assert_eq!(chip.read(0), Ok(0));
    }

    #[test]
    fn every_call_keeps_the_record_rules() {
        let mut numbers = Numbers(146_818);
        for _ in 0..40 {
            let mut chip = Chip::fresh();
            for _ in 0..4_000 {
                let before = chip.clone();
                let refused = match numbers.below(8) {
                    0 => chip.read(numbers.below(70)).is_err(),
                    1 => chip.read(10 + numbers.below(4)).is_err(),
                    2 => chip.write(numbers.below(70), numbers.below(256) as u8).is_err(),
                    3 => chip.write(10, numbers.below(256) as u8).is_err(),
                    4 => chip.write(11, numbers.below(256) as u8).is_err(),
                    5 => chip.run(numbers.below(600)).is_err(),
                    6 => {
                        // To just before the next edge, where an update begins.
                        if let Divider::Running(base) = Divider::from_register_a(chip.locations[REGISTER_A]) {
                            chip.count = if chip.update_pending { chip.count } else { COUNT_LIMIT - base.step() };
                        }
                        chip.run(numbers.below(100)).is_err()
                    }
                    _ => {
                        let levels = numbers.below(4) | numbers.below(2);
                        chip.pins(levels & 1 != 0, levels & 2 != 0);
                        false
                    }
                };
                if refused {
                    assert_eq!(chip, before);
                }
                keeps_rules(&chip);
            }
        }
    }
}
