//! Names for the locations and for the bits of registers A to D (the specification, "Locations"; data sheet, figure 15).

/// How many locations the chip has.
pub const LOCATIONS: usize = 64;

/// Clock: seconds. Bit 7 always reads 0.
pub const SECONDS: usize = 0;
/// Alarm: seconds.
pub const SECONDS_ALARM: usize = 1;
/// Clock: minutes.
pub const MINUTES: usize = 2;
/// Alarm: minutes.
pub const MINUTES_ALARM: usize = 3;
/// Clock: hours.
pub const HOURS: usize = 4;
/// Alarm: hours.
pub const HOURS_ALARM: usize = 5;
/// Clock: day of the week, Sunday being 1.
pub const WEEKDAY: usize = 6;
/// Clock: date of the month.
pub const DATE: usize = 7;
/// Clock: month.
pub const MONTH: usize = 8;
/// Clock: year of the century.
pub const YEAR: usize = 9;
/// Register A: UIP, divider bits and rate selection bits.
pub const REGISTER_A: usize = 10;
/// Register B: SET, the enables and the modes.
pub const REGISTER_B: usize = 11;
/// Register C: IRQF and the flags.
pub const REGISTER_C: usize = 12;
/// Register D: VRT.
pub const REGISTER_D: usize = 13;

/// The one bit of location 0 that cannot be written.
pub const SECONDS_READ_ONLY: u8 = 0x80;

/// Register A: update in progress.
pub const UIP: u8 = 0x80;
/// Register A: the divider bits DV2 to DV0.
pub const DV: u8 = 0x70;
/// Register A: the rate selection bits RS3 to RS0.
pub const RS: u8 = 0x0F;

/// Register B: holds updates off.
pub const SET: u8 = 0x80;
/// Register B: periodic interrupt enable.
pub const PIE: u8 = 0x40;
/// Register B: alarm interrupt enable.
pub const AIE: u8 = 0x20;
/// Register B: update-ended interrupt enable.
pub const UIE: u8 = 0x10;
/// Register B: square-wave enable.
pub const SQWE: u8 = 0x08;
/// Register B: data mode, 1 for binary.
pub const DM: u8 = 0x04;
/// Register B: the 24/12 bit, 1 for 24-hour.
pub const HOURS_24: u8 = 0x02;
/// Register B: daylight savings enable.
pub const DSE: u8 = 0x01;
/// The bits of register B that RESET clears.
pub const CLEARED_BY_RESET: u8 = PIE | AIE | UIE | SQWE;

/// Register C: interrupt request flag.
pub const IRQF: u8 = 0x80;
/// Register C: periodic interrupt flag.
pub const PF: u8 = 0x40;
/// Register C: alarm interrupt flag.
pub const AF: u8 = 0x20;
/// Register C: update-ended interrupt flag.
pub const UF: u8 = 0x10;
/// The three flags, which stand in register C where their enables stand in register B.
pub const FLAGS: u8 = PF | AF | UF;

/// Register D: valid RAM and time.
pub const VRT: u8 = 0x80;

/// Whether a flag and its enable are both 1: the rule for IRQF and for the IRQ line.
pub const fn interrupt_requested(register_b: u8, register_c: u8) -> bool {
    // PIE, AIE and UIE have the same bit positions as PF, AF and UF, so one AND pairs them up.
    register_b & register_c & FLAGS != 0
}

#[cfg(test)]
mod tests {
    use super::*;

    #[test]
    fn the_interrupt_rule_is_the_sum_of_three_products() {
        for register_b in 0..=255u8 {
            for register_c in 0..=255u8 {
                let expected = (register_c & PF != 0 && register_b & PIE != 0)
                    || (register_c & AF != 0 && register_b & AIE != 0)
                    || (register_c & UF != 0 && register_b & UIE != 0);
                assert_eq!(interrupt_requested(register_b, register_c), expected);
            }
        }
    }
}
