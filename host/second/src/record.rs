//! The saved chip: 72 bytes and the rules they keep (the specification, "Saved chip and event file").

use crate::chip::{Chip, Divider, COUNT_LIMIT, HELD_COUNT};
use crate::registers::*;
use crate::Refusal;

/// The length of a saved chip.
pub const LENGTH: usize = 72;

/// A saved chip.
pub type Record = [u8; LENGTH];

/// Where the three bytes of the divider count stand, low byte first.
const COUNT: usize = 64;
/// Where the four single bits of the chip stand.
const STATUS: usize = 67;
/// The first of the bytes that are always 0.
const UNUSED: usize = 68;

/// Status: an update is pending.
const UPDATE_PENDING: u8 = 0x01;
/// Status: RESET is low.
const RESET_LOW: u8 = 0x02;
/// Status: PS is low.
const PS_LOW: u8 = 0x04;
/// Status: the repeat of this Sunday's hour has been used.
const REPEAT_USED: u8 = 0x08;

fn count_of(record: &Record) -> u32 {
    u32::from_le_bytes([record[COUNT], record[COUNT + 1], record[COUNT + 2], 0])
}

/// Whether 72 bytes keep all record rules.
pub fn keeps_rules(record: &Record) -> bool {
    let (register_a, register_b) = (record[REGISTER_A], record[REGISTER_B]);
    let (register_c, register_d) = (record[REGISTER_C], record[REGISTER_D]);
    let status = record[STATUS];
    let pending = status & UPDATE_PENDING != 0;
    let count = count_of(record);

    let seconds_kept = record[SECONDS] & SECONDS_READ_ONLY == 0;
    let uip_kept = (register_a & UIP != 0) == pending;
    let register_c_kept =
        register_c & !(IRQF | FLAGS) == 0 && (register_c & IRQF != 0) == interrupt_requested(register_b, register_c);
    let register_d_kept = register_d & !VRT == 0 && (status & PS_LOW == 0 || register_d == 0);
    let reset_kept = status & RESET_LOW == 0 || (register_b & CLEARED_BY_RESET == 0 && register_c == 0);
    let divider_kept = match Divider::from_register_a(register_a) {
        Divider::Running(base) => {
            let update_kept = !pending || (register_b & SET == 0 && count < base.update_end());
            count < COUNT_LIMIT && count.is_multiple_of(base.step()) && update_kept
        }
        Divider::Held => count == HELD_COUNT && !pending,
        Divider::Test => false,
    };
    let rest_kept = status & !(UPDATE_PENDING | RESET_LOW | PS_LOW | REPEAT_USED) == 0
        && record[UNUSED..].iter().all(|&byte| byte == 0);

    seconds_kept && uip_kept && register_c_kept && register_d_kept && reset_kept && divider_kept && rest_kept
}

/// The chip that 72 bytes hold, or refusal 8.
pub fn load_record(record: &Record) -> Result<Chip, Refusal> {
    if !keeps_rules(record) {
        return Err(Refusal::BrokenRecord);
    }
    let mut locations = [0; LOCATIONS];
    locations.copy_from_slice(&record[..LOCATIONS]);
    // The chip derives these two, see `Chip`.
    locations[REGISTER_A] &= !UIP;
    locations[REGISTER_C] &= !IRQF;
    let status = record[STATUS];
    Ok(Chip {
        locations,
        count: count_of(record),
        update_pending: status & UPDATE_PENDING != 0,
        reset_low: status & RESET_LOW != 0,
        ps_low: status & PS_LOW != 0,
        repeat_used: status & REPEAT_USED != 0,
    })
}

/// The chip that an input of any length holds, or refusal 1, or refusal 8.
pub fn load(input: &[u8]) -> Result<Chip, Refusal> {
    let record: &Record = input.try_into().map_err(|_| Refusal::Length)?;
    load_record(record)
}

/// Stores a chip in 72 bytes, each of which is written.
pub fn store(chip: &Chip, record: &mut Record) {
    record[..LOCATIONS].copy_from_slice(&chip.locations);
    record[REGISTER_A] = chip.byte_at(REGISTER_A);
    record[REGISTER_C] = chip.byte_at(REGISTER_C);
    let [low, middle, high, _] = chip.count.to_le_bytes();
    record[COUNT..STATUS].copy_from_slice(&[low, middle, high]);
    let bits = [
        (chip.update_pending, UPDATE_PENDING),
        (chip.reset_low, RESET_LOW),
        (chip.ps_low, PS_LOW),
        (chip.repeat_used, REPEAT_USED),
    ];
    record[STATUS] = bits.into_iter().map(|(set, bit)| if set { bit } else { 0 }).sum();
    record[UNUSED..].fill(0);
}

/// Stores a chip inside a page, or refuses with 1 and leaves the page alone.
pub fn save(chip: &Chip, page: &mut [u8], offset: usize) -> Result<(), Refusal> {
    // An end that no number can hold lies behind every page.
    let end = offset.checked_add(LENGTH).ok_or(Refusal::Length)?;
    let part = page.get_mut(offset..end).ok_or(Refusal::Length)?;
    let record: &mut Record = part.try_into().map_err(|_| Refusal::Length)?;
    store(chip, record);
    Ok(())
}

#[cfg(test)]
mod tests {
    use super::*;

    fn stored(chip: &Chip) -> Record {
        let mut record = [0xEE; LENGTH];
        store(chip, &mut record);
        record
    }

    fn fresh() -> Record {
        stored(&Chip::fresh())
    }

    /// A fresh record with some bytes changed.
    fn with(changes: &[(usize, u8)]) -> Record {
        let mut record = fresh();
        for &(position, byte) in changes {
            record[position] = byte;
        }
        record
    }

    #[test]
    fn a_fresh_chip_as_bytes() {
        let mut expected = [0; 72];
        expected[10] = 0x60;
        expected[11] = 0x80;
        expected[66] = 0x20;
        assert_eq!(fresh(), expected);
        assert_eq!(load(&expected), Ok(Chip::fresh()));
    }

    #[test]
    fn lengths_other_than_72_are_refused_with_1() {
        // The bytes would also break the rules: 1 comes before 8.
        for length in (0..300).filter(|&length| length != 72) {
            assert_eq!(load(&vec![0xFF; length]), Err(Refusal::Length));
        }
        assert_eq!(load(&[0xFF; 72]), Err(Refusal::BrokenRecord));
        assert_eq!(load(&fresh()[..71]), Err(Refusal::Length));
    }

    #[test]
    fn each_single_bit_of_a_fresh_chip() {
        for position in 0..72 {
            for bit in 0..8 {
                let mut record = fresh();
                record[position] ^= 1 << bit;
                let kept = match (position, bit) {
                    (0, 7) => false,
                    (0..=9, _) => true,
                    // A: UIP without an update; bit 5 leads from 110 to the test pattern 100.
                    (10, 7) | (10, 5) => false,
                    (10..=11, _) => true,
                    // C: a flag without its enable is in order, IRQF alone is not.
                    (12, 4..=6) => true,
                    (12, _) => false,
                    (13, 7) => true,
                    (13, _) => false,
                    (14..=63, _) => true,
                    // The held count has one value only.
                    (64..=66, _) => false,
                    (67, 1..=3) => true,
                    _ => false,
                };
                assert_eq!(keeps_rules(&record), kept, "byte {position} bit {bit}");
                match load(&record) {
                    Ok(chip) => assert_eq!(stored(&chip), record),
                    Err(refusal) => assert_eq!(refusal, Refusal::BrokenRecord),
                }
            }
        }
    }

    #[test]
    fn each_rule_broken_by_one_bit() {
        // Each pair: changes to a fresh chip that keep the rules, then the one bit that breaks one rule.
        type Case<'a> = (&'a str, &'a [(usize, u8)], (usize, u8));
        let slow_pending: &[(usize, u8)] = &[(10, 0xA0), (11, 0x02), (66, 0), (67, 0x01)];
        let cases: &[Case] = &[
            ("location 0 bit 7", &[(0, 0x59)], (0, 0x80)),
            ("test pattern 011", &[(10, 0x20)], (10, 0x10)),
            ("test pattern 100", &[(10, 0x60)], (10, 0x20)),
            ("test pattern 101", &[(10, 0x10)], (10, 0x40)),
            ("UIP without an update", &[(10, 0x20), (11, 0x02), (66, 0)], (10, 0x80)),
            ("an update without UIP", slow_pending, (10, 0x80)),
            ("pending bit without UIP", &[(10, 0x20), (11, 0x02), (66, 0)], (67, 0x01)),
            ("C bit 0", &[], (12, 0x01)),
            ("C bit 1", &[], (12, 0x02)),
            ("C bit 2", &[], (12, 0x04)),
            ("C bit 3", &[], (12, 0x08)),
            ("D bit 0", &[(13, 0x80)], (13, 0x01)),
            ("D bit 6", &[(13, 0x80)], (13, 0x40)),
            ("IRQF missing, by PIE", &[(12, 0x40)], (11, 0x40)),
            ("IRQF missing, by AIE", &[(12, 0x20)], (11, 0x20)),
            ("IRQF missing, by UIE", &[(12, 0x10)], (11, 0x10)),
            ("IRQF taken away", &[(11, 0xC0), (12, 0xC0)], (12, 0x80)),
            ("IRQF too much", &[(11, 0xA0), (12, 0x40)], (12, 0x80)),
            ("flag of an IRQF taken away", &[(11, 0xC0), (12, 0xC0)], (12, 0x40)),
            ("VRT with PS low", &[(67, 0x04)], (13, 0x80)),
            ("PS low with VRT", &[(13, 0x80)], (67, 0x04)),
            ("RESET low with PIE", &[(67, 0x02)], (11, 0x40)),
            ("RESET low with AIE", &[(67, 0x02)], (11, 0x20)),
            ("RESET low with UIE", &[(67, 0x02)], (11, 0x10)),
            ("RESET low with SQWE", &[(67, 0x02)], (11, 0x08)),
            ("RESET low with PF", &[(67, 0x02)], (12, 0x40)),
            ("RESET low with AF", &[(67, 0x02)], (12, 0x20)),
            ("RESET low with UF", &[(67, 0x02)], (12, 0x10)),
            ("count too high by bit 22", &[(10, 0x00), (66, 0x3F)], (66, 0x40)),
            ("count too high by bit 23", &[(10, 0x00), (66, 0x3F)], (66, 0x80)),
            ("count no multiple of 4, bit 0", &[(10, 0x10)], (64, 0x01)),
            ("count no multiple of 4, bit 1", &[(10, 0x10)], (64, 0x02)),
            ("count no multiple of 128, bit 0", &[(10, 0x20)], (64, 0x01)),
            ("count no multiple of 128, bit 6", &[(10, 0x20)], (64, 0x40)),
            ("held count, 110", &[(10, 0x60)], (65, 0x01)),
            ("held count, 111", &[(10, 0x70)], (66, 0x20)),
            ("an update with SET", slow_pending, (11, 0x80)),
            ("an update far from its end", slow_pending, (66, 0x20)),
            // 8,320 and 1,024 are below 9,344, their sum is not.
            (
                "an update at its end, slow",
                &[(10, 0xA0), (11, 0), (64, 0x80), (65, 0x20), (66, 0), (67, 1)],
                (65, 0x04),
            ),
            // 2,048 + 16 is 2,064.
            ("an update at its end, middle", &[(10, 0x90), (11, 0), (65, 0x08), (66, 0), (67, 1)], (64, 0x10)),
            ("an update at its end, fast", &[(10, 0x80), (11, 0), (65, 0x08), (66, 0), (67, 1)], (64, 0x10)),
            ("status bit 4", &[], (67, 0x10)),
            ("status bit 7", &[(67, 0x0E)], (67, 0x80)),
            ("byte 68", &[], (68, 0x01)),
            ("byte 71", &[], (71, 0x80)),
        ];
        for (name, changes, (position, bit)) in cases {
            let record = with(changes);
            assert!(keeps_rules(&record), "{name}");
            assert_eq!(stored(&load(&record).unwrap()), record, "{name}");
            let mut broken = record;
            broken[*position] ^= bit;
            assert_eq!(load(&broken), Err(Refusal::BrokenRecord), "{name}");
        }
        // A held divider with an update breaks a rule of its own: the count is in order for no base.
        assert!(!keeps_rules(&with(&[(10, 0xE0), (11, 0x02), (67, 0x01)])));
    }

    #[test]
    fn bits_that_are_free() {
        for base in [0x00, 0x10, 0x20] {
            for rate in 0..16 {
                for register_b in 0..=255 {
                    assert!(keeps_rules(&with(&[(10, base | rate), (11, register_b)])));
                }
            }
        }
        for byte in 0..=255 {
            assert!(keeps_rules(&with(&[(1, byte), (9, byte), (14, byte), (63, byte)])));
            assert!(keeps_rules(&with(&[(10, 0x00), (64, byte), (65, byte)])));
        }
    }

    #[test]
    fn pending_counts_end_just_below_e() {
        for (register_a, step, end) in [(0x80, 1, 2_064), (0x90, 4, 2_064), (0xA0, 128, 9_344)] {
            for count in (0..12_000u32).step_by(step) {
                let [low, middle, high, _] = count.to_le_bytes();
                let record = with(&[(10, register_a), (11, 0), (64, low), (65, middle), (66, high), (67, 1)]);
                assert_eq!(keeps_rules(&record), count < end);
            }
        }
    }

    #[test]
    fn save_writes_only_its_part_of_the_page() {
        let chip = Chip::fresh();
        for length in [0, 1, 71, 72, 73, 100, 200] {
            for offset in 0..210 {
                let mut page = vec![0xA5; length];
                let fits = offset + 72 <= length;
                let answer = save(&chip, &mut page, offset);
                if fits {
                    assert_eq!(answer, Ok(()));
                    assert_eq!(load(&page[offset..offset + 72]), Ok(chip.clone()));
                    page[offset..offset + 72].fill(0xA5);
                } else {
                    assert_eq!(answer, Err(Refusal::Length));
                }
                assert!(page.iter().all(|&byte| byte == 0xA5));
            }
        }
    }

    #[test]
    fn the_end_of_the_part_never_wraps() {
        let chip = Chip::fresh();
        let mut page = vec![0xA5; 200];
        for back in 0..300 {
            assert_eq!(save(&chip, &mut page, usize::MAX - back), Err(Refusal::Length));
        }
        assert!(page.iter().all(|&byte| byte == 0xA5));
    }
}
