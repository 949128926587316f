//! The calls of a host that keeps its chip as 72 bytes, with their result words.
//!
//! The names are those of the C interface without their prefix. A word holds the byte in bits 0 to 7 and the answer in
//! bits 8 to 15; `decode`'s wider word holds the seconds in bits 0 to 31, the weekday in 32 to 39 and the answer in 40
//! to 47. Every call on a chip first loads it, so that a broken chip is refused with 8 ahead of all else (the specification,
//! "Calls and their refusals").

use crate::calendar::{self, Clock, Mode, Time};
use crate::chip::Chip;
use crate::record::{self, Record};
use crate::Refusal;

/// What a refused read shows in place of a byte.
pub const REFUSED_BYTE: u8 = 255;

/// Where the answer stands in an ordinary word.
const ANSWER: u32 = 8;
/// Where the weekday stands in a wide word.
const WIDE_SECOND: u32 = 32;
/// Where the answer stands in a wide word.
const WIDE_ANSWER: u32 = 40;

/// The word of a call other than read: a refused one shows byte 0.
fn word(answer: Result<u8, Refusal>) -> u32 {
    match answer {
        Ok(byte) => u32::from(byte),
        Err(refusal) => u32::from(refusal.number()) << ANSWER,
    }
}

/// Loads the chip, lends it to a call, and stores it where the call was accepted.
fn on_chip<T>(record: &mut Record, call: impl FnOnce(&mut Chip) -> Result<T, Refusal>) -> Result<T, Refusal> {
    let mut chip = record::load_record(record)?;
    let answer = call(&mut chip)?;
    record::store(&chip, record);
    Ok(answer)
}

/// Writes a fresh chip over whatever stood there.
pub fn fresh(chip: &mut Record) {
    record::store(&Chip::fresh(), chip);
}

/// Reads an address. A refused read shows byte 255, also on a chip that does not load.
pub fn read(chip: &mut Record, address: u32) -> u32 {
    match on_chip(chip, |chip| chip.read(address)) {
        Ok(byte) => u32::from(byte),
        Err(refusal) => word(Err(refusal)) | u32::from(REFUSED_BYTE),
    }
}

/// Writes an address.
pub fn write(chip: &mut Record, address: u32, value: u8) -> u32 {
    word(on_chip(chip, |chip| chip.write(address, value).map(|()| 0)))
}

/// Lets ticks pass.
pub fn run(chip: &mut Record, ticks: u32) -> u32 {
    word(on_chip(chip, |chip| chip.run(ticks).map(|()| 0)))
}

/// Sets the pins: bit 0 is RESET high, bit 1 is PS high.
pub fn pins(chip: &mut Record, levels: u32) -> u32 {
    word(on_chip(chip, |chip| {
        chip.pins(levels & 1 != 0, levels & 2 != 0);
        Ok(0)
    }))
}

/// The lines: bit 0 is IRQ asserted, bit 1 is SQW high.
pub fn lines(chip: &Record) -> u32 {
    word(record::load_record(chip).map(|chip| {
        let lines = chip.lines();
        u8::from(lines.irq) | u8::from(lines.sqw) << 1
    }))
}

/// Replaces the chip by the one that the input holds. The old chip need not load.
pub fn load(chip: &mut Record, input: &[u8]) -> u32 {
    word(record::load(input).map(|loaded| {
        record::store(&loaded, chip);
        0
    }))
}

/// Saves the chip inside a page at an offset.
pub fn save(chip: &Record, page: &mut [u8], offset: usize) -> u32 {
    word(record::load_record(chip).and_then(|chip| record::save(&chip, page, offset)).map(|()| 0))
}

/// Turns seven clock bytes into a time. The mode is a register B byte.
pub fn decode(bytes: &[u8], mode: u8) -> u64 {
    let time = <[u8; 7]>::try_from(bytes)
        .ok()
        .and_then(|bytes| calendar::decode(Mode::from_register_b(mode), Clock::from_bytes(bytes)));
    match time {
        Some(time) => u64::from(time.seconds) | u64::from(time.weekday) << WIDE_SECOND,
        None => u64::from(Refusal::InvalidTime.number()) << WIDE_ANSWER,
    }
}

/// Turns a time into seven clock bytes. A refused call fills the buffer with zeros, whatever its length.
pub fn encode(bytes: &mut [u8], seconds: u64, weekday: u32, mode: u8) -> u32 {
    // A number too large for a time's own type is out of range anyway.
    let clock = u32::try_from(seconds)
        .ok()
        .zip(u8::try_from(weekday).ok())
        .and_then(|(seconds, weekday)| calendar::encode(Mode::from_register_b(mode), Time { weekday, seconds }));
    match (clock, <&mut [u8; 7]>::try_from(&mut *bytes)) {
        (Some(clock), Ok(seven)) => {
            *seven = clock.to_bytes();
            0
        }
        _ => {
            bytes.fill(0);
            word(Err(Refusal::InvalidTime))
        }
    }
}

#[cfg(test)]
mod tests {
    use super::*;

    fn fresh_chip() -> Record {
        let mut chip = [0xEE; 72];
        fresh(&mut chip);
        chip
    }

    /// A chip whose update has reached its closed window.
    fn chip_in_window() -> Record {
        let mut chip = fresh_chip();
        assert_eq!(write(&mut chip, 11, 0x02), 0);
        assert_eq!(write(&mut chip, 10, 0x20), 0);
        assert_eq!(run(&mut chip, 16_384 + 8), 0);
        chip
    }

    fn refused(number: u32) -> u32 {
        number << 8
    }

    #[test]
    fn the_printed_example_as_host_calls() {
        let mut chip = fresh_chip();
        assert_eq!(write(&mut chip, 14, 0xA5), 0);
        assert_eq!(read(&mut chip, 14), 165);
        assert_eq!(write(&mut chip, 12, 1), refused(5));
        assert_eq!(read(&mut chip, 64), refused(2) | 255);
        assert_eq!(lines(&chip), 0);
    }

    #[test]
    fn each_refusal_and_its_order() {
        let mut chip = chip_in_window();
        let before = chip;
        // 2 ahead of everything, whatever the chip does.
        for address in [64, 74, 76, 255, 266, u32::MAX] {
            assert_eq!(read(&mut chip, address), refused(2) | 255);
            assert_eq!(write(&mut chip, address, 0x30), refused(2));
        }
        // 4 in the window, 5 and 6 beside it.
        for address in 0..10 {
            assert_eq!(read(&mut chip, address), refused(4) | 255);
            assert_eq!(write(&mut chip, address, 0x30), refused(4));
        }
        assert_eq!(write(&mut chip, 12, 0x30), refused(5));
        assert_eq!(write(&mut chip, 13, 0x30), refused(5));
        for value in [0x30, 0x40, 0x50, 0xB0, 0xCF, 0xDF] {
            assert_eq!(write(&mut chip, 10, value), refused(6));
        }
        assert_eq!(run(&mut chip, 65_537), refused(7));
        assert_eq!(run(&mut chip, u32::MAX), refused(7));
        assert_eq!(chip, before);
        // 3 ahead of 4, 5 and 6, behind 2; 7 as ever.
        assert_eq!(pins(&mut chip, 2), 0);
        let before = chip;
        for address in 0..64 {
            assert_eq!(read(&mut chip, address), refused(3) | 255);
            assert_eq!(write(&mut chip, address, 0x30), refused(3));
        }
        assert_eq!(read(&mut chip, 64), refused(2) | 255);
        assert_eq!(write(&mut chip, 64, 0), refused(2));
        assert_eq!(run(&mut chip, 65_537), refused(7));
        assert_eq!(chip, before);
    }

    #[test]
    fn a_chip_that_does_not_load_is_refused_ahead_of_everything() {
        let mut broken = fresh_chip();
        broken[71] = 1;
        let before = broken;
        let mut page = [0xA5; 100];
        for address in [0, 12, 64, u32::MAX] {
            assert_eq!(read(&mut broken, address), refused(8) | 255);
            assert_eq!(write(&mut broken, address, 0x30), refused(8));
        }
        assert_eq!(run(&mut broken, 0), refused(8));
        assert_eq!(run(&mut broken, 65_537), refused(8));
        assert_eq!(pins(&mut broken, 3), refused(8));
        assert_eq!(lines(&broken), refused(8));
        assert_eq!(save(&broken, &mut page, 0), refused(8));
        // Also ahead of the page's own refusal.
        assert_eq!(save(&broken, &mut page, 29), refused(8));
        assert_eq!(save(&broken, &mut page, usize::MAX), refused(8));
        assert_eq!(save(&broken, &mut [], 0), refused(8));
        assert_eq!(broken, before);
        assert_eq!(page, [0xA5; 100]);
        // Only these two replace it.
        assert_eq!(load(&mut broken, &fresh_chip()), 0);
        assert_eq!(broken, fresh_chip());
        broken[0] = 0xFF;
        fresh(&mut broken);
        assert_eq!(broken, fresh_chip());
    }

    #[test]
    fn pins_and_no_ticks_are_never_refused_on_a_chip_that_loads() {
        for start in [fresh_chip(), chip_in_window()] {
            for levels in [0, 1, 2, 3, 4, 0xFFFF_FFFC, u32::MAX] {
                let mut chip = start;
                assert_eq!(pins(&mut chip, levels), 0);
                assert_eq!(chip[67] & 0x06, (!levels & 3) as u8 * 2);
                let before = chip;
                assert_eq!(run(&mut chip, 0), 0);
                assert_eq!(chip, before);
                assert_eq!(pins(&mut chip, levels), 0);
                assert_eq!(chip, before);
                assert_eq!(run(&mut chip, 65_536), 0);
            }
        }
    }

    #[test]
    fn load_refuses_with_1_and_8_and_leaves_the_chip() {
        let mut chip = chip_in_window();
        let before = chip;
        let mut broken = fresh_chip();
        broken[12] = 0x80;
        assert_eq!(load(&mut chip, &[]), refused(1));
        assert_eq!(load(&mut chip, &broken[..71]), refused(1));
        assert_eq!(load(&mut chip, &[0xFF; 73]), refused(1));
        assert_eq!(load(&mut chip, &broken), refused(8));
        assert_eq!(chip, before);
        let good = fresh_chip();
        assert_eq!(load(&mut chip, &good), 0);
        assert_eq!(chip, good);
    }

    #[test]
    fn saved_chips_come_back() {
        let mut chip = chip_in_window();
        let mut page = [0xA5; 200];
        assert_eq!(save(&chip, &mut page, 128), 0);
        assert_eq!(page[128..], chip);
        assert!(page[..128].iter().all(|&byte| byte == 0xA5));
        assert_eq!(save(&chip, &mut page, 129), refused(1));
        assert_eq!(save(&chip, &mut page, usize::MAX), refused(1));
        assert_eq!(save(&chip, &mut page, usize::MAX - 71), refused(1));
        let mut copy = fresh_chip();
        assert_eq!(load(&mut copy, &page[128..]), 0);
        // Both go on alike: over the end of the update, and into the next.
        for _ in 0..3 {
            assert_eq!(run(&mut chip, 16_000), 0);
            assert_eq!(run(&mut copy, 16_000), 0);
            assert_eq!(read(&mut chip, 12), read(&mut copy, 12));
            assert_eq!(chip, copy);
        }
        // The updates of ticks 16,457 and 49,225 after release.
        assert_eq!(chip[0], 2);
    }

    #[test]
    fn the_lines_word() {
        // SQW through the tap of rate 15, IRQ through PF.
        let mut chip = fresh_chip();
        write(&mut chip, 11, 0x48);
        write(&mut chip, 10, 0x2F);
        assert_eq!(lines(&chip), 0);
        assert_eq!(run(&mut chip, 8_192), 0);
        assert_eq!(lines(&chip), 3);
        assert_eq!(read(&mut chip, 12), 0xC0);
        assert_eq!(lines(&chip), 2);
        assert_eq!(run(&mut chip, 8_192), 0);
        assert_eq!(lines(&chip), 0);
        assert_eq!(run(&mut chip, 16_384), 0);
        assert_eq!(write(&mut chip, 11, 0x40), 0);
        assert_eq!(lines(&chip), 1);
    }

    #[test]
    fn calls_of_one_tick_equal_one_call_of_many() {
        let mut single = fresh_chip();
        write(&mut single, 11, 0x7A);
        write(&mut single, 10, 0x26);
        let mut together = single;
        for _ in 0..40_000 {
            assert_eq!(run(&mut single, 1), 0);
        }
        assert_eq!(run(&mut together, 40_000), 0);
        assert_eq!(single, together);
    }

    #[test]
    fn decode_words() {
        let bytes = [0x21, 0x58, 0x05, 0x05, 0x15, 0x02, 0x79];
        let expected = 2_496_981_501 | 5 << 32;
        for mode in 0..=255u8 {
            if mode & 0x04 == 0 {
                assert_eq!(decode(&bytes, mode), expected);
            } else {
                // The same bytes taken as binary: 88 minutes are no minutes.
                assert_eq!(decode(&bytes, mode), 9 << 40);
            }
        }
        assert_eq!(decode(&[0x15, 0x3A, 0x05, 0x05, 0x0F, 0x02, 0x4F], 0xFF), expected);
        assert_eq!(decode(&[0x59, 0x59, 0x23, 0x07, 0x31, 0x12, 0x99], 0x02), 3_155_759_999 | 7 << 32);
        assert_eq!(decode(&[0, 0, 0, 1, 1, 1, 0], 0x02), 1 << 32);
        // 12 AM is hour 0, 12 PM is hour 12.
        assert_eq!(decode(&[0, 0, 0x12, 1, 1, 1, 0], 0x00), 1 << 32);
        assert_eq!(decode(&[0, 0, 0x92, 1, 1, 1, 0], 0x00), 43_200 | 1 << 32);
        assert_eq!(decode(&[0, 0, 0x00, 1, 1, 1, 0], 0x00), 9 << 40);
        for length in (0..20).filter(|&length| length != 7) {
            assert_eq!(decode(&vec![1; length], 0x02), 9 << 40);
        }
    }

    #[test]
    fn encode_words_and_buffers() {
        let mut seven = [0xEE; 7];
        for mode in 0..=255u8 {
            assert_eq!(encode(&mut seven, 2_496_981_501, 5, mode), 0);
            let expected = if mode & 0x04 == 0 {
                [0x21, 0x58, 0x05, 0x05, 0x15, 0x02, 0x79]
            } else {
                [0x15, 0x3A, 0x05, 0x05, 0x0F, 0x02, 0x4F]
            };
            assert_eq!(seven, expected);
            assert_eq!(decode(&seven, mode), 2_496_981_501 | 5 << 32);
        }
        let bad_times = [
            (0, 0),
            (0, 8),
            (0, 257),
            (0, u32::MAX),
            (3_155_760_000, 1),
            (u64::from(u32::MAX), 1),
            (1 << 32, 1),
            (u64::MAX, 1),
        ];
        for (seconds, weekday) in bad_times {
            for length in 0..20 {
                let mut buffer = vec![0xEE; length];
                assert_eq!(encode(&mut buffer, seconds, weekday, 0x02), refused(9));
                assert_eq!(buffer, vec![0; length]);
            }
        }
        for length in (0..300).filter(|&length| length != 7) {
            let mut buffer = vec![0xEE; length];
            assert_eq!(encode(&mut buffer, 0, 1, 0x02), refused(9));
            assert_eq!(buffer, vec![0; length]);
        }
        for (seconds, weekday) in [(0, 1), (0, 7), (3_155_759_999, 1), (3_155_759_999, 7)] {
            assert_eq!(encode(&mut seven, seconds, weekday, 0x02), 0);
            assert_eq!(decode(&seven, 0x02), seconds | u64::from(weekday) << 32);
        }
    }

    #[test]
    fn every_day_through_the_host_calls() {
        let mut seven = [0; 7];
        for mode in [0x00, 0x02, 0x04, 0x06] {
            for day in 0..36_525 {
                let seconds = day * 86_400 + day % 86_400;
                let weekday = (day % 7) as u32 + 1;
                assert_eq!(encode(&mut seven, seconds, weekday, mode), 0);
                assert_eq!(decode(&seven, mode), seconds | u64::from(weekday) << 32);
            }
        }
    }

    #[test]
    fn the_october_mark_is_kept_in_the_saved_chip() {
        let mut chip = fresh_chip();
        let set_time = |chip: &mut Record, hours| {
            for (address, value) in [(0, 0x59), (2, 0x59), (4, hours)] {
                assert_eq!(write(chip, address, value), 0);
            }
        };
        for (address, value) in [(6, 0x01), (7, 0x25), (8, 0x10), (9, 0x81), (11, 0x03), (10, 0x20)] {
            assert_eq!(write(&mut chip, address, value), 0);
        }
        set_time(&mut chip, 0x01);
        assert_eq!(run(&mut chip, 16_457), 0);
        assert_eq!((read(&mut chip, 4), chip[67]), (0x01, 0x08));
        set_time(&mut chip, 0x01);
        assert_eq!(run(&mut chip, 32_768), 0);
        assert_eq!((read(&mut chip, 4), chip[67]), (0x02, 0x08));
        // The mark works alike where it comes from a loaded record.
        let mut page = [0; 72];
        assert_eq!(save(&chip, &mut page, 0), 0);
        fresh(&mut chip);
        assert_eq!(load(&mut chip, &page), 0);
        set_time(&mut chip, 0x23);
        assert_eq!(run(&mut chip, 32_768), 0);
        assert_eq!((read(&mut chip, 7), chip[67]), (0x26, 0x00));
    }

    #[test]
    fn the_plate_room_second_on_a_running_chip() {
        // The end of the century, through writes, a whole update and reads.
        let mut chip = fresh_chip();
        let before = [(0, 0x59), (2, 0x59), (4, 0x23), (6, 0x06), (7, 0x31), (8, 0x12), (9, 0x99)];
        let after = [(0, 0x00), (2, 0x00), (4, 0x00), (6, 0x07), (7, 0x01), (8, 0x01), (9, 0x00)];
        for (address, value) in before {
            assert_eq!(write(&mut chip, address, value), 0);
        }
        assert_eq!(write(&mut chip, 11, 0x02), 0);
        assert_eq!(write(&mut chip, 10, 0x20), 0);
        assert_eq!(run(&mut chip, 16_456), 0);
        assert_eq!(read(&mut chip, 0), refused(4) | 255);
        assert_eq!(run(&mut chip, 1), 0);
        for (address, value) in after {
            assert_eq!(read(&mut chip, address), value);
        }
    }
}
