//! The event program: 4-byte records in, one line of decimals out for each (the specification, "Saved chip and event file").

use crate::chip::Chip;
use crate::host::REFUSED_BYTE;
use crate::Refusal;
use std::io::{self, ErrorKind, Read, Write};

/// The length of a record.
const RECORD: usize = 4;

/// The last record that gets a line.
const LAST_RECORD: u64 = 4_294_967_295;

/// How many bytes are asked for at once.
const BLOCK: usize = 1 << 16;

/// Runs the event program from a fresh chip until the input ends.
///
/// The lines of a block are written together and flushed, so that a partner at the other end of a pipe sees all of them
/// before more input is awaited.
pub fn run(input: impl Read, output: impl Write) -> io::Result<()> {
    Program::new().run(input, output)
}

/// What the event program prints for these bytes.
pub fn text(bytes: &[u8]) -> String {
    let mut lines = Vec::new();
    // Neither a slice nor a vector ever fails, and the lines are plain digits and spaces.
    run(bytes, &mut lines).expect("reading and writing memory");
    String::from_utf8(lines).expect("lines of decimals")
}

/// The chip and how many lines it has given so far.
struct Program {
    chip: Chip,
    lines_given: u64,
}

impl Program {
    fn new() -> Program {
        Program { chip: Chip::fresh(), lines_given: 0 }
    }

    fn run(mut self, mut input: impl Read, mut output: impl Write) -> io::Result<()> {
        let mut block = vec![0; BLOCK];
        let mut filled = 0;
        let mut lines = Vec::new();
        while self.lines_given < LAST_RECORD {
            let received = match input.read(&mut block[filled..]) {
                Ok(received) => received,
                Err(error) if error.kind() == ErrorKind::Interrupted => continue,
                Err(error) => return Err(error),
            };
            if received == 0 {
                if filled > 0 {
                    self.give_line(Err(Refusal::Length), 0, &mut lines);
                    output.write_all(&lines)?;
                }
                break;
            }
            filled += received;
            let records = block[..filled].chunks_exact(RECORD);
            let rest = records.remainder().len();
            for record in records {
                if self.lines_given == LAST_RECORD {
                    break;
                }
                self.take_record(record, &mut lines);
            }
            block.copy_within(filled - rest..filled, 0);
            filled = rest;
            output.write_all(&lines)?;
            output.flush()?;
            lines.clear();
        }
        output.flush()
    }

    /// Does what one whole record says and gives its line.
    fn take_record(&mut self, record: &[u8], lines: &mut Vec<u8>) {
        let (kind, address, low, high) = (record[0], u32::from(record[1]), record[2], record[3]);
        let mut byte_of_refusal = 0;
        let answer = match kind {
            0 => {
                byte_of_refusal = REFUSED_BYTE;
                self.chip.read(address)
            }
            1 => self.chip.write(address, low).map(|()| 0),
            2 => self.chip.run(u32::from(u16::from_le_bytes([low, high]))).map(|()| 0),
            3 => {
                self.chip.pins(low & 1 != 0, low & 2 != 0);
                Ok(0)
            }
            _ => Err(Refusal::UnknownKind),
        };
        self.give_line(answer, byte_of_refusal, lines);
    }

    /// Appends a line with the lines of the chip as they now stand.
    fn give_line(&mut self, answer: Result<u8, Refusal>, byte_of_refusal: u8, lines: &mut Vec<u8>) {
        self.lines_given += 1;
        let (answer, byte) = match answer {
            Ok(byte) => (0, byte),
            Err(refusal) => (refusal.number(), byte_of_refusal),
        };
        let levels = self.chip.lines();
        push_decimal(lines, self.lines_given);
        for number in [answer, byte, u8::from(levels.irq), u8::from(levels.sqw)] {
            lines.push(b' ');
            push_decimal(lines, u64::from(number));
        }
        lines.push(b'\n');
    }
}

/// Appends a number in decimal. Written out because formatting would take most of the program's time.
fn push_decimal(text: &mut Vec<u8>, mut number: u64) {
    // The largest number of 64 bits has 20 digits.
    let mut digits = [0; 20];
    let mut first = digits.len();
    loop {
        first -= 1;
        digits[first] = b'0' + (number % 10) as u8;
        number /= 10;
        if number == 0 {
            break;
        }
    }
    text.extend_from_slice(&digits[first..]);
}

#[cfg(test)]
mod tests {
    use super::*;

    const PRINTED_INPUT: [u8; 16] =
        [0x01, 0x0E, 0xA5, 0x00, 0x00, 0x0E, 0x00, 0x00, 0x01, 0x0C, 0x01, 0x00, 0x00, 0x40, 0x00, 0x00];

    #[test]
    fn the_printed_example() {
        assert_eq!(text(&PRINTED_INPUT), "1 0 0 0 0\n2 0 165 0 0\n3 5 0 0 0\n4 2 255 0 0\n");
    }

    #[test]
    fn empty_input_prints_nothing() {
        assert_eq!(text(&[]), "");
    }

    #[test]
    fn part_records_answer_1_whatever_their_first_byte() {
        for first in 0..=255 {
            assert_eq!(text(&[first]), "1 1 0 0 0\n");
            assert_eq!(text(&[first, 0x40]), "1 1 0 0 0\n");
            assert_eq!(text(&[first, 0x40, 0]), "1 1 0 0 0\n");
        }
        assert_eq!(text(&[0, 10, 0, 0, 0, 10]), "1 0 96 0 0\n2 1 0 0 0\n");
    }

    #[test]
    fn kinds_above_3_are_refused() {
        for kind in 4..=255 {
            assert_eq!(text(&[kind, 10, 0xFF, 0xFF]), "1 10 0 0 0\n");
        }
    }

    #[test]
    fn what_a_record_does_not_use_is_ignored() {
        // Read ignores both values, write the high one, pins all but two bits.
        let noisy = [
            [0, 10, 0xFF, 0xFF],
            [1, 63, 0x5A, 0xFF],
            [0, 63, 0x01, 0x02],
            [3, 0xFF, 0xFF, 0xFF],
            [3, 0xFF, 0xFE, 0xFF],
            [0, 63, 0, 0],
            [3, 0xFF, 0xFD, 0x00],
            [0, 13, 0, 0],
            [0, 13, 0, 0],
            [3, 0x00, 0x03, 0x00],
            [0, 13, 0, 0],
            [0, 13, 0, 0],
        ];
        let expected = "1 0 96 0 0\n2 0 0 0 0\n3 0 90 0 0\n4 0 0 0 0\n5 0 0 0 0\n6 3 255 0 0\n7 0 0 0 0\n\
                        8 0 0 0 0\n9 0 0 0 0\n10 0 0 0 0\n11 0 0 0 0\n12 0 128 0 0\n";
        assert_eq!(text(&noisy.concat()), expected);
    }

    #[test]
    fn every_refusal_of_the_program_with_the_lines_as_they_stand() {
        let records = [
            [1, 11, 0x4A, 0],   // SET 0, PIE, SQWE, 24-hour
            [1, 10, 0x2F, 0],   // 32.768 kHz, rate 15
            [2, 9, 0x00, 0x20], // 8,192 ticks: the tap rises
            [0, 64, 0, 0],      // 2
            [1, 10, 0x30, 0],   // 6
            [1, 13, 0, 0],      // 5
            [9, 0, 0, 0],       // 10
            [0, 12, 0, 0],      // clears the line
            [2, 0, 0x08, 0x20], // 8,200 more: inside the closed window
            [0, 0, 0, 0],       // 4
            [1, 9, 0, 0],       // 4
            [0, 10, 0, 0],      // UIP
            [3, 0, 2, 0],       // RESET low
            [0, 0, 0, 0],       // 3
            [1, 12, 0, 0],      // 3
            [0, 255, 0, 0],     // 2 ahead of 3
            [2, 0, 0xFF, 0xFF], // the most ticks a record can ask for
            [3, 0, 3, 0],       // RESET high
            [0, 0, 0, 0],       // two updates have ended
        ];
        let mut bytes = records.concat();
        bytes.push(77);
        let expected = "1 0 0 0 0\n2 0 0 0 0\n3 0 0 1 1\n4 2 255 1 1\n5 6 0 1 1\n6 5 0 1 1\n7 10 0 1 1\n8 0 192 0 1\n\
                        9 0 0 0 0\n10 4 255 0 0\n11 4 0 0 0\n12 0 175 0 0\n13 0 0 0 0\n14 3 255 0 0\n15 3 0 0 0\n\
                        16 2 255 0 0\n17 0 0 0 0\n18 0 0 0 0\n19 0 2 0 0\n20 1 0 0 0\n";
        assert_eq!(text(&bytes), expected);
    }

    #[test]
    fn part_record_lines_show_irq_and_sqw() {
        let bytes = [1, 11, 0x48, 0, 1, 10, 0x2F, 0, 2, 0, 0, 0x20, 200];
        assert_eq!(text(&bytes), "1 0 0 0 0\n2 0 0 0 0\n3 0 0 1 1\n4 1 0 1 1\n");
    }

    /// A reader that gives a few bytes at a time and is interrupted in between.
    struct Trickle<'a> {
        bytes: &'a [u8],
        portion: usize,
        interrupt: bool,
    }

    impl Read for Trickle<'_> {
        fn read(&mut self, buffer: &mut [u8]) -> io::Result<usize> {
            self.interrupt = !self.interrupt;
            if self.interrupt {
                return Err(ErrorKind::Interrupted.into());
            }
            let number = self.portion.min(buffer.len()).min(self.bytes.len());
            let (now, later) = self.bytes.split_at(number);
            buffer[..number].copy_from_slice(now);
            self.bytes = later;
            Ok(number)
        }
    }

    #[test]
    fn the_text_does_not_depend_on_how_the_input_arrives() {
        let mut bytes = Vec::new();
        for number in 0..60_000u32 {
            bytes.extend_from_slice(&[(number % 5) as u8, (number % 71) as u8, (number % 253) as u8, 0]);
        }
        bytes.extend_from_slice(&[1, 2, 3]);
        let expected = text(&bytes);
        assert_eq!(expected.lines().count(), 60_001);
        for portion in [1, 3, 5, 4_095, BLOCK - 1, BLOCK, BLOCK + 1] {
            let mut lines = Vec::new();
            run(Trickle { bytes: &bytes, portion, interrupt: false }, &mut lines).unwrap();
            assert!(lines == expected.as_bytes());
        }
    }

    #[test]
    fn the_program_stops_before_record_4294967296() {
        let start = || Program { chip: Chip::fresh(), lines_given: LAST_RECORD - 2 };
        let printed = |input: &[u8]| {
            let mut lines = Vec::new();
            start().run(input, &mut lines).unwrap();
            String::from_utf8(lines).unwrap()
        };
        let two_lines = "4294967294 0 0 0 0\n4294967295 0 165 0 0\n";
        assert_eq!(printed(&PRINTED_INPUT), two_lines);
        assert_eq!(printed(&PRINTED_INPUT[..8]), two_lines);
        // A part-record would be the next record, so it gets no line either.
        assert_eq!(printed(&PRINTED_INPUT[..9]), two_lines);
        assert_eq!(printed(&PRINTED_INPUT[..5]), "4294967294 0 0 0 0\n4294967295 1 0 0 0\n");
    }

    #[test]
    fn errors_of_the_writer_come_back() {
        struct Closed;
        impl Write for Closed {
            fn write(&mut self, _: &[u8]) -> io::Result<usize> {
                Err(ErrorKind::BrokenPipe.into())
            }
            fn flush(&mut self) -> io::Result<()> {
                Ok(())
            }
        }
        let error = run(PRINTED_INPUT.as_slice(), Closed).unwrap_err();
        assert_eq!(error.kind(), ErrorKind::BrokenPipe);
        assert_eq!(run([1u8].as_slice(), Closed).unwrap_err().kind(), ErrorKind::BrokenPipe);
    }

    #[test]
    fn decimals() {
        for number in [0, 1, 9, 10, 99, 100, 255, 4_294_967_295, u64::MAX] {
            let mut text = Vec::new();
            push_decimal(&mut text, number);
            assert_eq!(text, number.to_string().into_bytes());
        }
    }
}
