//! Event files from a seed.

use crate::notation::RECORD;
use crate::numbers::Numbers;

/// Bytes that the programs read at once; longer files show that they go on.
const BLOCK: usize = 65_536;

/// Seconds, minutes, hours, weekday, date, month, year: two seconds before something carries.
const MOMENTS: [[u8; 7]; 10] = [
    [58, 59, 23, 6, 31, 12, 99],
    [58, 59, 23, 2, 28, 2, 0],
    [58, 59, 23, 3, 28, 2, 1],
    [58, 59, 23, 7, 30, 4, 26],
    [58, 59, 11, 5, 15, 2, 79],
    [58, 59, 12, 5, 15, 2, 79],
    [58, 59, 1, 1, 25, 10, 26],
    [58, 59, 1, 1, 26, 4, 26],
    [58, 59, 1, 1, 23, 4, 26],
    [8, 9, 9, 7, 9, 9, 9],
];
const CLOCK: [u8; 7] = [0, 2, 4, 6, 7, 8, 9];

/// File number so-and-so of a seed.
pub fn file(seed: u64, number: u64) -> Vec<u8> {
    let mut weaver = Weaver { numbers: Numbers::new(seed, number), file: Vec::new() };
    match number {
        0 => {}
        1..=3 => weaver.part(number),
        _ if number % 50 == 4 => weaver.long(),
        _ => weaver.ordinary(),
    }
    weaver.file
}

/// Many short records for the benchmark: reads and writes of all locations, runs of 0 to 3 ticks.
pub fn bench_file(records: u64) -> Vec<u8> {
    let mut numbers = Numbers::new(146_818, records);
    let mut file = Vec::with_capacity(records as usize * RECORD);
    // BCD, 24-hour, square wave at 8,192 Hz, at 32.768 kHz.
    let start = [[1, 11, 0x0A, 0], [1, 10, 0x23, 0]];
    for record in 0..records {
        let word = numbers.word();
        let (address, value) = ((word >> 8) as u8 % 64, (word >> 16) as u8);
        file.extend(match start.get(record as usize) {
            Some(first) => *first,
            None => match word % 8 {
                0..=3 => [0, address, 0, 0],
                // A and B stay, so that the clock goes on.
                4..=6 => [1, 14 + address % 50, value, 0],
                _ => [2, 0, value % 4, 0],
            },
        });
    }
    file
}

struct Weaver {
    numbers: Numbers,
    file: Vec<u8>,
}

impl Weaver {
    fn record(&mut self, record: [u8; RECORD]) {
        self.file.extend(record);
    }

    /// A record whose unused bytes and bits are sometimes set, since they must not count.
    fn noisy(&mut self, mut record: [u8; RECORD]) {
        if self.numbers.chance(20) {
            let noise = [self.numbers.byte(), self.numbers.byte(), self.numbers.byte()];
            match record[0] {
                0 => record[2..].copy_from_slice(&noise[..2]),
                1 => record[3] = noise[0],
                2 => record[1] = noise[0],
                _ => record = [3, noise[0], record[2] | noise[1] & 0xFC, noise[2]],
            }
        }
        self.record(record);
    }

    fn write(&mut self, address: u8, value: u8) {
        self.noisy([1, address, value, 0]);
    }

    fn run(&mut self, ticks: u64) {
        let full = ticks / u64::from(u16::MAX);
        for ticks in std::iter::repeat_n(u16::MAX, full as usize).chain([(ticks % u64::from(u16::MAX)) as u16]) {
            let [low, high] = ticks.to_le_bytes();
            self.noisy([2, 0, low, high]);
        }
    }

    fn part(&mut self, length: u64) {
        for _ in 0..length {
            let byte = self.numbers.byte();
            self.file.push(byte);
        }
    }

    fn address(&mut self) -> u8 {
        match self.numbers.below(10) {
            0 => self.numbers.byte(),
            1 => self.numbers.between(14, 63) as u8,
            2 => self.numbers.between(62, 66) as u8,
            _ => self.numbers.below(14) as u8,
        }
    }

    /// One event of any kind, with a run that is mostly short.
    fn event(&mut self, most_ticks: u64) {
        let address = self.address();
        let value = self.numbers.byte();
        match self.numbers.below(100) {
            0..=34 => self.noisy([0, address, 0, 0]),
            35..=59 => self.write(address, value),
            60..=61 => {
                let base = self.numbers.pick(&[0x00, 0x10, 0x20, 0x20, 0x60, 0x70, value]);
                self.write(10, base | value & 0x8F);
            }
            62..=84 => {
                let ticks = self.numbers.pick(&[0, 1, 7, 8, 64, 65, 72, 73, 516, 1_024, 2_064]);
                self.run(ticks.min(most_ticks));
            }
            85..=89 => {
                let ticks = self.numbers.below(most_ticks + 1);
                self.run(ticks);
            }
            90..=95 => {
                // Mostly both high, or most calls would be refused.
                let levels = self.numbers.pick(&[0, 1, 2, 3, 3, 3]);
                self.noisy([3, 0, levels, 0]);
            }
            96..=97 => {
                let kind = self.numbers.between(4, 255) as u8;
                self.record([kind, address, value, address]);
            }
            _ => {
                let bytes = self.numbers.word().to_le_bytes();
                self.record([bytes[0] % 5, bytes[1], bytes[2], bytes[3] % 4]);
            }
        }
    }

    /// Sets the clock and the alarm shortly before something happens, and runs over it.
    fn scene(&mut self) {
        let mode = self.numbers.byte() & 0x07;
        let enables = self.numbers.byte() & 0x78;
        let moment = self.numbers.pick(&MOMENTS);
        let (base, step) = self.numbers.pick(&[(0x20, 128), (0x20, 128), (0x20, 128), (0x10, 4), (0x00, 1)]);
        let rate = self.numbers.byte() & 0x0F;
        self.noisy([3, 0, 3, 0]);
        self.write(11, 0x80 | mode);
        // Held first, so that it is known how many ticks the update is away.
        self.write(10, 0x60);
        self.write(10, base | rate);
        for (field, location) in CLOCK.into_iter().enumerate() {
            self.write(location, coded(moment[field], location, mode));
        }
        for location in [0, 2, 4] {
            let mut alarm = coded(moment[usize::from(location / 2)] + u8::from(location == 0), location, mode);
            if self.numbers.chance(30) {
                alarm = self.numbers.pick(&[0xBF, 0xC0, 0xFF, 0]);
            }
            self.write(location + 1, alarm);
        }
        self.write(11, enables | mode);
        let to_edge = 2_097_152 / step;
        self.run(to_edge);
        // Into the update, its closed window or behind it.
        let end = if step == 128 { 9_344 } else { 2_064 };
        let count = self.numbers.below(2 * end);
        self.run(count / step);
        for _ in 0..self.numbers.between(0, 6) {
            self.event(100);
        }
        self.run(10_000 / step);
        self.read_all();
        if step == 128 {
            for _ in 0..self.numbers.between(1, 4) {
                self.run(32_768);
                self.read_all();
            }
        }
    }

    fn read_all(&mut self) {
        for location in CLOCK.into_iter().chain([10, 11, 12, 13]) {
            self.noisy([0, location, 0, 0]);
        }
    }

    fn ordinary(&mut self) {
        for _ in 0..self.numbers.between(1, 4) {
            if self.numbers.chance(70) {
                self.scene();
            }
            for _ in 0..self.numbers.between(1, 300) {
                self.event(2_000);
            }
        }
        // A few runs of the most ticks that a record holds.
        for _ in 0..self.numbers.below(6) {
            self.run(u64::from(u16::MAX));
            self.event(u64::from(u16::MAX));
        }
        let last = self.numbers.below(4);
        self.part(last);
    }

    /// Longer than what the programs read at once, and some files by one byte only.
    fn long(&mut self) {
        let length = match self.numbers.below(3) {
            0 => BLOCK + 1,
            1 => 2 * BLOCK,
            _ => self.numbers.between(1, 5) as usize * BLOCK - 3,
        };
        self.scene();
        while self.file.len() < length {
            self.event(20);
        }
        self.file.truncate(length);
    }
}

/// A number as its clock byte in a mode.
fn coded(number: u8, location: u8, mode: u8) -> u8 {
    let (binary, full_day) = (mode & 0x04 != 0, mode & 0x02 != 0);
    let (number, afternoon) = match number {
        hour if location != 4 || full_day => (hour, 0),
        hour => ((hour + 11) % 12 + 1, if hour >= 12 { 0x80 } else { 0 }),
    };
    afternoon | if binary { number } else { (number / 10) << 4 | (number % 10) }
}

#[cfg(test)]
mod tests {
    use super::*;

    #[test]
    fn a_file_depends_on_seed_and_number_alone() {
        assert!(file(1, 7) == file(1, 7) && file(1, 7) != file(1, 8) && file(1, 7) != file(2, 7));
        assert!(file(1, 0).is_empty());
        assert!((1..=3).all(|length| file(1, length).len() as u64 == length));
        assert!((0..6).all(|number| file(number, 4).len() > BLOCK));
    }

    #[test]
    fn bench_files_have_whole_records() {
        let file = bench_file(1_000);
        assert_eq!(file.len(), 4_000);
        assert!(file.chunks(4).all(|record| record[0] < 3 && record[1] < 64 && (record[0] != 2 || record[2] < 4)));
        assert_eq!(bench_file(1).len(), 4);
    }

    #[test]
    fn hours_in_both_modes() {
        let hours = [(0, 0x12), (1, 0x01), (11, 0x11), (12, 0x92), (13, 0x81), (23, 0x91)];
        assert!(hours.iter().all(|&(hour, byte)| coded(hour, 4, 0) == byte));
        assert_eq!((coded(23, 4, 2), coded(23, 4, 6), coded(59, 0, 0), coded(59, 2, 4)), (0x23, 23, 0x59, 59));
    }
}
