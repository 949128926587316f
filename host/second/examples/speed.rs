//! Measures the speed of ticks and of host calls.

use second::chip::Chip;
use second::host;
use std::hint::black_box;
use std::time::Instant;

fn main() {
    for (name, register_a) in [("4.194304 MHz", 0x06), ("1.048576 MHz", 0x16), ("32.768 kHz", 0x26)] {
        let mut chip = Chip::fresh();
        for (address, value) in [(11, 0x02), (10, register_a)] {
            chip.write(address, value).expect("an open chip");
        }
        let start = Instant::now();
        for _ in 0..100 {
            for ticks in [65_536; 15].into_iter().chain([16_960]) {
                black_box(&mut chip).run(ticks).expect("few enough ticks");
            }
        }
        println!("{name}: 1,000,000 ticks in {:?}", start.elapsed() / 100);
    }

    let mut record = [0; 72];
    host::fresh(&mut record);
    let calls = 10_000_000;
    let start = Instant::now();
    for number in 0..calls {
        black_box(host::read(black_box(&mut record), black_box(number % 64)));
    }
    println!("host read: {:?}", start.elapsed() / calls);
    let start = Instant::now();
    for number in 0..calls {
        black_box(host::write(black_box(&mut record), black_box(14 + number % 50), number as u8));
    }
    println!("host write: {:?}", start.elapsed() / calls);
    let start = Instant::now();
    let mut seven = [0; 7];
    for number in 0..calls / 10 {
        black_box(host::encode(black_box(&mut seven), u64::from(number) * 3_155, 1, 0));
        black_box(host::decode(black_box(&seven), 0));
    }
    println!("encode and decode: {:?}", start.elapsed() / (calls / 10));
}
