//! The ten calls of libmc146818.a, as `include/mc146818.h` declares them.
//!
//! The types carry what the header asks for: a chip is 72 bytes, a length is that of its buffer, and buffers of one
//! call do not overlap because one of them is borrowed mutably.

/// A chip as the host holds it.
pub type Record = [u8; 72];

mod c {
    extern "C" {
        pub fn mc146818_fresh(chip: *mut u8);
        pub fn mc146818_read(chip: *mut u8, address: u32) -> u32;
        pub fn mc146818_write(chip: *mut u8, address: u32, value: u8) -> u32;
        pub fn mc146818_run(chip: *mut u8, ticks: u32) -> u32;
        pub fn mc146818_pins(chip: *mut u8, levels: u32) -> u32;
        pub fn mc146818_lines(chip: *const u8) -> u32;
        pub fn mc146818_load(chip: *mut u8, input: *const u8, length: usize) -> u32;
        pub fn mc146818_save(chip: *const u8, page: *mut u8, length: usize, offset: usize) -> u32;
        pub fn mc146818_decode(bytes: *const u8, length: usize, mode: u8) -> u64;
        pub fn mc146818_encode(bytes: *mut u8, length: usize, seconds: u64, weekday: u32, mode: u8) -> u32;
    }
}

// SAFETY, for every call below: the pointers come from live borrows of the length that the call is told, and the
// library keeps none of them.

/// Writes a fresh chip.
pub fn fresh(chip: &mut Record) {
    unsafe { c::mc146818_fresh(chip.as_mut_ptr()) }
}

/// Reads an address.
pub fn read(chip: &mut Record, address: u32) -> u32 {
    unsafe { c::mc146818_read(chip.as_mut_ptr(), address) }
}

/// Writes an address.
pub fn write(chip: &mut Record, address: u32, value: u8) -> u32 {
    unsafe { c::mc146818_write(chip.as_mut_ptr(), address, value) }
}

/// Lets ticks pass.
pub fn run(chip: &mut Record, ticks: u32) -> u32 {
    unsafe { c::mc146818_run(chip.as_mut_ptr(), ticks) }
}

/// Sets the pins.
pub fn pins(chip: &mut Record, levels: u32) -> u32 {
    unsafe { c::mc146818_pins(chip.as_mut_ptr(), levels) }
}

/// Shows the lines.
pub fn lines(chip: &Record) -> u32 {
    unsafe { c::mc146818_lines(chip.as_ptr()) }
}

/// Replaces the chip by a saved one.
pub fn load(chip: &mut Record, input: &[u8]) -> u32 {
    unsafe { c::mc146818_load(chip.as_mut_ptr(), input.as_ptr(), input.len()) }
}

/// Saves the chip inside a page.
pub fn save(chip: &Record, page: &mut [u8], offset: usize) -> u32 {
    unsafe { c::mc146818_save(chip.as_ptr(), page.as_mut_ptr(), page.len(), offset) }
}

/// Turns seven bytes into a time.
pub fn decode(bytes: &[u8], mode: u8) -> u64 {
    unsafe { c::mc146818_decode(bytes.as_ptr(), bytes.len(), mode) }
}

/// Turns a time into seven bytes.
pub fn encode(bytes: &mut [u8], seconds: u64, weekday: u32, mode: u8) -> u32 {
    unsafe { c::mc146818_encode(bytes.as_mut_ptr(), bytes.len(), seconds, weekday, mode) }
}
