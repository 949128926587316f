//! A second, independent stand-in for the MC146818 real-time clock plus RAM.
//!
//! It exists to be compared, call by call, with another implementation, so it favours the plainest form of each rule:
//! a run of ticks is a loop over single ticks, and nothing is skipped ahead.
//!
//! * [`calendar`]: how the clock bytes move by one second, and what time they stand for.
//! * [`chip`]: the chip itself: locations, divider, flags and pins.
//! * [`record`]: the 72 bytes of a saved chip.
//! * [`host`]: the calls of a host, answering in result words.
//! * [`events`]: the event program, from bytes to text.

#![forbid(unsafe_code)]
#![warn(missing_docs)]

pub mod calendar;
pub mod chip;
pub mod events;
pub mod host;
pub mod record;
pub mod registers;

/// Why a call was refused. The numbers are those of the table in the specification, "Calls and their refusals".
#[derive(Clone, Copy, Debug, PartialEq, Eq)]
#[repr(u8)]
pub enum Refusal {
    /// A load input that is not 72 bytes, a page that is too short, or a part of an event record.
    Length = 1,
    /// An address above 63.
    Address = 2,
    /// RESET is low, so the part is not accessible.
    ResetLow = 3,
    /// A clock or alarm byte in the closed window of an update.
    ClosedWindow = 4,
    /// A write to register C or D.
    ReadOnly = 5,
    /// A write of a divider test pattern to register A.
    TestPattern = 6,
    /// More ticks than one call takes.
    TooManyTicks = 7,
    /// 72 bytes that break a record rule.
    BrokenRecord = 8,
    /// Not a valid time, or not seven bytes.
    InvalidTime = 9,
    /// An event kind that does not exist.
    UnknownKind = 10,
}

impl Refusal {
    /// The number of this refusal in the specification's table.
    pub const fn number(self) -> u8 {
        self as u8
    }
}

#[cfg(test)]
mod tests {
    use super::Refusal;

    #[test]
    fn refusals_are_numbered_as_in_the_table() {
        let in_order = [
            Refusal::Length,
            Refusal::Address,
            Refusal::ResetLow,
            Refusal::ClosedWindow,
            Refusal::ReadOnly,
            Refusal::TestPattern,
            Refusal::TooManyTicks,
            Refusal::BrokenRecord,
            Refusal::InvalidTime,
            Refusal::UnknownKind,
        ];
        for (refusal, number) in in_order.into_iter().zip(1..) {
            assert_eq!(refusal.number(), number);
        }
    }
}
