//! Makes a sequence that shows a difference as small as it can.

use crate::calls::{Call, Sequence};
use crate::faults::Fault;
use crate::sides::{replay, Difference};

/// One simplification can make room for another; a few rounds find nearly all of them.
const ROUNDS: u32 = 10;

struct Shrinker {
    fault: Option<&'static Fault>,
    best: Sequence,
    difference: Difference,
}

/// The smallest sequence found that still shows a difference, and that difference.
pub fn shrink(sequence: Sequence, difference: Difference, fault: Option<&'static Fault>) -> (Sequence, Difference) {
    let mut shrinker = Shrinker { fault, best: sequence, difference };
    shrinker.cut_behind();
    // Most differences need the chip before the call and nothing else.
    let last = shrinker.best.calls[shrinker.difference.call].clone();
    shrinker.try_with(|best, chip| (best.start, best.calls) = (chip, vec![last]));
    shrinker.drop_calls();
    for _ in 0..ROUNDS {
        let before = shrinker.best.clone();
        shrinker.simplify_start();
        shrinker.simplify_calls();
        if shrinker.best == before {
            break;
        }
    }
    (shrinker.best, shrinker.difference)
}

impl Shrinker {
    /// Takes a changed sequence if it still shows a difference. The change is given the chip before the differing call.
    fn try_with(&mut self, change: impl FnOnce(&mut Sequence, [u8; 72])) -> bool {
        let mut changed = self.best.clone();
        change(&mut changed, self.difference.chip);
        if changed == self.best {
            return false;
        }
        match replay(&changed, self.fault) {
            Some(difference) => {
                (self.best, self.difference) = (changed, difference);
                self.cut_behind();
                true
            }
            None => false,
        }
    }

    /// Nothing behind the differing call matters.
    fn cut_behind(&mut self) {
        self.best.calls.truncate(self.difference.call + 1);
    }

    /// Drops runs of calls: long ones first, then shorter ones, then single calls.
    fn drop_calls(&mut self) {
        let mut size = self.best.calls.len() / 2;
        while size > 0 {
            let mut from = 0;
            while from + size <= self.best.calls.len() {
                if !self.try_with(|best, _| drop(best.calls.drain(from..from + size))) {
                    from += size;
                }
            }
            size /= 2;
        }
    }

    /// Brings the start nearer to a fresh chip, byte by byte and then bit by bit.
    fn simplify_start(&mut self) {
        let mut fresh = [0; 72];
        archive::fresh(&mut fresh);
        self.try_with(|best, _| best.shift = 0);
        self.try_with(|best, _| best.start = fresh);
        for (place, byte) in fresh.into_iter().enumerate() {
            self.try_with(|best, _| best.start[place] = byte);
            self.try_with(|best, _| best.start[place] = 0);
            for bit in 0..8 {
                if self.best.start[place] >> bit & 1 == 1 {
                    self.try_with(|best, _| best.start[place] &= !(1 << bit));
                }
            }
        }
    }

    fn simplify_calls(&mut self) {
        for number in 0..self.best.calls.len() {
            self.shorten_run(number);
            for step in 0..72 {
                self.try_with(|best, _| best.calls.get_mut(number).into_iter().for_each(|call| simplify(call, step)));
            }
        }
    }

    /// Halves a run, from its end or from its start. The ticks left out at the start are run beforehand.
    fn shorten_run(&mut self, number: usize) {
        while let Some(&Call::Run { ticks: ticks @ 2..=65_536 }) = self.best.calls.get(number) {
            let half = ticks / 2;
            let shorter = |ticks| Call::Run { ticks };
            let from_end = self.try_with(|best, _| best.calls[number] = shorter(half));
            let from_start = !from_end
                && number == 0
                && self.try_with(|best, _| {
                    archive::run(&mut best.start, half);
                    best.calls[0] = shorter(ticks - half);
                });
            if !from_end && !from_start {
                return;
            }
        }
    }
}

/// One step towards a simpler call. Steps that a call does not have leave it as it is.
fn simplify(call: &mut Call, step: usize) {
    match (call, step) {
        (Call::Write { value, .. }, 0) => *value = 0,
        (Call::Write { value, .. }, 1..=8) => *value &= !(1 << (step - 1)),
        (Call::Pins { levels }, 0) => *levels &= 3,
        (Call::Load { input }, place) if place < input.len() => input[place] = 0,
        (Call::Save { fill, .. }, 0) => *fill = 1,
        (Call::Save { length, .. }, 1) => *length = 0,
        (Call::Save { length, offset, .. }, 2) => (*length, *offset) = (73, 0),
        (Call::Save { length, offset, .. }, 3) => (*length, *offset) = (72, 0),
        (Call::Decode { mode, .. }, 0) => *mode &= 6,
        (Call::Encode { mode, .. }, 0) => *mode &= 6,
        (Call::Encode { fill, .. }, 1) => *fill = 1,
        (Call::Encode { weekday, .. }, 2) => *weekday = 1,
        (Call::Encode { seconds, .. }, 3) => *seconds = 0,
        (Call::Encode { seconds, .. }, 4) => *seconds -= *seconds % 86_400,
        _ => {}
    }
}
