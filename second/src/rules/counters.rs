//! Counters: sets, mapping, starting, stopping and counting.

use std::collections::BTreeSet;

use crate::hart::Counter;
use crate::numbers::*;

/// What counters a set names and what each counter call does to one.
pub trait CounterRules {
    /// "An event adds one, going from 2^64 - 1 to 0, to every running counter of that hart mapped
    /// to its code."
    fn counted(&self, mut counters: [Counter; COUNTERS], code: u8) -> [Counter; COUNTERS] {
        for counter in &mut counters {
            if counter.running && counter.event == Some(code) {
                counter.value = counter.value.wrapping_add(1);
            }
        }
        counters
    }

    /// "Set: bit i is counter base + i without wrapping; numbers over 7 are -3."
    fn counter_set(&self, base: u64, mask: u64) -> Option<BTreeSet<usize>> {
        let bits = (0..64u64).filter(|i| mask >> i & 1 == 1);
        bits.map(|i| base.checked_add(i).filter(|&c| c < COUNTERS as u64))
            .map(|c| c.map(|c| c as usize))
            .collect()
    }

    /// "Events 0xF0000 to 0xF0015 only."
    fn event_code(&self, index: u64) -> Option<u8> {
        let code = index.checked_sub(FIRMWARE_EVENTS)?;
        (code <= LAST_CODE).then_some(code as u8)
    }

    /// "Chosen is the lowest counter of the set that is not running; with skip (bit 0) the lowest
    /// of the set, running or not."
    fn chosen(
        &self,
        set: &BTreeSet<usize>,
        counters: &[Counter; COUNTERS],
        flags: u64,
    ) -> Option<usize> {
        let skip = flags & CONFIGURE_SKIP != 0;
        let mut lowest = set.iter().copied();
        lowest.find(|&counter| skip || !counters[counter].running)
    }

    /// "It is mapped. Bit 1 clears its value; bit 2 sets it running; otherwise value and running
    /// stay. Bits 3 to 7 are hints, ignored."
    fn configured(&self, counter: Counter, code: u8, flags: u64) -> Counter {
        let clear = flags & CONFIGURE_CLEAR != 0;
        Counter {
            event: Some(code),
            running: counter.running || flags & CONFIGURE_RUN != 0,
            value: if clear { 0 } else { counter.value },
        }
    }

    /// "Bit 0 loads a3."
    fn started(&self, counter: Counter, flags: u64, initial: u64) -> Counter {
        let load = flags & START_LOAD != 0;
        Counter {
            running: true,
            value: if load { initial } else { counter.value },
            ..counter
        }
    }

    /// "Bit 0 also unmaps; the value stays."
    fn stopped(&self, counter: Counter, flags: u64) -> Counter {
        let unmap = flags & STOP_UNMAP != 0;
        Counter {
            event: if unmap { None } else { counter.event },
            running: false,
            ..counter
        }
    }
}
