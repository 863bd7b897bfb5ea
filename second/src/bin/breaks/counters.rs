//! Breaks of counters.

use std::collections::BTreeSet;

use second::hart::Counter;
use second::numbers::{CONFIGURE_RUN, CONFIGURE_SKIP, COUNTERS, STOP_UNMAP};
use second::rules::AsItStands;

known_breaks! { counters CounterRules:
    Saturates "a counter stays at 2^64 - 1" {
        fn counted(&self, mut counters: [Counter; COUNTERS], code: u8) -> [Counter; COUNTERS] {
            for counter in &mut counters {
                if counter.running && counter.event == Some(code) {
                    counter.value = counter.value.saturating_add(1);
                }
            }
            counters
        }
    }
    IdleCounts "a counter that is not running counts" {
        fn counted(&self, mut counters: [Counter; COUNTERS], code: u8) -> [Counter; COUNTERS] {
            for counter in &mut counters {
                if counter.event == Some(code) {
                    counter.value = counter.value.wrapping_add(1);
                }
            }
            counters
        }
    }
    FirstCounts "only the first counter on a code counts" {
        fn counted(&self, mut counters: [Counter; COUNTERS], code: u8) -> [Counter; COUNTERS] {
            let first = |c: &&mut Counter| c.running && c.event == Some(code);
            if let Some(counter) = counters.iter_mut().find(first) {
                counter.value = counter.value.wrapping_add(1);
            }
            counters
        }
    }
    AllCounters "base 2^64 - 1 means all counters" {
        fn counter_set(&self, base: u64, mask: u64) -> Option<BTreeSet<usize>> {
            match base {
                u64::MAX => Some((0..COUNTERS).collect()),
                _ => AsItStands.counter_set(base, mask),
            }
        }
    }
    CounterWraps "base plus bit wraps to counter 0" {
        fn counter_set(&self, base: u64, mask: u64) -> Option<BTreeSet<usize>> {
            let bits = (0..64u64).filter(|i| mask >> i & 1 == 1);
            let counters = bits.map(|i| base.wrapping_add(i));
            counters.map(|c| (c < 8).then_some(c as usize)).collect()
        }
    }
    HighCountersDropped "a counter over 7 is left out of the set" {
        fn counter_set(&self, base: u64, mask: u64) -> Option<BTreeSet<usize>> {
            let bits = (0..64u64).filter(|i| mask >> i & 1 == 1);
            let counters = bits.filter_map(|i| base.checked_add(i));
            Some(counters.filter(|&c| c < 8).map(|c| c as usize).collect())
        }
    }
    CounterBaseChecked "a base over 7 is refused though the mask is 0" {
        fn counter_set(&self, base: u64, mask: u64) -> Option<BTreeSet<usize>> {
            if base >= 8 {
                return None;
            }
            AsItStands.counter_set(base, mask)
        }
    }
    Code22 "event code 22 maps" {
        fn event_code(&self, index: u64) -> Option<u8> {
            if index == 0xF0016 { Some(0) } else { AsItStands.event_code(index) }
        }
    }
    IndexOver20Bits "the event index is read over 20 bits" {
        fn event_code(&self, index: u64) -> Option<u8> {
            AsItStands.event_code(index & 0xFFFFF)
        }
    }
    TypeIgnored "the type of an event index is ignored" {
        fn event_code(&self, index: u64) -> Option<u8> {
            AsItStands.event_code(index | 0xF0000)
        }
    }
    NoSkip "configure ignores skip" {
        fn chosen(
            &self, set: &BTreeSet<usize>, counters: &[Counter; COUNTERS], flags: u64,
        ) -> Option<usize> {
            AsItStands.chosen(set, counters, flags & !CONFIGURE_SKIP)
        }
    }
    HighestChosen "configure chooses the highest" {
        fn chosen(
            &self, set: &BTreeSet<usize>, counters: &[Counter; COUNTERS], flags: u64,
        ) -> Option<usize> {
            let skip = flags & CONFIGURE_SKIP != 0;
            set.iter().rev().copied().find(|&c| skip || !counters[c].running)
        }
    }
    UnmappedChosen "configure without skip wants an unmapped counter" {
        fn chosen(
            &self, set: &BTreeSet<usize>, counters: &[Counter; COUNTERS], flags: u64,
        ) -> Option<usize> {
            let skip = flags & CONFIGURE_SKIP != 0;
            set.iter().copied().find(|&c| skip || counters[c].event.is_none())
        }
    }
    EmptySetMatches "configure of an empty set chooses counter 0" {
        fn chosen(
            &self, set: &BTreeSet<usize>, counters: &[Counter; COUNTERS], flags: u64,
        ) -> Option<usize> {
            if set.is_empty() { Some(0) } else { AsItStands.chosen(set, counters, flags) }
        }
    }
    AlwaysClears "configure clears the value without bit 1" {
        fn configured(&self, counter: Counter, code: u8, flags: u64) -> Counter {
            Counter { value: 0, ..AsItStands.configured(counter, code, flags) }
        }
    }
    NeverClears "configure keeps the value with bit 1" {
        fn configured(&self, counter: Counter, code: u8, flags: u64) -> Counter {
            let value = counter.value;
            Counter { value, ..AsItStands.configured(counter, code, flags) }
        }
    }
    NoAutoStart "configure does not set running with bit 2" {
        fn configured(&self, counter: Counter, code: u8, flags: u64) -> Counter {
            AsItStands.configured(counter, code, flags & !CONFIGURE_RUN)
        }
    }
    ConfigureHalts "configure without bit 2 halts a running counter" {
        fn configured(&self, counter: Counter, code: u8, flags: u64) -> Counter {
            let running = flags & CONFIGURE_RUN != 0;
            Counter { running, ..AsItStands.configured(counter, code, flags) }
        }
    }
    SkipKeepsMapping "skip on a running counter leaves its mapping" {
        fn configured(&self, counter: Counter, code: u8, flags: u64) -> Counter {
            let event = if counter.running { counter.event } else { Some(code) };
            Counter { event, ..AsItStands.configured(counter, code, flags) }
        }
    }
    AlwaysLoads "start loads a3 without bit 0" {
        fn started(&self, counter: Counter, flags: u64, initial: u64) -> Counter {
            AsItStands.started(counter, flags | 1, initial)
        }
    }
    NeverLoads "start does not load a3" {
        fn started(&self, counter: Counter, flags: u64, initial: u64) -> Counter {
            AsItStands.started(counter, flags & !1, initial)
        }
    }
    UnmapClears "a stop that unmaps clears the value" {
        fn stopped(&self, counter: Counter, flags: u64) -> Counter {
            let unmap = flags & STOP_UNMAP != 0;
            let value = if unmap { 0 } else { counter.value };
            Counter { value, ..AsItStands.stopped(counter, flags) }
        }
    }
    AlwaysUnmaps "every stop unmaps" {
        fn stopped(&self, counter: Counter, flags: u64) -> Counter {
            AsItStands.stopped(counter, flags | STOP_UNMAP)
        }
    }
    NeverUnmaps "no stop unmaps" {
        fn stopped(&self, counter: Counter, flags: u64) -> Counter {
            AsItStands.stopped(counter, flags & !STOP_UNMAP)
        }
    }
}
