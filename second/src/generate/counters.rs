//! Themes of counters: sets that fit the caller's counters, flags and reported events.

use super::{edges, Life, Words};
use crate::numbers::{EID_PMU, LAST_REPORTED};
use crate::record::{EVENT, RECORD_WORDS};

/// A set drawn from the given counters, or now and then one at an edge.
fn set(life: &mut Life, fitting: &[usize]) -> (u64, u64) {
    if fitting.is_empty() || life.rng.chance(1, 8) {
        return edges::strange_set(&mut life.rng);
    }
    let mut drawn = vec![life.rng.pick(fitting)];
    while life.rng.chance(1, 3) {
        drawn.push(life.rng.pick(fitting));
    }
    edges::set_of(&mut life.rng, &drawn)
}

pub fn configure(life: &mut Life) -> Vec<Words> {
    let Some(caller) = life.caller() else {
        return Vec::new();
    };
    let all = life.counters_where(caller, |_| true);
    let (base, mask) = set(life, &all);
    let hints = if life.rng.chance(1, 3) { 0xF8 } else { 0 };
    let sound = life.rng.bits() & (7 | hints);
    let high = 1 << (8 + life.rng.below(56));
    let flags = if life.rng.chance(1, 16) {
        sound | high
    } else {
        sound
    };
    let event = edges::event_index(&mut life.rng);
    let bad = edges::word(&mut life.rng);
    let data = if life.rng.chance(1, 16) { bad } else { 0 };
    life.call(caller, EID_PMU, 2, &[base, mask, flags, event, data])
}

/// The flags of start and stop: mostly bit 0 alone or none.
fn flags(life: &mut Life) -> u64 {
    let sound = life.rng.below(2) as u64;
    match life.rng.below(12) {
        0 => sound | 2,
        1 => sound | 1 << (2 + life.rng.below(62)),
        _ => sound,
    }
}

pub fn start(life: &mut Life) -> Vec<Words> {
    let Some(caller) = life.caller() else {
        return Vec::new();
    };
    let idle = life.counters_where(caller, |c| c.event.is_some() && !c.running);
    let mapped = life.counters_where(caller, |c| c.event.is_some());
    let all = life.counters_where(caller, |_| true);
    let fitting = match life.rng.below(6) {
        0 => &all,
        1 => &mapped,
        _ => &idle,
    };
    let (base, mask) = set(life, fitting);
    let flags = flags(life);
    let initial = edges::initial_value(&mut life.rng);
    life.call(caller, EID_PMU, 3, &[base, mask, flags, initial])
}

pub fn stop(life: &mut Life) -> Vec<Words> {
    let Some(caller) = life.caller() else {
        return Vec::new();
    };
    let running = life.counters_where(caller, |c| c.running);
    let all = life.counters_where(caller, |_| true);
    let fitting = if life.rng.chance(1, 5) {
        &all
    } else {
        &running
    };
    let (base, mask) = set(life, fitting);
    let flags = flags(life);
    life.call(caller, EID_PMU, 4, &[base, mask, flags])
}

/// A read or a high read, mostly of a mapped counter.
pub fn read(life: &mut Life) -> Vec<Words> {
    let Some(caller) = life.caller() else {
        return Vec::new();
    };
    let mapped = life.counters_where(caller, |c| c.event.is_some());
    let any = counter(life);
    let counter = match life.rng.pick_any(&mapped) {
        Some(counter) if life.rng.chance(5, 6) => counter as u64,
        _ => any,
    };
    let fid = if life.rng.chance(1, 8) { 6 } else { 5 };
    life.call(caller, EID_PMU, fid, &[counter])
}

/// A counter number for an argument.
fn counter(life: &mut Life) -> u64 {
    let sound = life.rng.below(8) as u64;
    let high = edges::with_high_bits(&mut life.rng, sound);
    life.rng.pick(&[sound, sound, sound, 8, 9, high, u64::MAX])
}

/// The number of counters, or the details of one.
pub fn ask(life: &mut Life) -> Vec<Words> {
    let Some(caller) = life.caller() else {
        return Vec::new();
    };
    let counter = counter(life);
    let fid = life.rng.below(2) as u64;
    life.call(caller, EID_PMU, fid, &[counter])
}

/// A reported event on a hart in any state, with garbage after its code.
pub fn event(life: &mut Life) -> Vec<Words> {
    let mut words = [0; RECORD_WORDS];
    if life.rng.chance(1, 4) {
        words.fill_with(|| edges::word(&mut life.rng));
    }
    let reported = life.rng.bits() % (LAST_REPORTED + 1);
    let high = edges::with_high_bits(&mut life.rng, reported);
    let over = life.rng.pick(&[6, 7, 20, 21, 22, 0xF0000, high, u64::MAX]);
    words[0] = EVENT + life.rng.below(edges::PROGRAM_HARTS) as u64;
    words[1] = if life.rng.chance(1, 8) {
        over
    } else {
        reported
    };
    vec![words]
}
