//! Themes of hart states: legal lives, with the edges of their arguments.

use super::{edges, Life, Words};
use crate::hart::State;
use crate::numbers::EID_HSM;
use crate::record::{DONE, RECORD_WORDS, WAKE};

/// A record of done or wake with garbage after its first word.
pub fn turn(life: &mut Life, kind: u64, hart: u8) -> Vec<Words> {
    let mut words = [0; RECORD_WORDS];
    if life.rng.chance(1, 4) {
        words.fill_with(|| edges::word(&mut life.rng));
    }
    words[0] = kind + u64::from(hart);
    vec![words]
}

/// The done or the wake that some hart waits for.
pub fn go_on(life: &mut Life) -> Vec<Words> {
    let waits = |s| !matches!(s, State::Started | State::Stopped);
    let waiting = life.machine.tables().harts_where(waits);
    let Some(hart) = life.rng.pick_any(&waiting) else {
        return Vec::new();
    };
    let asleep = life.machine.state(hart) == Some(State::Suspended);
    turn(life, if asleep { WAKE } else { DONE }, hart)
}

/// A start, mostly of a STOPPED hart.
pub fn start(life: &mut Life) -> Vec<Words> {
    let Some(caller) = life.caller() else {
        return Vec::new();
    };
    let stopped = life.machine.tables().harts_where(|s| s == State::Stopped);
    let any = edges::hart(&mut life.rng);
    let target = match life.rng.pick_any(&stopped) {
        Some(hart) if life.rng.chance(5, 6) => u64::from(hart),
        _ => any,
    };
    let address = edges::address(&mut life.rng);
    let opaque = life.rng.bits();
    life.call(caller, EID_HSM, 0, &[target, address, opaque])
}

/// A stop. The last hart that lives stops only close to the end, as nobody can start it again.
pub fn stop(life: &mut Life) -> Vec<Words> {
    let lives = |s| !matches!(s, State::Stopped | State::StopPending);
    let living = life.machine.tables().harts_where(lives).len();
    match life.caller() {
        Some(caller) if living > 1 || life.left < 12 => life.call(caller, EID_HSM, 1, &[]),
        _ => Vec::new(),
    }
}

pub fn status(life: &mut Life) -> Vec<Words> {
    let Some(caller) = life.caller() else {
        return Vec::new();
    };
    let target = edges::hart(&mut life.rng);
    life.call(caller, EID_HSM, 2, &[target])
}

pub fn suspend(life: &mut Life) -> Vec<Words> {
    let Some(caller) = life.caller() else {
        return Vec::new();
    };
    let kind = edges::suspend_type(&mut life.rng);
    let address = edges::address(&mut life.rng);
    let opaque = life.rng.bits();
    life.call(caller, EID_HSM, 3, &[kind, address, opaque])
}
