//! Themes of several records that show what a single one cannot: values after traffic, notes of
//! two sleeps, values across an unmapping.

use super::{edges, Life, Words};
use crate::function::Fence;
use crate::hart::State;
use crate::numbers::{EID_HSM, EID_IPI, EID_PMU, EID_RFENCE, FIRMWARE_EVENTS};
use crate::record::{DONE, EVENT, RECORD_WORDS, WAKE};
use crate::rules::DOCUMENT_01;

const CONFIGURE: u64 = 2;
const START: u64 = 3;
const STOP: u64 = 4;
const READ: u64 = 5;

fn first_word(first: u64, second: u64) -> Words {
    let mut words = [0; RECORD_WORDS];
    words[..2].copy_from_slice(&[first, second]);
    words
}

fn pmu(hart: u8, fid: u64, arguments: &[u64]) -> Words {
    Life::plain_call(hart, EID_PMU, fid, arguments)
}

/// Maps one counter to a code, with skip so that no other is chosen.
fn map(hart: u8, counter: u64, flags: u64, code: u8) -> Words {
    let event = FIRMWARE_EVENTS + u64::from(code);
    pmu(hart, CONFIGURE, &[counter, 1, flags | 1, event, 0])
}

/// Every counter of every hart that can call, and every hart's state.
pub fn audit(life: &mut Life) -> Vec<Words> {
    let started = life.machine.tables().harts_where(|s| s == State::Started);
    let mut records = Vec::new();
    for &hart in &started {
        records.extend((0..8).map(|counter| pmu(hart, READ, &[counter])));
    }
    if let Some(caller) = life.caller() {
        let status = |hart| Life::plain_call(caller, EID_HSM, 2, &[hart]);
        records.extend((0..4).map(status));
    }
    records
}

/// Traffic between counters that are mapped to it on both sides, then reads of both.
pub fn exchange(life: &mut Life) -> Vec<Words> {
    let started = life.machine.tables().harts_where(|s| s == State::Started);
    let Some(caller) = life.caller() else {
        return Vec::new();
    };
    let target = life.rng.pick(&started);
    let kind = life.rng.below(8);
    let sent = match Fence::ALL.get(kind) {
        Some(&fence) => DOCUMENT_01.traffic.fence_sent(fence),
        None => DOCUMENT_01.traffic.interrupt_sent(),
    };
    let (here, there) = (life.rng.below(8) as u64, life.rng.below(8) as u64);
    let flags = life.rng.pick(&[4, 6]);
    let mut records = vec![
        map(caller, here, flags, sent),
        map(target, there, flags, DOCUMENT_01.traffic.received(sent)),
    ];
    for _ in 0..1 + life.rng.below(3) {
        let mask = 1 + life.rng.below(15) as u64;
        records.push(match kind {
            7 => Life::plain_call(caller, EID_IPI, 0, &[mask, 0]),
            fid => Life::plain_call(caller, EID_RFENCE, fid as u64, &[mask, 0, 0, 0, 1]),
        });
    }
    records.push(pmu(caller, READ, &[here]));
    records.push(pmu(target, READ, &[there]));
    records
}

/// A counter that goes over the top by reported events.
pub fn wrap(life: &mut Life) -> Vec<Words> {
    let Some(caller) = life.caller() else {
        return Vec::new();
    };
    let counter = life.rng.below(8) as u64;
    let code = life.rng.below(6) as u8;
    let initial = (1 + life.rng.below(3) as u64).wrapping_neg();
    let mut records = vec![
        map(caller, counter, 4, code),
        pmu(caller, STOP, &[counter, 1, 0]),
        pmu(caller, START, &[counter, 1, 1, initial]),
    ];
    let event = first_word(EVENT + u64::from(caller), u64::from(code));
    records.extend([event; 4]);
    records.push(pmu(caller, READ, &[counter]));
    records
}

/// A non-retentive sleep and then a retentive one, or the other way round.
pub fn two_sleeps(life: &mut Life) -> Vec<Words> {
    let Some(caller) = life.caller() else {
        return Vec::new();
    };
    let address = edges::address(&mut life.rng);
    let opaque = life.rng.bits();
    let first = life.rng.pick(&[0, 0x8000_0000]);
    let mut records = Vec::new();
    for kind in [first, 0x8000_0000 - first] {
        let suspend = Life::plain_call(caller, EID_HSM, 3, &[kind, address & !1, opaque]);
        let turns = [DONE, WAKE, DONE].map(|turn| first_word(turn + u64::from(caller), 0));
        records.push(suspend);
        records.extend(turns);
    }
    records
}

/// A value that outlives an unmapping and shows again.
pub fn unmap_and_map(life: &mut Life) -> Vec<Words> {
    let Some(caller) = life.caller() else {
        return Vec::new();
    };
    let counter = life.rng.below(8) as u64;
    let initial = life.rng.bits();
    let code = life.rng.below(22) as u8;
    vec![
        map(caller, counter, 4, code),
        pmu(caller, STOP, &[counter, 1, 0]),
        pmu(caller, START, &[counter, 1, 1, initial]),
        pmu(caller, STOP, &[counter, 1, 1]),
        pmu(caller, READ, &[counter]),
        pmu(caller, STOP, &[counter, 1, 0]),
        pmu(caller, START, &[counter, 1, 0]),
        map(caller, counter, 0, code),
        pmu(caller, READ, &[counter]),
    ]
}
