//! Themes that the host refuses, functions that are not known, and Base.

use super::states::turn;
use super::{edges, Life, Words};
use crate::hart::State;
use crate::numbers::{EID_BASE, EID_HSM, EID_IPI, EID_PMU, EID_RFENCE, EXTENSIONS};
use crate::record::{CALL, DONE, EVENT, WAKE};

/// A function of Base; the argument matters for probe alone.
pub fn base(life: &mut Life) -> Vec<Words> {
    let Some(caller) = life.caller() else {
        return Vec::new();
    };
    let known = life.rng.pick(&EXTENSIONS);
    let high = edges::with_high_bits(&mut life.rng, known);
    let any = edges::word(&mut life.rng);
    let probed = life
        .rng
        .pick(&[known, known, known + 1, 0x54494D45, 0x4442434E, high, any]);
    let fid = life.rng.pick(&[0, 1, 2, 3, 3, 3, 4, 5, 6]);
    life.call(caller, EID_BASE, fid, &[probed])
}

/// Numbers next to known ones, PMU functions 7 and 8, and known ones with high bits.
pub fn unknown_function(life: &mut Life) -> Vec<Words> {
    let Some(caller) = life.caller() else {
        return Vec::new();
    };
    let known = life.rng.pick(&EXTENSIONS);
    let high_eid = edges::with_high_bits(&mut life.rng, known);
    let high_fid = edges::with_high_bits(&mut life.rng, 0);
    let (eid, fid) = life.rng.pick(&[
        (EID_BASE, 7),
        (EID_IPI, 1),
        (EID_RFENCE, 7),
        (EID_HSM, 4),
        (EID_PMU, 7),
        (EID_PMU, 8),
        (EID_PMU, 9),
        (known, u64::MAX),
        (known, high_fid),
        (high_eid, 0),
        (known + 1, 0),
        (0x54494D45, 0),
        (0x53525354, 0),
        (0, 0),
        (u64::MAX, 0),
    ]);
    let (mask, base) = edges::harts(&mut life.rng);
    life.call(caller, eid, fid, &[mask, base])
}

/// A call from a hart that is not STARTED.
pub fn caller_not_started(life: &mut Life) -> Vec<Words> {
    let others = life.machine.tables().harts_where(|s| s != State::Started);
    let Some(hart) = life.rng.pick_any(&others) else {
        return Vec::new();
    };
    let target = edges::hart(&mut life.rng);
    let address = edges::address(&mut life.rng);
    let (eid, fid) = life
        .rng
        .pick(&[(EID_HSM, 0), (EID_HSM, 2), (EID_IPI, 0), (EID_BASE, 0)]);
    life.call(hart, eid, fid, &[target, address])
}

/// A done or a wake that the hart's state does not allow.
pub fn turn_not_allowed(life: &mut Life) -> Vec<Words> {
    let hart = life.rng.below(edges::PROGRAM_HARTS) as u8;
    let allowed = match life.machine.state(hart) {
        Some(State::Suspended) => Some(WAKE),
        Some(State::Started | State::Stopped) | None => None,
        Some(_) => Some(DONE),
    };
    let kinds = [DONE, WAKE]
        .into_iter()
        .filter(|&kind| Some(kind) != allowed);
    let kinds: Vec<u64> = kinds.collect();
    let kind = life.rng.pick(&kinds);
    turn(life, kind, hart)
}

/// Any known kind for a hart that the program's platform does not have.
pub fn hart_not_enabled(life: &mut Life) -> Vec<Words> {
    let hart = life.rng.pick(&[4, 5, 63, 64, 126, 127]);
    match life.rng.pick(&[CALL, DONE, WAKE, EVENT]) {
        CALL => life.call(hart, EID_HSM, 2, &[0]),
        kind => turn(life, kind, hart),
    }
}

/// A first word that names no kind, among them known kinds with h over 127 and with high bits.
pub fn unknown_kind(life: &mut Life) -> Vec<Words> {
    let kind = life.rng.pick(&[CALL, DONE, WAKE, EVENT]);
    let high = edges::with_high_bits(&mut life.rng, kind);
    let over = 128 + life.rng.below(128) as u64;
    let first = life.rng.pick(&[
        1,
        3,
        127,
        128,
        255,
        kind + 128,
        kind + over,
        1280,
        1283,
        high,
        kind | 1 << 16,
        u64::MAX,
    ]);
    let mut records = life.call(0, EID_HSM, 2, &[0]);
    records[0][0] = first;
    records
}
