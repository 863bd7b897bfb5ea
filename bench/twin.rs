// The calls, completions, wakes and reported events written by hand in Rust: the same checks in the
// same order on the same words. The table test has no early exit, the rows of harts that are not
// enabled are folded by or, and the control bytes of a row are tested at once.
#![no_std]

#[path = "twin/counters.rs"]
mod counters;
#[path = "twin/selections.rs"]
mod selections;
use counters::{count, pmu};
use selections::{ipi, rfence};

type Row = [u64; 12];
type Rows = [Row; 128];

// The first words of a row; the values of the eight counters follow.
const STATE: usize = 0;
const ADDRESS: usize = 1;
const OPAQUE: usize = 2;
const CONTROL: usize = 3;
const VALUES: usize = 4;

// The control byte of a counter: STOPPED_CODE or RUNNING_CODE plus its code, 0 if it is unmapped.
const STOPPED_CODE: u64 = 1;
const RUNNING_CODE: u64 = 23;

// A state word is twice one of these, plus 1 if the sleep is not retentive.
const STARTED: u64 = 1;
const STOPPED: u64 = 2;
const START_PENDING: u64 = 3;
const STOP_PENDING: u64 = 4;
const SUSPENDED: u64 = 5;
const SUSPEND_PENDING: u64 = 6;
const RESUME_PENDING: u64 = 7;

const NOT_SUPPORTED: i64 = -2;
const INVALID_PARAM: i64 = -3;
const INVALID_ADDRESS: i64 = -5;
const ALREADY_AVAILABLE: i64 = -6;
const ALREADY_STARTED: i64 = -7;
const ALREADY_STOPPED: i64 = -8;
const NO_SHARED_MEMORY: i64 = -9;

const ENTER: u64 = 1;
const INTERRUPT: u64 = 2;
const FENCE: u64 = 3;
const INTERRUPT_SENT: u64 = 6;
const SENT: [u64; 7] = [8, 10, 12, 16, 14, 20, 18];

#[repr(C)]
pub struct Range {
    base: u64,
    length: u64,
}

#[repr(C)]
pub struct Platform {
    enabled: [u64; 2],
    hypervisor: [u64; 2],
    boot: u64,
    used: u64,
    ranges: [Range; 8],
    asid: u64,
    vmid: u64,
    implementation: u64,
    version: u64,
    vendor: u64,
    architecture: u64,
    machine: u64,
}

pub enum Answer {
    Pair { error: i64, value: u64, parked: bool, actions: u64 },
    Refused(u64),
}
use Answer::{Pair, Refused};

fn success(value: u64, parked: bool, actions: u64) -> Answer {
    Pair { error: 0, value, parked, actions }
}

fn failed(error: i64) -> Answer {
    Pair { error, value: 0, parked: false, actions: 0 }
}

fn give(a: Answer, out: &mut [u64; 5]) {
    *out = match a {
        Pair { error, value, parked, actions } => [0, error as u64, value, parked as u64, actions],
        Refused(k) => [1, k, 0, 0, 0],
    }
}

fn has(set: &[u64; 2], h: u64) -> bool {
    h < 128 && set[h as usize / 64] >> (h % 64) & 1 != 0
}

impl Platform {
    fn is_enabled(&self, h: u64) -> bool {
        has(&self.enabled, h)
    }

    fn valid_address(&self, a: u64) -> bool {
        let used = &self.ranges[..self.used.min(8) as usize];
        a % 2 == 0 && used.iter().any(|r| a >= r.base && a - r.base < r.length)
    }

    fn accepted(&self) -> bool {
        self.is_enabled(self.boot)
            && self.hypervisor[0] & !self.enabled[0] == 0
            && self.hypervisor[1] & !self.enabled[1] == 0
            && self.used <= 8
            && self.asid <= 16
            && self.vmid <= 14
            && self.ranges[..self.used as usize]
                .iter()
                .all(|r| r.length != 0 && r.length - 1 <= u64::MAX - r.base)
    }
}

// The places of the bits of a set, ascending.
struct Bits(u64);

impl Iterator for Bits {
    type Item = usize;
    fn next(&mut self) -> Option<usize> {
        if self.0 == 0 {
            return None;
        }
        let i = self.0.trailing_zeros() as usize;
        self.0 &= self.0 - 1;
        Some(i)
    }
}

// ---- the table test

// Not 0 if a control byte is over 44.
fn control_faults(w: u64) -> u64 {
    (w | ((w & 0x7f7f7f7f7f7f7f7f) + 0x5353535353535353)) & 0x8080808080808080
}

// Not 0 if the row of an enabled hart is not well formed: the state word is 2 to 15.
fn enabled_faults(r: &Row) -> u64 {
    let w = r[STATE];
    ((w | w.wrapping_sub(2)) & !15) | control_faults(r[CONTROL])
}

// Not 0 if the row of a hart that is not enabled is not as fresh.
fn idle_faults(r: &Row) -> u64 {
    r[1..].iter().fold(r[STATE] ^ 4, |all, w| all | w)
}

fn half_faults(enabled: u64, rows: &[Row]) -> u64 {
    let mut faults = 0;
    for (i, r) in rows.iter().enumerate() {
        faults |= if enabled >> i & 1 != 0 { enabled_faults(r) } else { idle_faults(r) };
    }
    faults
}

#[inline(never)]
fn well_formed(p: &Platform, t: &Rows) -> bool {
    half_faults(p.enabled[0], &t[..64]) | half_faults(p.enabled[1], &t[64..]) == 0
}

// ---- hart states

fn put_state(r: &mut Row, state: u64) {
    r[STATE] = 2 * state | r[STATE] & 1;
}

fn enter(actions: &mut [u64; 640], target: u64, address: u64, opaque: u64) {
    actions[..5].copy_from_slice(&[target, ENTER, address, opaque, 0]);
}

fn start(p: &Platform, t: &mut Rows, actions: &mut [u64; 640], a: &[u64; 8]) -> Answer {
    let [target, address, opaque, ..] = *a;
    if !p.is_enabled(target) {
        return failed(INVALID_PARAM);
    }
    let r = &mut t[target as usize];
    if r[STATE] / 2 != STOPPED {
        return failed(ALREADY_AVAILABLE);
    }
    if !p.valid_address(address) {
        return failed(INVALID_ADDRESS);
    }
    put_state(r, START_PENDING);
    enter(actions, target, address, opaque);
    success(0, false, 1)
}

fn suspend(p: &Platform, r: &mut Row, a: &[u64; 8]) -> Answer {
    let [sleep, address, opaque, ..] = *a;
    match sleep as u32 {
        0 => {
            r[STATE] = 2 * SUSPEND_PENDING;
            r[ADDRESS] = 0;
            r[OPAQUE] = 0;
        }
        0x80000000 => {
            if !p.valid_address(address) {
                return failed(INVALID_ADDRESS);
            }
            r[STATE] = 2 * SUSPEND_PENDING + 1;
            r[ADDRESS] = address;
            r[OPAQUE] = opaque;
        }
        _ => return failed(INVALID_PARAM),
    }
    success(0, true, 0)
}

fn hsm(p: &Platform, t: &mut Rows, actions: &mut [u64; 640], h: usize, a: &[u64; 8]) -> Answer {
    match a[6] {
        0 => start(p, t, actions, a),
        1 => {
            put_state(&mut t[h], STOP_PENDING);
            success(0, true, 0)
        }
        2 if p.is_enabled(a[0]) => success(t[a[0] as usize][STATE] / 2 - 1, false, 0),
        2 => failed(INVALID_PARAM),
        3 => suspend(p, &mut t[h], a),
        _ => failed(NOT_SUPPORTED),
    }
}

// ---- Base

fn base(p: &Platform, a: &[u64; 8]) -> Answer {
    let value = match a[6] {
        0 => 50331648,
        1 => p.implementation,
        2 => p.version,
        3 => matches!(a[0], 0x10 | 0x735049 | 0x52464E43 | 0x48534D | 0x504D55) as u64,
        4 => p.vendor,
        5 => p.architecture,
        6 => p.machine,
        _ => return failed(NOT_SUPPORTED),
    };
    success(value, false, 0)
}

// ---- what the host calls

fn call(p: &Platform, t: &mut Rows, actions: &mut [u64], h: u64, a: &[u64; 8]) -> Answer {
    if !well_formed(p, t) || !p.accepted() {
        return Refused(1);
    }
    let Some(actions) = actions.first_chunk_mut::<640>() else { return Refused(4) };
    if !p.is_enabled(h) {
        return Refused(2);
    }
    let h = h as usize;
    if t[h][STATE] / 2 != STARTED {
        return Refused(3);
    }
    match a[7] {
        0x10 => base(p, a),
        0x735049 => ipi(p, t, actions, h, a),
        0x52464E43 => rfence(p, t, actions, h, a),
        0x48534D => hsm(p, t, actions, h, a),
        0x504D55 => pmu(&mut t[h], a),
        _ => failed(NOT_SUPPORTED),
    }
}

fn completion(p: &Platform, t: &mut Rows, actions: &[u64], h: u64) -> Answer {
    if !well_formed(p, t) || !p.accepted() {
        return Refused(1);
    }
    if actions.len() < 640 {
        return Refused(4);
    }
    if !p.is_enabled(h) {
        return Refused(2);
    }
    let r = &mut t[h as usize];
    let next = match r[STATE] / 2 {
        START_PENDING | RESUME_PENDING => STARTED,
        STOP_PENDING => STOPPED,
        SUSPEND_PENDING => SUSPENDED,
        _ => return Refused(5),
    };
    put_state(r, next);
    success(0, false, 0)
}

fn wake(p: &Platform, t: &mut Rows, actions: &mut [u64], h: u64) -> Answer {
    if !well_formed(p, t) || !p.accepted() {
        return Refused(1);
    }
    let Some(actions) = actions.first_chunk_mut::<640>() else { return Refused(4) };
    if !p.is_enabled(h) {
        return Refused(2);
    }
    let r = &mut t[h as usize];
    if r[STATE] / 2 != SUSPENDED {
        return Refused(5);
    }
    put_state(r, RESUME_PENDING);
    if r[STATE] & 1 == 0 {
        return success(0, false, 0);
    }
    enter(actions, h, r[ADDRESS], r[OPAQUE]);
    success(0, false, 1)
}

fn event(p: &Platform, t: &mut Rows, h: u64, code: u64) -> Answer {
    if !well_formed(p, t) || !p.accepted() {
        return Refused(1);
    }
    if !p.is_enabled(h) {
        return Refused(2);
    }
    if code > 5 {
        return Refused(6);
    }
    count(&mut t[h as usize], code);
    success(0, false, 0)
}

fn fresh(p: &Platform, t: &mut Rows) -> Answer {
    if !p.accepted() {
        return Refused(1);
    }
    for (h, r) in t.iter_mut().enumerate() {
        *r = [0; 12];
        r[STATE] = 2 * if h as u64 == p.boot { STARTED } else { STOPPED };
    }
    success(0, false, 0)
}

#[no_mangle]
pub extern "C" fn twin_test(p: &Platform, t: &Rows) -> bool {
    well_formed(p, t)
}

#[no_mangle]
pub extern "C" fn twin_fresh(p: &Platform, t: &mut Rows, out: &mut [u64; 5]) {
    give(fresh(p, t), out)
}

/// # Safety
/// `actions` is the start of `room` words that nobody else has.
#[no_mangle]
pub unsafe extern "C" fn twin_call(
    p: &Platform,
    t: &mut Rows,
    actions: *mut u64,
    room: usize,
    h: u64,
    a: &[u64; 8],
    out: &mut [u64; 5],
) {
    let actions = unsafe { core::slice::from_raw_parts_mut(actions, room) };
    give(call(p, t, actions, h, a), out)
}

/// # Safety
/// `actions` is the start of `room` words.
#[no_mangle]
pub unsafe extern "C" fn twin_completion(
    p: &Platform,
    t: &mut Rows,
    actions: *const u64,
    room: usize,
    h: u64,
    out: &mut [u64; 5],
) {
    let actions = unsafe { core::slice::from_raw_parts(actions, room) };
    give(completion(p, t, actions, h), out)
}

/// # Safety
/// `actions` is the start of `room` words that nobody else has.
#[no_mangle]
pub unsafe extern "C" fn twin_wake(
    p: &Platform,
    t: &mut Rows,
    actions: *mut u64,
    room: usize,
    h: u64,
    out: &mut [u64; 5],
) {
    let actions = unsafe { core::slice::from_raw_parts_mut(actions, room) };
    give(wake(p, t, actions, h), out)
}

#[no_mangle]
pub extern "C" fn twin_event(p: &Platform, t: &mut Rows, h: u64, code: u64, out: &mut [u64; 5]) {
    give(event(p, t, h, code), out)
}
