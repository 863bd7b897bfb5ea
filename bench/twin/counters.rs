// The caller's eight counters.
use super::*;

fn control_byte(r: &Row, i: usize) -> u64 {
    r[CONTROL] >> (8 * i) & 255
}

fn put_control_byte(r: &mut Row, i: usize, b: u64) {
    r[CONTROL] = r[CONTROL] & !(255 << (8 * i)) | b << (8 * i);
}

pub fn count(r: &mut Row, code: u64) {
    let control = r[CONTROL];
    if control == 0 {
        return;
    }
    for i in 0..8 {
        if control >> (8 * i) & 255 == code + RUNNING_CODE {
            r[VALUES + i] = r[VALUES + i].wrapping_add(1);
        }
    }
}

// The counters base + i of the bits i of a mask, or none if one is over 7.
fn counter_set(base: u64, mask: u64) -> Option<u64> {
    if mask == 0 {
        Some(0)
    } else if base < 8 && mask >> (8 - base) == 0 {
        Some(mask << base)
    } else {
        None
    }
}

fn configure(r: &mut Row, a: &[u64; 8]) -> Answer {
    let [base, mask, flags, event, datum, ..] = *a;
    if flags >= 256 {
        return failed(INVALID_PARAM);
    }
    let Some(set) = counter_set(base, mask) else { return failed(INVALID_PARAM) };
    if !(0xF0000..=0xF0015).contains(&event) {
        return failed(NOT_SUPPORTED);
    }
    if datum != 0 {
        return failed(INVALID_PARAM);
    }
    let skip = flags & 1 != 0;
    for i in Bits(set & 255) {
        let b = control_byte(r, i);
        if skip || b < RUNNING_CODE {
            let running = flags & 4 != 0 || b >= RUNNING_CODE;
            let first = if running { RUNNING_CODE } else { STOPPED_CODE };
            put_control_byte(r, i, first + (event - 0xF0000));
            if flags & 2 != 0 {
                r[VALUES + i] = 0;
            }
            return success(i as u64, false, 0);
        }
    }
    failed(NOT_SUPPORTED)
}

fn start_counters(r: &mut Row, a: &[u64; 8]) -> Answer {
    let [base, mask, flags, initial, ..] = *a;
    if flags >= 4 {
        return failed(INVALID_PARAM);
    }
    let Some(set) = counter_set(base, mask) else { return failed(INVALID_PARAM) };
    if Bits(set & 255).any(|i| control_byte(r, i) == 0) {
        return failed(INVALID_PARAM);
    }
    if flags & 2 != 0 {
        return failed(NO_SHARED_MEMORY);
    }
    if Bits(set & 255).any(|i| control_byte(r, i) >= RUNNING_CODE) {
        return failed(ALREADY_STARTED);
    }
    for i in Bits(set & 255) {
        let b = control_byte(r, i);
        put_control_byte(r, i, b + (RUNNING_CODE - STOPPED_CODE));
        if flags & 1 != 0 {
            r[VALUES + i] = initial;
        }
    }
    success(0, false, 0)
}

fn stop_counters(r: &mut Row, a: &[u64; 8]) -> Answer {
    let [base, mask, flags, ..] = *a;
    if flags >= 4 {
        return failed(INVALID_PARAM);
    }
    let Some(set) = counter_set(base, mask) else { return failed(INVALID_PARAM) };
    if flags & 2 != 0 {
        return failed(NO_SHARED_MEMORY);
    }
    if Bits(set & 255).any(|i| control_byte(r, i) < RUNNING_CODE) {
        return failed(ALREADY_STOPPED);
    }
    for i in Bits(set & 255) {
        let b = control_byte(r, i);
        let unmaps = flags & 1 != 0;
        put_control_byte(r, i, if unmaps { 0 } else { b - (RUNNING_CODE - STOPPED_CODE) });
    }
    success(0, false, 0)
}

fn read_counter(r: &Row, i: u64, high: bool) -> Answer {
    if i >= 8 || control_byte(r, i as usize) == 0 {
        return failed(INVALID_PARAM);
    }
    success(if high { 0 } else { r[VALUES + i as usize] }, false, 0)
}

pub fn pmu(r: &mut Row, a: &[u64; 8]) -> Answer {
    match a[6] {
        0 => success(8, false, 0),
        1 if a[0] < 8 => success(1 << 63, false, 0),
        1 => failed(INVALID_PARAM),
        2 => configure(r, a),
        3 => start_counters(r, a),
        4 => stop_counters(r, a),
        5 => read_counter(r, a[0], false),
        6 => read_counter(r, a[0], true),
        _ => failed(NOT_SUPPORTED),
    }
}
