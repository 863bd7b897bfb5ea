// Selections of harts, interrupts and remote fences.
use super::*;

// The selected harts as two words, or none if one is not enabled.
fn selection(p: &Platform, mask: u64, base: u64) -> Option<[u64; 2]> {
    if base == u64::MAX {
        return Some(p.enabled);
    }
    if mask == 0 {
        return Some([0, 0]);
    }
    if base >= 128 {
        return None;
    }
    let (set, past) = if base == 0 {
        ([mask, 0], 0)
    } else if base < 64 {
        ([mask << base, mask >> (64 - base)], 0)
    } else if base == 64 {
        ([0, mask], 0)
    } else {
        ([0, mask << (base - 64)], mask >> (128 - base))
    };
    if past | (set[0] & !p.enabled[0]) | (set[1] & !p.enabled[1]) != 0 {
        return None;
    }
    Some(set)
}

// One action and one event for a hart, if it is reached.
fn tell_one(
    t: &mut Rows,
    actions: &mut [u64; 640],
    n: &mut usize,
    caller: usize,
    k: usize,
    like: [u64; 4],
    code: u64,
) {
    let state = t[k][STATE] / 2;
    if state == STOPPED || state == STOP_PENDING {
        return;
    }
    if let Some(a) = actions.get_mut(5 * *n..5 * *n + 5) {
        a[0] = k as u64;
        a[1..].copy_from_slice(&like);
    }
    *n += 1;
    if k != caller {
        count(&mut t[caller], code);
        count(&mut t[k], code + 1);
    }
}

fn tell(
    t: &mut Rows,
    actions: &mut [u64; 640],
    caller: usize,
    set: [u64; 2],
    like: [u64; 4],
    code: u64,
) -> Answer {
    let mut n = 0;
    for half in 0..2 {
        for i in Bits(set[half]) {
            tell_one(t, actions, &mut n, caller, 64 * half + i, like, code);
        }
    }
    success(0, false, n as u64)
}

fn is_below(id: u64, width: u64) -> bool {
    width >= 64 || id >> width == 0
}

pub fn rfence(p: &Platform, t: &mut Rows, actions: &mut [u64; 640], h: usize, a: &[u64; 8]) -> Answer {
    let fid = a[6];
    if fid > 6 {
        return failed(NOT_SUPPORTED);
    }
    let Some(set) = selection(p, a[0], a[1]) else { return failed(INVALID_PARAM) };
    let (start, size) = if fid == 0 { (0, 0) } else { (a[2], a[3]) };
    let (id, fits) = match fid {
        2 | 5 => (a[4], is_below(a[4], p.asid)),
        3 => (a[4], is_below(a[4], p.vmid)),
        _ => (0, true),
    };
    if !fits {
        return failed(INVALID_PARAM);
    }
    if fid >= 3 && (set[0] & !p.hypervisor[0]) | (set[1] & !p.hypervisor[1]) != 0 {
        return failed(NOT_SUPPORTED);
    }
    if size != 0 && size != u64::MAX && start > u64::MAX - (size - 1) {
        return failed(INVALID_ADDRESS);
    }
    tell(t, actions, h, set, [FENCE + fid, start, size, id], SENT[fid as usize])
}

pub fn ipi(p: &Platform, t: &mut Rows, actions: &mut [u64; 640], h: usize, a: &[u64; 8]) -> Answer {
    if a[6] != 0 {
        return failed(NOT_SUPPORTED);
    }
    let Some(set) = selection(p, a[0], a[1]) else { return failed(INVALID_PARAM) };
    tell(t, actions, h, set, [INTERRUPT, 0, 0, 0], INTERRUPT_SENT)
}
