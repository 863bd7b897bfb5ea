//! Themes of traffic: interrupts and fences with their masks, ranges and ids.

use super::{edges, Life, Words};
use crate::numbers::{EID_IPI, EID_RFENCE};

pub fn interrupt(life: &mut Life) -> Vec<Words> {
    let Some(caller) = life.caller() else {
        return Vec::new();
    };
    let (mask, base) = edges::harts(&mut life.rng);
    life.call(caller, EID_IPI, 0, &[mask, base])
}

pub fn fence(life: &mut Life) -> Vec<Words> {
    let Some(caller) = life.caller() else {
        return Vec::new();
    };
    let fid = life.rng.below(7) as u64;
    let (mask, base) = edges::harts(&mut life.rng);
    let (start, size) = edges::range(&mut life.rng);
    let id = edges::id(&mut life.rng);
    life.call(caller, EID_RFENCE, fid, &[mask, base, start, size, id])
}
