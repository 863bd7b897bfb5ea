//! Argument values: mostly sound ones, and the edges of document 01.

use super::Rng;
use crate::numbers::{FIRMWARE_EVENTS, LAST_CODE};

/// The harts of the program's platform.
pub const PROGRAM_HARTS: usize = 4;
const RANGE_BASE: u64 = 0x8000_0000;
const RANGE_LENGTH: u64 = 0x0800_0000;

/// Any word, often at an edge.
pub fn word(rng: &mut Rng) -> u64 {
    let small = rng.below(16) as u64;
    let power = 1u64 << rng.below(64);
    let any = rng.bits();
    rng.pick(&[
        small,
        small.wrapping_neg(),
        power,
        power.wrapping_sub(1),
        any,
        any >> 32,
        u64::MAX,
        0,
    ])
}

/// The same low bits with something above them.
pub fn with_high_bits(rng: &mut Rng, word: u64) -> u64 {
    word | 1 << (32 + rng.below(32)) | (rng.bits() << 32 & rng.bits())
}

/// A hart number for an argument.
pub fn hart(rng: &mut Rng) -> u64 {
    let sound = rng.below(PROGRAM_HARTS) as u64;
    if rng.chance(5, 6) {
        return sound;
    }
    let high = with_high_bits(rng, sound);
    rng.pick(&[4, 5, 126, 127, 128, 255, 256 + sound, high, u64::MAX])
}

/// An address, mostly even and in the range.
pub fn address(rng: &mut Rng) -> u64 {
    let end = RANGE_BASE + RANGE_LENGTH;
    let sound = RANGE_BASE + 2 * (rng.bits() % (RANGE_LENGTH / 2));
    if rng.chance(3, 4) {
        return rng.pick(&[sound, sound, sound, RANGE_BASE, end - 2]);
    }
    let high = with_high_bits(rng, sound);
    rng.pick(&[
        sound + 1,
        end,
        end - 1,
        end + 2,
        RANGE_BASE - 2,
        RANGE_BASE - 1,
        RANGE_BASE + 1,
        0,
        1,
        high,
        u64::MAX,
        u64::MAX - 1,
    ])
}

/// A suspend type, mostly one of the two that are implemented.
pub fn suspend_type(rng: &mut Rng) -> u64 {
    let sound = rng.pick(&[0, 0x8000_0000]);
    let refused = rng.pick(&[
        1,
        0x0FFF_FFFF,
        0x1000_0000,
        0x7FFF_FFFF,
        0x8000_0001,
        0x9000_0000,
        0xFFFF_FFFF,
    ]);
    let kind = if rng.chance(5, 6) { sound } else { refused };
    match rng.below(6) {
        0 => with_high_bits(rng, kind),
        1 => 0xFFFF_FFFF_0000_0000 | kind,
        _ => kind,
    }
}

/// A mask and a base for harts.
pub fn harts(rng: &mut Rng) -> (u64, u64) {
    let some = rng.below(16) as u64;
    let base = rng.below(PROGRAM_HARTS) as u64;
    let from_base = some >> base;
    match rng.below(16) {
        0 => (word(rng), u64::MAX),
        1 => (0, word(rng)),
        2 => (rng.below(64) as u64, base),
        3 => (rng.pick(&[1, 2, 3, 4, 5]), u64::MAX - 1),
        4 => wrapping(rng, some),
        5 => (some, with_high_bits(rng, base)),
        6 => (rng.pick(&[1, 2, 4, 5, 8]), rng.pick(&[2, 3, 4, 126, 127])),
        7 => (word(rng), word(rng)),
        8 | 9 => (15, 0),
        _ => (from_base, base),
    }
}

/// A mask and a base whose sums would wrap to the numbers in `some`.
fn wrapping(rng: &mut Rng, some: u64) -> (u64, u64) {
    let below = 2 + rng.below(58) as u64;
    (some << below, below.wrapping_neg())
}

/// A start and a size for a fence.
pub fn range(rng: &mut Rng) -> (u64, u64) {
    let page = rng.bits() << 12;
    let start = word(rng);
    match rng.below(14) {
        0 | 1 => (0, 0),
        2 => (start, u64::MAX),
        3 => (start, 0),
        4 => rng.pick(&[
            (4096u64.wrapping_neg(), 4096),
            (4096u64.wrapping_neg(), 4097),
        ]),
        5 => rng.pick(&[(2, u64::MAX - 1), (3, u64::MAX - 1)]),
        6 => (start, start.wrapping_neg()),
        7 => (start, start.wrapping_neg().wrapping_add(1)),
        8 => (word(rng), word(rng)),
        9 => rng.pick(&[
            (0, u64::MAX - 1),
            (1, u64::MAX - 1),
            (u64::MAX, 1),
            (u64::MAX, 2),
        ]),
        _ => (page, 4096 * rng.below(16) as u64),
    }
}

/// An ASID or VMID, mostly below both limits.
pub fn id(rng: &mut Rng) -> u64 {
    let sound = rng.below(1 << 14) as u64;
    if rng.chance(2, 3) {
        return sound;
    }
    let high = with_high_bits(rng, sound);
    rng.pick(&[0, 16383, 16384, 16385, 65535, 65536, 65537, high, u64::MAX])
}

/// An event index, mostly one that can be counted.
pub fn event_index(rng: &mut Rng) -> u64 {
    let sound = FIRMWARE_EVENTS + rng.bits() % (LAST_CODE + 1);
    if rng.chance(9, 10) {
        return sound;
    }
    let high = with_high_bits(rng, sound);
    rng.pick(&[
        FIRMWARE_EVENTS + LAST_CODE + 1,
        FIRMWARE_EVENTS - 1,
        FIRMWARE_EVENTS + 255,
        FIRMWARE_EVENTS + 65535,
        sound | 1 << 20,
        high,
        0,
        1,
        0x10000,
        0x20000,
        sound - FIRMWARE_EVENTS,
    ])
}

/// A value to load, often close to the top.
pub fn initial_value(rng: &mut Rng) -> u64 {
    let close = (1 + rng.below(4) as u64).wrapping_neg();
    let (edge, any) = (word(rng), rng.bits());
    rng.pick(&[close, close, edge, any])
}

/// A base and a mask for the given counters, in one of the ways to write them.
pub fn set_of(rng: &mut Rng, counters: &[usize]) -> (u64, u64) {
    let lowest = counters.iter().copied().min().unwrap_or(0);
    let base = rng.below(lowest + 1);
    let bit = |mask, &counter: &usize| mask | 1 << (counter - base);
    (base as u64, counters.iter().fold(0, bit))
}

/// A base and a mask for counters at the edges.
pub fn strange_set(rng: &mut Rng) -> (u64, u64) {
    let some = rng.bits() & rng.bits() & 0xFF;
    match rng.below(8) {
        0 => (u64::MAX, word(rng)),
        1 => (u64::MAX - 1, rng.pick(&[1, 2, 3, 4])),
        2 => (word(rng), 0),
        3 => {
            let (mask, base) = wrapping(rng, some & 15);
            (base, mask)
        }
        4 => (with_high_bits(rng, 0), some),
        5 => (rng.below(10) as u64, some),
        6 => (rng.pick(&[7, 8]), rng.pick(&[0, 1, 2])),
        _ => (word(rng), word(rng)),
    }
}
