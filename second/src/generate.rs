//! Inputs for the transcript program, made from a seed.
//!
//! The generator steps the model with every record that it writes, so that it knows which harts
//! can call, which counters run and what the next legal step is.

mod counters;
pub mod edges;
mod life;
mod rng;
mod scripts;
mod states;
mod strange;
mod traffic;

pub use life::Life;
pub use rng::Rng;

use crate::record::{block_of, bytes_of, BLOCK_BYTES, BLOCK_RECORDS, BLOCK_WORDS, RECORD_WORDS};

/// A record as words.
pub type Words = [u64; RECORD_WORDS];

/// So many seeds, from the first on.
pub fn seeds(first: u64, count: u64) -> impl Iterator<Item = u64> {
    (0..count).map(move |place| first.wrapping_add(place))
}

/// The bytes of a transcript with that many records in its right blocks. Some seeds add wrong
/// blocks in between and a short block at the end; no records and no such block is empty input.
pub fn transcript(seed: u64, records: usize) -> Vec<u8> {
    let mut life = Life::new(seed, records);
    let mut bytes = Vec::new();
    while life.left > 0 {
        if life.rng.chance(1, 12) {
            bytes.extend(bytes_of(&wrong_block(&mut life)));
        }
        bytes.extend(bytes_of(&right_block(&mut life)));
    }
    if life.rng.chance(1, 4) {
        bytes.extend(short_block(&mut life));
    }
    bytes
}

/// Seven records that are lived, some of them unused.
fn right_block(life: &mut Life) -> [u64; BLOCK_WORDS] {
    let mut records = [[0; RECORD_WORDS]; BLOCK_RECORDS];
    for place in &mut records {
        if life.left == 0 || life.rng.chance(1, 14) {
            *place = unused(&mut life.rng);
        } else {
            *place = life.next_record();
            life.live(place);
        }
    }
    block_of(&records)
}

/// An unused record; the words after the first are to be ignored.
fn unused(rng: &mut Rng) -> Words {
    let mut words = [0; RECORD_WORDS];
    if rng.chance(1, 2) {
        words.fill_with(|| edges::word(rng));
        words[0] = 0;
    }
    words
}

/// A block with a wrong sum. Its records would do something, but are not lived.
fn wrong_block(life: &mut Life) -> [u64; BLOCK_WORDS] {
    let mut records = [[0; RECORD_WORDS]; BLOCK_RECORDS];
    records.fill_with(|| life.theme()[0]);
    let mut words = block_of(&records);
    let last = BLOCK_WORDS - 1;
    match life.rng.below(5) {
        0 => words[last] = words[last].wrapping_sub(1),
        1 => words[last] = words[last].wrapping_add(1),
        2 => words[last] ^= 1 << (32 + life.rng.below(32)),
        3 => words = [0; BLOCK_WORDS],
        _ => words[last] = words[last].wrapping_add(1 + (life.rng.bits() >> 1)),
    }
    words
}

/// 1 to 511 bytes. Filled up with zero bytes the block would be right and do something.
fn short_block(life: &mut Life) -> Vec<u8> {
    let mut words = block_of(&life.theme()[..1]);
    // The second record is unused, so its next word can carry the sum instead of the last word.
    words[RECORD_WORDS + 1] = words[BLOCK_WORDS - 1];
    words[BLOCK_WORDS - 1] = 0;
    let mut bytes = bytes_of(&words);
    let length = match life.rng.below(4) {
        0 => 1,
        1 => BLOCK_BYTES - 1,
        2 => 2 * 8 * RECORD_WORDS,
        _ => 1 + life.rng.below(BLOCK_BYTES - 1),
    };
    bytes.truncate(length);
    bytes
}
