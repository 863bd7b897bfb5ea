//! The host's view: tables altered in place and actions laid in its own memory.

use crate::answer::{answer_raw, Answer};
use crate::numbers::Refusal;
use crate::operation::Operation;
use crate::raw::{RawPlatform, RawTables};

/// Answers in place and hands back the filled front part of the action memory, five words an
/// action; it is empty on every refusal. Words after it keep their contents.
pub fn answer_in_place<'m>(
    platform: &RawPlatform,
    tables: &mut RawTables,
    memory: &'m mut [u64],
    operation: &Operation,
) -> (Result<Answer, Refusal>, &'m mut [u64]) {
    match answer_raw(platform, tables, memory.len(), operation) {
        Ok((answer, next)) => {
            *tables = next;
            let words: Vec<u64> = answer.actions.iter().flat_map(|a| a.words()).collect();
            let front = &mut memory[..words.len()];
            front.copy_from_slice(&words);
            (Ok(answer), front)
        }
        Err(refusal) => (Err(refusal), &mut memory[..0]),
    }
}
