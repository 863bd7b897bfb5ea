//! A readable script of records, one a line, and the blocks that it stands for.

use crate::numbers::{EID_BASE, EID_HSM, EID_IPI, EID_PMU, EID_RFENCE};
use crate::record::{block_of, bytes_of, BLOCK_RECORDS, LAST_HART, RECORD_WORDS};
use crate::record::{CALL, DONE, EVENT, WAKE};

/// A record as it stands in a block.
pub type Words = [u64; RECORD_WORDS];

/// What is written for each extension; IPI also goes by the letters of its number.
const EXTENSIONS: [(&str, u64); 6] = [
    ("base", EID_BASE),
    ("ipi", EID_IPI),
    ("spi", EID_IPI),
    ("rfence", EID_RFENCE),
    ("hsm", EID_HSM),
    ("pmu", EID_PMU),
];

/// What is written for each function of an extension, at the place of its number.
pub fn function_names(eid: u64) -> &'static [&'static str] {
    match eid {
        EID_BASE => &[
            "spec",
            "implid",
            "implversion",
            "probe",
            "mvendorid",
            "marchid",
            "mimpid",
        ],
        EID_IPI => &["send"],
        EID_RFENCE => &[
            "fence.i",
            "sfence.vma",
            "sfence.vma.asid",
            "hfence.gvma.vmid",
            "hfence.gvma",
            "hfence.vvma.asid",
            "hfence.vvma",
        ],
        EID_HSM => &["start", "stop", "status", "suspend"],
        EID_PMU => &[
            "counters",
            "details",
            "configure",
            "start",
            "stop",
            "read",
            "readhigh",
        ],
        _ => &[],
    }
}

/// The line that is refused, counted from 1, and why.
#[derive(Clone, Debug, PartialEq, Eq)]
pub struct BadLine {
    pub line: usize,
    pub reason: String,
}

/// The records of a whole script, or its first bad line.
pub fn records(script: &[u8]) -> Result<Vec<Words>, BadLine> {
    let mut records = Vec::new();
    for (place, line) in script.split(|&byte| byte == b'\n').enumerate() {
        let read = match std::str::from_utf8(line) {
            Ok(text) => record(text),
            Err(_) => Err("not text in UTF-8".to_string()),
        };
        let bad = |reason| BadLine {
            line: place + 1,
            reason,
        };
        records.extend(read.map_err(bad)?);
    }
    Ok(records)
}

/// The blocks that hold the records, seven in each; no records, no block.
pub fn blocks(records: &[Words]) -> Vec<u8> {
    let blocks = records.chunks(BLOCK_RECORDS);
    blocks
        .flat_map(|seven| bytes_of(&block_of(seven)))
        .collect()
}

/// The record of a line; none if it has only blanks and a comment.
fn record(line: &str) -> Result<Option<Words>, String> {
    let text = line.split('#').next().unwrap_or("");
    let words: Vec<&str> = text.split_whitespace().collect();
    let Some((&kind, rest)) = words.split_first() else {
        return Ok(None);
    };
    match kind.to_ascii_lowercase().as_str() {
        "call" => call(rest).map(Some),
        "done" => alone(DONE, "done", rest).map(Some),
        "wake" => alone(WAKE, "wake", rest).map(Some),
        "event" => event(rest).map(Some),
        "raw" => raw(rest).map(Some),
        _ => Err(format!(
            "unknown kind '{kind}': it is call, done, wake, event or raw"
        )),
    }
}

fn call(words: &[&str]) -> Result<Words, String> {
    let [hart, extension, function, arguments @ ..] = words else {
        return Err("call needs a hart, an extension and a function".to_string());
    };
    if arguments.len() > 6 {
        let given = arguments.len();
        return Err(format!("call takes at most six arguments, not {given}"));
    }
    let eid = extension_number(extension)?;
    let mut record = [0; RECORD_WORDS];
    record[0] = first_word(CALL, hart)?;
    record[1] = eid;
    record[2] = function_number(eid, extension, function)?;
    fill(&mut record[3..], arguments)?;
    Ok(record)
}

/// A record that names a hart and nothing else.
fn alone(kind: u64, name: &str, words: &[&str]) -> Result<Words, String> {
    let [hart] = words else {
        return Err(format!("{name} takes a hart and nothing else"));
    };
    let mut record = [0; RECORD_WORDS];
    record[0] = first_word(kind, hart)?;
    Ok(record)
}

fn event(words: &[&str]) -> Result<Words, String> {
    let [hart, code] = words else {
        return Err("event takes a hart and a code".to_string());
    };
    let mut record = [0; RECORD_WORDS];
    record[0] = first_word(EVENT, hart)?;
    record[1] = number(code)?;
    Ok(record)
}

fn raw(words: &[&str]) -> Result<Words, String> {
    if words.is_empty() || words.len() > RECORD_WORDS {
        let given = words.len();
        return Err(format!("raw takes one to nine words, not {given}"));
    }
    let mut record = [0; RECORD_WORDS];
    fill(&mut record, words)?;
    Ok(record)
}

/// Writes the numbers at the beginning; what is not given stays 0.
fn fill(places: &mut [u64], words: &[&str]) -> Result<(), String> {
    for (place, word) in places.iter_mut().zip(words) {
        *place = number(word)?;
    }
    Ok(())
}

/// Kind and hart in one word. A higher hart would spill into another kind.
fn first_word(kind: u64, hart: &str) -> Result<u64, String> {
    let number = number(hart)?;
    if number > LAST_HART {
        return Err(format!(
            "hart {hart} is not in 0 to {LAST_HART}: a record cannot name it (use raw)"
        ));
    }
    Ok(kind + number)
}

fn extension_number(word: &str) -> Result<u64, String> {
    let named = EXTENSIONS
        .iter()
        .find(|(name, _)| name.eq_ignore_ascii_case(word));
    match named {
        Some(&(_, eid)) => Ok(eid),
        None if looks_like_number(word) => number(word),
        None => Err(format!(
            "unknown extension '{word}': it is base, ipi, rfence, hsm, pmu or a number"
        )),
    }
}

fn function_number(eid: u64, extension: &str, word: &str) -> Result<u64, String> {
    let names = function_names(eid);
    let place = names
        .iter()
        .position(|name| name.eq_ignore_ascii_case(word));
    match place {
        Some(place) => Ok(place as u64),
        None if looks_like_number(word) => number(word),
        None if names.is_empty() => Err(format!(
            "extension {extension} has no function names: '{word}' must be a number"
        )),
        None => Err(format!(
            "unknown function '{word}' of {extension}: it is {} or a number",
            names.join(", ")
        )),
    }
}

fn looks_like_number(word: &str) -> bool {
    word.starts_with(|c: char| c == '-' || c.is_ascii_digit())
}

/// Decimal or 0x hexadecimal, `_` between digits; a negative number is taken modulo 2^64.
fn number(word: &str) -> Result<u64, String> {
    let (negative, size) = match word.strip_prefix('-') {
        Some(size) => (true, size),
        None => (false, word),
    };
    let hexadecimal = size.strip_prefix("0x").or(size.strip_prefix("0X"));
    let (base, digits) = hexadecimal.map_or((10, size), |digits| (16, digits));
    let right = |part: &str| !part.is_empty() && part.chars().all(|c| c.is_digit(base));
    if !digits.split('_').all(right) {
        return Err(format!("'{word}' is not a number"));
    }
    let read = u64::from_str_radix(&digits.replace('_', ""), base).ok();
    match (read, negative) {
        (Some(size), false) => Ok(size),
        (Some(size), true) if size <= 1 << 63 => Ok(size.wrapping_neg()),
        (_, false) => Err(format!("{word} is over 2^64 - 1")),
        (_, true) => Err(format!("{word} is below -2^63")),
    }
}
