//! The transcript program: blocks in, a line for each used record out.

use std::fmt;
use std::io::{self, ErrorKind, Read, Write};

use crate::answer::Answer;
use crate::machine::Machine;
use crate::numbers::Refusal;
use crate::platform::Platform;
use crate::record::{records_of, words_of, Record, BLOCK_BYTES, RECORD_WORDS};
use crate::rules::{Rules, DOCUMENT_01};

/// One line of output, with the record that it answers.
#[derive(Clone, Debug, PartialEq, Eq)]
pub enum Line {
    Answered {
        number: u64,
        record: [u64; RECORD_WORDS],
        outcome: Result<Answer, Refusal>,
    },
    WrongBlock,
    Short,
}

impl fmt::Display for Line {
    fn fmt(&self, f: &mut fmt::Formatter) -> fmt::Result {
        match self {
            Line::Answered {
                number,
                outcome: Ok(a),
                ..
            } => write!(f, "{number} {} {} {}", a.error, a.value, a.actions.len()),
            Line::Answered {
                number,
                outcome: Err(refusal),
                ..
            } => write!(f, "{number} H{}", refusal.number()),
            Line::WrongBlock => write!(f, "H{}", Refusal::WrongCheck.number()),
            Line::Short => write!(f, "short"),
        }
    }
}

/// The program between two blocks.
pub struct Program {
    rules: Rules,
    machine: Machine,
    /// The number of the last used record.
    number: u64,
}

impl Program {
    /// Fresh tables on the program's platform.
    pub fn new(rules: Rules) -> Program {
        Program {
            rules,
            machine: Machine::under(rules, Platform::program()),
            number: 0,
        }
    }

    /// Answers a whole block.
    pub fn block(&mut self, block: &[u8; BLOCK_BYTES]) -> Vec<Line> {
        let words = words_of(block);
        if !self.rules.program.block_right(&words) {
            self.number = self.rules.program.number_after_wrong_block(self.number);
            return vec![Line::WrongBlock];
        }
        let tables = &self.machine.tables;
        self.machine.tables = self.rules.program.carried(&self.machine.platform, tables);
        let records = records_of(&words);
        records.iter().filter_map(|r| self.record(r)).collect()
    }

    /// Answers a record; an unused one has no line.
    fn record(&mut self, words: &[u64; RECORD_WORDS]) -> Option<Line> {
        let record = self.rules.program.record(words);
        self.number = self.rules.program.number_after(&record, self.number);
        let outcome = match record {
            Record::Unused => return None,
            Record::UnknownKind => Err(Refusal::UnknownKind),
            Record::Used(operation) => self.machine.step(&operation),
        };
        Some(Line::Answered {
            number: self.number,
            record: *words,
            outcome,
        })
    }
}

/// Why the program ends before its input does.
#[derive(Debug)]
pub enum Failure {
    Read(io::Error),
    Write(io::Error),
}

impl fmt::Display for Failure {
    fn fmt(&self, f: &mut fmt::Formatter) -> fmt::Result {
        match self {
            Failure::Read(error) => write!(f, "cannot read standard input: {error}"),
            Failure::Write(error) => write!(f, "cannot write standard output: {error}"),
        }
    }
}

/// Answers blocks as they come, in pieces of any length, until the input ends. A read error also
/// ends it: the blocks that came whole have been answered, and what came after them is no short
/// last block, as no end was seen.
pub fn answer_blocks(
    rules: Rules,
    input: &mut dyn Read,
    output: &mut dyn FnMut(Line) -> io::Result<()>,
) -> Result<(), Failure> {
    let mut program = Program::new(rules);
    let mut block = [0; BLOCK_BYTES];
    loop {
        let filled = fill(input, &mut block).map_err(Failure::Read)?;
        let lines = if filled == BLOCK_BYTES {
            program.block(&block)
        } else if rules.program.prints_short(filled) {
            vec![Line::Short]
        } else {
            Vec::new()
        };
        for line in lines {
            output(line).map_err(Failure::Write)?;
        }
        if filled < BLOCK_BYTES {
            return Ok(());
        }
    }
}

/// Reads until the block is full or the input ends, and says how much came.
fn fill(input: &mut dyn Read, block: &mut [u8; BLOCK_BYTES]) -> io::Result<usize> {
    let mut filled = 0;
    while filled < BLOCK_BYTES {
        match input.read(&mut block[filled..]) {
            Ok(0) => break,
            Ok(read) => filled += read,
            Err(error) if error.kind() == ErrorKind::Interrupted => {}
            Err(error) => return Err(error),
        }
    }
    Ok(filled)
}

/// The program itself: what has been answered is written out also when reading fails.
pub fn run(input: &mut dyn Read, output: &mut dyn Write) -> Result<(), Failure> {
    let mut write = |line| writeln!(output, "{line}");
    let result = answer_blocks(DOCUMENT_01, input, &mut write);
    output.flush().map_err(Failure::Write)?;
    result
}

/// The lines for a whole input.
pub fn lines(rules: Rules, mut input: &[u8]) -> Vec<Line> {
    let mut lines = Vec::new();
    let mut keep = |line| {
        lines.push(line);
        Ok(())
    };
    let result = answer_blocks(rules, &mut input, &mut keep);
    result.expect("reading and writing memory does not fail");
    lines
}

/// The output for a whole input, as the program prints it.
pub fn output(rules: Rules, input: &[u8]) -> String {
    let lines = lines(rules, input);
    lines.iter().map(|line| format!("{line}\n")).collect()
}
