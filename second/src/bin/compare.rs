//! Runs generated transcripts through another transcript program and compares byte for byte.

use std::env;
use std::io::{self, Write};
use std::process::{Command, ExitCode, ExitStatus, Stdio};
use std::thread;

use second::describe;
use second::generate::{seeds, transcript, Rng};
use second::rules::DOCUMENT_01;
use second::transcript::{lines, Line};

const USAGE: &str = "usage: compare PROGRAM [COUNT [FIRST [RECORDS]]]";
/// Transcripts, first seed and records of a transcript, unless others are given.
const FIXED: [u64; 3] = [100, 1, 700];
/// So many that differ are shown: a program that is wrong throughout would flood the screen.
const SHOWN: u64 = 10;

fn main() -> ExitCode {
    let arguments: Vec<String> = env::args().skip(1).collect();
    let Some((program, numbers)) = arguments.split_first() else {
        eprintln!("{USAGE}");
        return ExitCode::from(2);
    };
    let numbers: Result<Vec<u64>, _> = numbers.iter().map(|n| n.parse()).collect();
    match numbers {
        // No transcripts at all would pass whatever the other program does.
        Ok(numbers) if numbers.len() <= FIXED.len() && numbers.first() != Some(&0) => {
            let mut all = FIXED;
            all[..numbers.len()].copy_from_slice(&numbers);
            compare_all(program, all)
        }
        _ => {
            eprintln!("{USAGE}");
            ExitCode::from(2)
        }
    }
}

fn compare_all(program: &str, [count, first, records]: [u64; 3]) -> ExitCode {
    println!("{program}: {count} transcripts, seeds from {first} on, {records} records each,");
    println!("0 to 9 records for seeds that 10 divides; odd seeds are written in pieces");
    let mut failed = 0;
    for seed in seeds(first, count) {
        match compare(program, seed, records_of(seed, records), failed < SHOWN) {
            Ok(true) => {}
            Ok(false) => failed += 1,
            Err(error) => {
                eprintln!("compare: cannot run {program}: {error}");
                return ExitCode::from(2);
            }
        }
    }
    if failed > SHOWN {
        println!("{} more differ and are not shown", failed - SHOWN);
    }
    println!("{} passed, {failed} failed", count - failed);
    ExitCode::from(u8::from(failed > 0))
}

/// Every tenth transcript is short, so that empty input and single blocks come up too.
fn records_of(seed: u64, records: u64) -> u64 {
    if seed.is_multiple_of(10) {
        seed / 10 % 10
    } else {
        records
    }
}

/// Whether both programs print the same; if not and it is to be shown, says where they part.
fn compare(program: &str, seed: u64, records: u64, show: bool) -> io::Result<bool> {
    let input = transcript(seed, records as usize);
    let ours = lines(DOCUMENT_01, &input);
    let (status, theirs) = run(program, &input, seed)?;
    let printed: String = ours.iter().map(|line| format!("{line}\n")).collect();
    if printed.as_bytes() == theirs && status.success() {
        return Ok(true);
    }
    if !show {
        return Ok(false);
    }
    println!("seed {seed}, {records} records (generate {seed} {records}):");
    if !status.success() {
        println!("  the other program ended with {status}");
    }
    if printed.as_bytes() != theirs {
        report(&ours, &String::from_utf8_lossy(&theirs));
    }
    Ok(false)
}

/// The first line that differs, from both, and the record that it answers.
fn report(ours: &[Line], theirs: &str) {
    let printed: Vec<String> = ours.iter().map(|line| format!("{line}\n")).collect();
    let theirs: Vec<&str> = theirs.split_inclusive('\n').collect();
    let same = printed.iter().zip(&theirs).take_while(|(a, b)| a == b);
    let place = same.count();
    println!("  line {} differs", place + 1);
    println!(
        "  second: {}",
        shown(printed.get(place).map(|l| l.as_str()))
    );
    println!("  other:  {}", shown(theirs.get(place).copied()));
    println!("  record: {}", record_in_words(ours.get(place)));
}

/// A line with its end made visible; of a long one, the beginning.
fn shown(line: Option<&str>) -> String {
    match line {
        None => "no line".to_string(),
        Some(line) if line.chars().count() > 80 => {
            let beginning: String = line.chars().take(80).collect();
            format!("{beginning:?}...")
        }
        Some(line) => format!("{line:?}"),
    }
}

fn record_in_words(line: Option<&Line>) -> String {
    match line {
        Some(Line::Answered { record, .. }) => describe::record(record),
        Some(Line::WrongBlock) => "a block with a wrong check".to_string(),
        Some(Line::Short) => "a short last block".to_string(),
        None => "none, the input has ended".to_string(),
    }
}

/// Runs the other program on the input, and gives how it ended and what it printed.
fn run(program: &str, input: &[u8], seed: u64) -> io::Result<(ExitStatus, Vec<u8>)> {
    let mut command = Command::new(program);
    let mut child = command
        .stdin(Stdio::piped())
        .stdout(Stdio::piped())
        .spawn()?;
    let pipe = child.stdin.take();
    // A thread writes, as both pipes could fill up.
    thread::scope(|scope| {
        scope.spawn(move || pipe.map(|pipe| write(pipe, input, seed)));
        let output = child.wait_with_output()?;
        Ok((output.status, output.stdout))
    })
}

/// Writes whole or in pieces. A program that stops reading early shows in what it prints.
fn write(mut pipe: impl Write, input: &[u8], seed: u64) -> io::Result<()> {
    let mut rng = Rng::new(seed);
    let mut rest = input;
    while !rest.is_empty() {
        let wanted = if seed % 2 == 1 {
            1 + rng.below(1500)
        } else {
            rest.len()
        };
        let (piece, after) = rest.split_at(wanted.min(rest.len()));
        pipe.write_all(piece)?;
        rest = after;
    }
    Ok(())
}
