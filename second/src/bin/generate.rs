//! Writes an input of the transcript program to standard output, or counts what inputs reach.

use std::env;
use std::io::{self, Write};
use std::process::ExitCode;

use second::coverage::Coverage;
use second::generate::{seeds, transcript};
use second::rules::DOCUMENT_01;
use second::transcript::lines;

const USAGE: &str = "usage: generate SEED RECORDS > FILE
       generate --coverage FIRST COUNT RECORDS";

fn main() -> ExitCode {
    let arguments: Vec<String> = env::args().skip(1).collect();
    let (coverage, numbers) = match arguments.split_first() {
        Some((first, rest)) if first == "--coverage" => (true, rest),
        _ => (false, &arguments[..]),
    };
    let numbers: Result<Vec<u64>, _> = numbers.iter().map(|n| n.parse()).collect();
    match (coverage, numbers.as_deref()) {
        (false, Ok([seed, records])) => write(*seed, *records as usize),
        (true, Ok([first, count, records])) => cover(*first, *count, *records as usize),
        _ => {
            eprintln!("{USAGE}");
            ExitCode::from(2)
        }
    }
}

fn write(seed: u64, records: usize) -> ExitCode {
    match io::stdout().write_all(&transcript(seed, records)) {
        Ok(()) => ExitCode::SUCCESS,
        Err(error) => {
            eprintln!("generate: cannot write standard output: {error}");
            ExitCode::FAILURE
        }
    }
}

fn cover(first: u64, count: u64, records: usize) -> ExitCode {
    let mut coverage = Coverage::default();
    for seed in seeds(first, count) {
        for line in lines(DOCUMENT_01, &transcript(seed, records)) {
            coverage.take(&line);
        }
    }
    print!("{}", coverage.table());
    if coverage.is_whole() {
        ExitCode::SUCCESS
    } else {
        eprintln!("generate: something that can be reached was never reached");
        ExitCode::FAILURE
    }
}
