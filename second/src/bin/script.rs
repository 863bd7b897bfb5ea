//! Turns a readable script into the blocks that the transcript program reads.

use std::env;
use std::fs;
use std::io::{self, Read, Write};
use std::process::ExitCode;

use second::script::{blocks, records};

const USAGE: &str = "usage: script FILE|- > BLOCKS";

fn main() -> ExitCode {
    let arguments: Vec<String> = env::args().skip(1).collect();
    let [name] = &arguments[..] else {
        eprintln!("{USAGE}");
        return ExitCode::from(2);
    };
    let script = match read(name) {
        Ok(script) => script,
        Err(error) => {
            eprintln!("script: cannot read {name}: {error}");
            return ExitCode::from(2);
        }
    };
    // Every line is read before a byte is written, so that a bad script gives nothing.
    match records(&script) {
        Ok(records) => write(&blocks(&records)),
        Err(bad) => {
            eprintln!("{name}:{}: {}", bad.line, bad.reason);
            ExitCode::FAILURE
        }
    }
}

fn read(name: &str) -> io::Result<Vec<u8>> {
    if name != "-" {
        return fs::read(name);
    }
    let mut script = Vec::new();
    io::stdin().lock().read_to_end(&mut script)?;
    Ok(script)
}

fn write(blocks: &[u8]) -> ExitCode {
    let mut output = io::stdout().lock();
    match output.write_all(blocks).and_then(|()| output.flush()) {
        Ok(()) => ExitCode::SUCCESS,
        Err(error) => {
            eprintln!("script: cannot write standard output: {error}");
            ExitCode::FAILURE
        }
    }
}
