//! Says in words what the lines of the transcript program mean.

use std::env;
use std::fs;
use std::io::{self, Write};
use std::process::ExitCode;

use second::explain::explain;

const USAGE: &str = "usage: explain INPUT LINES   (the blocks, and the lines printed for them)";

fn main() -> ExitCode {
    let arguments: Vec<String> = env::args().skip(1).collect();
    let [input, printed] = &arguments[..] else {
        eprintln!("{USAGE}");
        return ExitCode::from(2);
    };
    let (Some(input), Some(printed)) = (read(input), read(printed)) else {
        return ExitCode::from(2);
    };
    let explained = explain(&input, &String::from_utf8_lossy(&printed));
    let mut output = io::stdout().lock();
    let written = output.write_all(explained.text.as_bytes());
    if let Err(error) = written.and_then(|()| output.flush()) {
        eprintln!("explain: cannot write standard output: {error}");
        return ExitCode::FAILURE;
    }
    match explained.difference {
        None => ExitCode::SUCCESS,
        Some(difference) => {
            eprintln!("explain: {difference}");
            ExitCode::FAILURE
        }
    }
}

/// The bytes of a file; says why there are none.
fn read(name: &str) -> Option<Vec<u8>> {
    let bytes = fs::read(name);
    if let Err(error) = &bytes {
        eprintln!("explain: cannot read {name}: {error}");
    }
    bytes.ok()
}
