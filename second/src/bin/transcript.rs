//! The transcript program: blocks of 512 bytes on standard input, lines on standard output.

use std::io::{self, BufWriter};
use std::process::ExitCode;

use second::transcript;

fn main() -> ExitCode {
    let mut output = BufWriter::new(io::stdout().lock());
    match transcript::run(&mut io::stdin().lock(), &mut output) {
        Ok(()) => ExitCode::SUCCESS,
        Err(failure) => {
            eprintln!("transcript: {failure}");
            ExitCode::FAILURE
        }
    }
}
