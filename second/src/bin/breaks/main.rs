//! Known breaks: the transcript program under rules that differ from document 01 in one decision.
//!
//! Runs every break over fixed seeds and counts the transcripts in which it is noticed.

use std::env;
use std::process::ExitCode;

use second::generate::{seeds, transcript};
use second::rules::{Rules, DOCUMENT_01};
use second::transcript::output;

/// A break and what it does wrong.
struct Break {
    name: &'static str,
    rules: Rules,
}

/// Breaks of one group: a type for each, with what it does wrong and the decision it changes.
macro_rules! known_breaks {
    ($group:ident $decisions:ident: $($name:ident $words:literal { $($change:tt)* })*) => {
        pub const BREAKS: &[crate::Break] = &[
            $(crate::Break {
                name: $words,
                rules: second::rules::Rules { $group: &$name, ..second::rules::DOCUMENT_01 },
            }),*
        ];
        $(
            struct $name;
            impl second::rules::$decisions for $name { $($change)* }
        )*
    };
}

mod calls;
mod counters;
mod orders;
mod program;
mod states;
mod traffic;

/// Every known break.
fn all() -> impl Iterator<Item = &'static Break> {
    let groups = [
        calls::BREAKS,
        orders::BREAKS,
        states::BREAKS,
        traffic::BREAKS,
        counters::BREAKS,
        program::BREAKS,
    ];
    groups.into_iter().flatten()
}

/// First seed, number of seeds and records of each, unless others are given.
const FIXED: [u64; 3] = [1, 24, 1500];

fn main() -> ExitCode {
    let given: Result<Vec<u64>, _> = env::args().skip(1).map(|n| n.parse()).collect();
    match given.as_deref() {
        Ok([]) => run(FIXED),
        Ok(&[first, count, records]) if count > 0 => run([first, count, records]),
        _ => {
            eprintln!("usage: breaks [FIRST COUNT RECORDS]");
            ExitCode::from(2)
        }
    }
}

fn run([first, count, records]: [u64; 3]) -> ExitCode {
    println!("{count} seeds from {first} on, {records} records each");
    let inputs = seeds(first, count).map(|seed| transcript(seed, records as usize));
    let right = |input: Vec<u8>| (output(DOCUMENT_01, &input), input);
    let transcripts: Vec<(String, Vec<u8>)> = inputs.map(right).collect();
    let (mut breaks, mut never) = (0, 0);
    for known in all() {
        let noticed = |(right, input): &&(String, Vec<u8>)| output(known.rules, input) != *right;
        let times = transcripts.iter().filter(noticed).count();
        println!("{times:>4} of {count}  {}", known.name);
        breaks += 1;
        never += usize::from(times == 0);
    }
    println!(
        "{} of {breaks} breaks noticed, {never} never",
        breaks - never
    );
    if never == 0 {
        ExitCode::SUCCESS
    } else {
        ExitCode::FAILURE
    }
}
