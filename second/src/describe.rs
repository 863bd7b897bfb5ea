//! A record in words: which hart, which call, with the names of its arguments.

use crate::function::{Fence, Function};
use crate::operation::{Operation, Registers};
use crate::record::{Record, RECORD_WORDS};

/// What a record asks for.
pub fn record(words: &[u64; RECORD_WORDS]) -> String {
    match Record::of(words) {
        Record::Unused => "unused".to_string(),
        Record::UnknownKind => format!("unknown kind {}", number(words[0])),
        Record::Used(operation) => self::operation(&operation),
    }
}

/// What the host asks for.
pub fn operation(operation: &Operation) -> String {
    match operation {
        Operation::Call { hart, registers } => format!("hart {hart} calls {}", call(registers)),
        Operation::Done { hart } => format!("done of hart {hart}"),
        Operation::Wake { hart } => format!("wake of hart {hart}"),
        Operation::Event { hart, code } => {
            format!("event with code {} on hart {hart}", number(*code))
        }
    }
}

fn call(registers: &Registers) -> String {
    let (eid, fid) = (registers.a(7), registers.a(6));
    let function = Function::of(eid, fid);
    let name = function.map_or("an unknown function", Function::name);
    let names = function.map_or(&["a0", "a1", "a2", "a3", "a4", "a5"][..], arguments);
    let given = (0..names.len()).map(|i| format!("{} {}", names[i], number(registers.a(i))));
    let given: Vec<String> = given.collect();
    format!(
        "{name} (EID {eid:#x}, FID {fid:#x}) with {}",
        listed(&given)
    )
}

fn listed(given: &[String]) -> String {
    if given.is_empty() {
        "no arguments".to_string()
    } else {
        given.join(", ")
    }
}

/// Small numbers as they are, others as they are best compared.
fn number(word: u64) -> String {
    if word < 1024 {
        word.to_string()
    } else {
        format!("{word:#x}")
    }
}

/// The names of the arguments that a function reads, from a0 on.
pub fn arguments(function: Function) -> &'static [&'static str] {
    match function {
        Function::SpecVersion
        | Function::ImplementationId
        | Function::ImplementationVersion
        | Function::MachineVendor
        | Function::MachineArchitecture
        | Function::MachineImplementation
        | Function::HartStop
        | Function::CounterNumber => &[],
        Function::Probe => &["extension"],
        Function::Interrupt | Function::RemoteFence(Fence::FenceI) => &["mask", "base"],
        Function::RemoteFence(Fence::SfenceVmaAsid | Fence::HfenceVvmaAsid) => {
            &["mask", "base", "start", "size", "ASID"]
        }
        Function::RemoteFence(Fence::HfenceGvmaVmid) => &["mask", "base", "start", "size", "VMID"],
        Function::RemoteFence(_) => &["mask", "base", "start", "size"],
        Function::HartStart => &["hart", "address", "opaque"],
        Function::HartStatus => &["hart"],
        Function::HartSuspend => &["type", "address", "opaque"],
        Function::CounterDetails | Function::Read | Function::HighRead => &["counter"],
        Function::Configure => &["base", "mask", "flags", "event", "event data"],
        Function::CounterStart => &["base", "mask", "flags", "initial value"],
        Function::CounterStop => &["base", "mask", "flags"],
    }
}
