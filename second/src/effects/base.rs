//! Base: what the module reports about itself.

use crate::call::Call;
use crate::function::Function;
use crate::numbers::SPEC_VERSION;

/// The number that a function of Base reports; 0 for a function of another extension.
pub fn reported(call: &Call, function: Function) -> u64 {
    let numbers = call.platform.base_numbers();
    match function {
        Function::SpecVersion => SPEC_VERSION,
        Function::ImplementationId => numbers.implementation_id,
        Function::ImplementationVersion => numbers.implementation_version,
        Function::Probe => call.rules.calls.probe(call.a(0)),
        Function::MachineVendor => numbers.machine_vendor,
        Function::MachineArchitecture => numbers.machine_architecture,
        Function::MachineImplementation => numbers.machine_implementation,
        _ => 0,
    }
}
