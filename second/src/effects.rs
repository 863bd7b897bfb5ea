//! What an accepted call does, by extension. Its checks have passed.

mod base;
mod counters;
mod states;
mod traffic;

pub use states::enter_on_wake;
pub use traffic::count;

use crate::call::{Accepted, Call};
use crate::function::Function;

/// The effect of a function.
pub fn of(call: &Call, function: Function) -> Accepted {
    match function {
        Function::SpecVersion
        | Function::ImplementationId
        | Function::ImplementationVersion
        | Function::Probe
        | Function::MachineVendor
        | Function::MachineArchitecture
        | Function::MachineImplementation => call.value(base::reported(call, function)),
        Function::Interrupt => traffic::interrupt(call),
        Function::RemoteFence(fence) => traffic::fence(call, fence),
        Function::HartStart => states::start(call),
        Function::HartStop => states::stop(call),
        Function::HartStatus => states::status(call),
        Function::HartSuspend => states::suspend(call),
        Function::CounterNumber => call.value(counters::NUMBER),
        Function::CounterDetails => call.value(counters::DETAILS),
        Function::Configure => counters::configure(call),
        Function::CounterStart => counters::start(call),
        Function::CounterStop => counters::stop(call),
        Function::Read => counters::read(call),
        // The value has 64 bits, so nothing is left for the high half.
        Function::HighRead => call.value(0),
    }
}
