//! The checks of each function with their errors, in the order that document 01 gives.

use crate::function::{Fence, Function};
use crate::numbers::Error;
use Error::{
    AlreadyAvailable, AlreadyStarted, AlreadyStopped, InvalidAddress, InvalidParam, NoSharedMemory,
    NotSupported,
};

/// One check; `checks` says when it passes.
#[derive(Clone, Copy, Debug, PartialEq, Eq)]
pub enum Check {
    /// The hart in a0 is enabled.
    HartEnabled,
    /// The hart in a0 is STOPPED.
    HartStopped,
    /// The address in a1 is valid.
    Address,
    /// The suspend type in a0 is implemented.
    SuspendType,
    /// The address in a1 is valid, or the suspend type is retentive.
    ResumeAddress,
    /// Every hart that mask a0 and base a1 select is enabled.
    Harts,
    /// a4 is below 2^width.
    Asid,
    Vmid,
    /// Every selected hart has the hypervisor extension.
    Hypervisor,
    /// Start a2 and size a3 are a range.
    Range,
    /// No flag of a2 above this bit is set.
    FlagsUpTo(u32),
    /// No counter of base a0 and mask a1 is over 7.
    Counters,
    /// a3 is the index of an event that can be counted.
    Event,
    /// The event data in a4 is zero.
    EventData,
    /// A counter of the set can be chosen.
    Match,
    /// Every counter of the set is mapped.
    SetMapped,
    /// The snapshot flag is clear, as there is no shared memory.
    Snapshot,
    /// No counter of the set is running.
    NoneRunning,
    /// Every counter of the set is running.
    AllRunning,
    /// The counter in a0 is 0 to 7.
    Counter,
    /// The counter in a0 is mapped.
    CounterMapped,
}

/// A list of checks, each with the error of a call that fails it.
pub type Order = &'static [(Check, Error)];

const NONE: Order = &[];
const HARTS: Order = &[(Check::Harts, InvalidParam)];
const SFENCE: Order = &[(Check::Harts, InvalidParam), (Check::Range, InvalidAddress)];
const SFENCE_ASID: Order = &[
    (Check::Harts, InvalidParam),
    (Check::Asid, InvalidParam),
    (Check::Range, InvalidAddress),
];
const HFENCE: Order = &[
    (Check::Harts, InvalidParam),
    (Check::Hypervisor, NotSupported),
    (Check::Range, InvalidAddress),
];
const HFENCE_ASID: Order = &[
    (Check::Harts, InvalidParam),
    (Check::Asid, InvalidParam),
    (Check::Hypervisor, NotSupported),
    (Check::Range, InvalidAddress),
];
const HFENCE_VMID: Order = &[
    (Check::Harts, InvalidParam),
    (Check::Vmid, InvalidParam),
    (Check::Hypervisor, NotSupported),
    (Check::Range, InvalidAddress),
];
const HART_START: Order = &[
    (Check::HartEnabled, InvalidParam),
    (Check::HartStopped, AlreadyAvailable),
    (Check::Address, InvalidAddress),
];
const HART_STATUS: Order = &[(Check::HartEnabled, InvalidParam)];
const HART_SUSPEND: Order = &[
    (Check::SuspendType, InvalidParam),
    (Check::ResumeAddress, InvalidAddress),
];
const DETAILS: Order = &[(Check::Counter, InvalidParam)];
const CONFIGURE: Order = &[
    (Check::FlagsUpTo(7), InvalidParam),
    (Check::Counters, InvalidParam),
    (Check::Event, NotSupported),
    (Check::EventData, InvalidParam),
    (Check::Match, NotSupported),
];
const COUNTER_START: Order = &[
    (Check::FlagsUpTo(1), InvalidParam),
    (Check::Counters, InvalidParam),
    (Check::SetMapped, InvalidParam),
    (Check::Snapshot, NoSharedMemory),
    (Check::NoneRunning, AlreadyStarted),
];
const COUNTER_STOP: Order = &[
    (Check::FlagsUpTo(1), InvalidParam),
    (Check::Counters, InvalidParam),
    (Check::Snapshot, NoSharedMemory),
    (Check::AllRunning, AlreadyStopped),
];
const READ: Order = &[
    (Check::Counter, InvalidParam),
    (Check::CounterMapped, InvalidParam),
];

/// The checks of a function, in order.
pub fn order(function: Function) -> Order {
    match function {
        Function::SpecVersion
        | Function::ImplementationId
        | Function::ImplementationVersion
        | Function::Probe
        | Function::MachineVendor
        | Function::MachineArchitecture
        | Function::MachineImplementation
        | Function::HartStop
        | Function::CounterNumber => NONE,
        Function::Interrupt => HARTS,
        Function::RemoteFence(fence) => fence_order(fence),
        Function::HartStart => HART_START,
        Function::HartStatus => HART_STATUS,
        Function::HartSuspend => HART_SUSPEND,
        Function::CounterDetails => DETAILS,
        Function::Configure => CONFIGURE,
        Function::CounterStart => COUNTER_START,
        Function::CounterStop => COUNTER_STOP,
        Function::Read | Function::HighRead => READ,
    }
}

fn fence_order(fence: Fence) -> Order {
    match fence {
        Fence::FenceI => HARTS,
        Fence::SfenceVma => SFENCE,
        Fence::SfenceVmaAsid => SFENCE_ASID,
        Fence::HfenceGvmaVmid => HFENCE_VMID,
        Fence::HfenceGvma | Fence::HfenceVvma => HFENCE,
        Fence::HfenceVvmaAsid => HFENCE_ASID,
    }
}
