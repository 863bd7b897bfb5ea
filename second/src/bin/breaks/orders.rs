//! Breaks of the checks: another order, one too many, one missing.

use second::function::{Fence, Function};
use second::numbers::Error::{
    AlreadyAvailable, AlreadyStarted, AlreadyStopped, InvalidAddress, InvalidParam, NoSharedMemory,
    NotSupported,
};
use second::orders::{self, Check, Order};

/// The checks of document 01, but others for one function.
fn but(function: Function, changed: Function, checks: Order) -> Order {
    if function == changed {
        checks
    } else {
        orders::order(function)
    }
}

known_breaks! { calls CallRules:
    AddressBeforeState "start: -5 before -6" {
        fn order(&self, function: Function) -> Order {
            but(function, Function::HartStart, &[
                (Check::HartEnabled, InvalidParam),
                (Check::Address, InvalidAddress),
                (Check::HartStopped, AlreadyAvailable),
            ])
        }
    }
    StatusOfAnyHart "status answers for a hart that is not enabled" {
        fn order(&self, function: Function) -> Order {
            but(function, Function::HartStatus, &[])
        }
    }
    RetentiveAddress "retentive suspend looks at the address" {
        fn order(&self, function: Function) -> Order {
            but(function, Function::HartSuspend, &[
                (Check::SuspendType, InvalidParam),
                (Check::Address, InvalidAddress),
            ])
        }
    }
    RangeBeforeAsid "fence: -5 before the -3 of an ASID" {
        fn order(&self, function: Function) -> Order {
            but(function, Function::RemoteFence(Fence::SfenceVmaAsid), &[
                (Check::Harts, InvalidParam),
                (Check::Range, InvalidAddress),
                (Check::Asid, InvalidParam),
            ])
        }
    }
    RangeBeforeHarts "fence: -5 before the -3 of a hart" {
        fn order(&self, function: Function) -> Order {
            but(function, Function::RemoteFence(Fence::SfenceVma), &[
                (Check::Range, InvalidAddress),
                (Check::Harts, InvalidParam),
            ])
        }
    }
    VmidByAsidWidth "VMID tested by the ASID width" {
        fn order(&self, function: Function) -> Order {
            but(function, Function::RemoteFence(Fence::HfenceGvmaVmid), &[
                (Check::Harts, InvalidParam),
                (Check::Asid, InvalidParam),
                (Check::Hypervisor, NotSupported),
                (Check::Range, InvalidAddress),
            ])
        }
    }
    AsidOfEveryFence "SFENCE.VMA without ASID looks at a4" {
        fn order(&self, function: Function) -> Order {
            let asid = orders::order(Function::RemoteFence(Fence::SfenceVmaAsid));
            but(function, Function::RemoteFence(Fence::SfenceVma), asid)
        }
    }
    FenceIRange "FENCE.I looks at a range" {
        fn order(&self, function: Function) -> Order {
            let range = orders::order(Function::RemoteFence(Fence::SfenceVma));
            but(function, Function::RemoteFence(Fence::FenceI), range)
        }
    }
    DataBeforeEvent "configure: event data before the event" {
        fn order(&self, function: Function) -> Order {
            but(function, Function::Configure, &[
                (Check::FlagsUpTo(7), InvalidParam),
                (Check::Counters, InvalidParam),
                (Check::EventData, InvalidParam),
                (Check::Event, NotSupported),
                (Check::Match, NotSupported),
            ])
        }
    }
    MatchBeforeData "configure: match before the event data" {
        fn order(&self, function: Function) -> Order {
            but(function, Function::Configure, &[
                (Check::FlagsUpTo(7), InvalidParam),
                (Check::Counters, InvalidParam),
                (Check::Event, NotSupported),
                (Check::Match, NotSupported),
                (Check::EventData, InvalidParam),
            ])
        }
    }
    HintsRefused "configure refuses hints" {
        fn order(&self, function: Function) -> Order {
            but(function, Function::Configure, &[
                (Check::FlagsUpTo(2), InvalidParam),
                (Check::Counters, InvalidParam),
                (Check::Event, NotSupported),
                (Check::EventData, InvalidParam),
                (Check::Match, NotSupported),
            ])
        }
    }
    SnapshotBeforeMapped "start: -9 before the -3 of an unmapped counter" {
        fn order(&self, function: Function) -> Order {
            but(function, Function::CounterStart, &[
                (Check::FlagsUpTo(1), InvalidParam),
                (Check::Counters, InvalidParam),
                (Check::Snapshot, NoSharedMemory),
                (Check::SetMapped, InvalidParam),
                (Check::NoneRunning, AlreadyStarted),
            ])
        }
    }
    RunningBeforeSnapshot "start: -7 before -9" {
        fn order(&self, function: Function) -> Order {
            but(function, Function::CounterStart, &[
                (Check::FlagsUpTo(1), InvalidParam),
                (Check::Counters, InvalidParam),
                (Check::SetMapped, InvalidParam),
                (Check::NoneRunning, AlreadyStarted),
                (Check::Snapshot, NoSharedMemory),
            ])
        }
    }
    IdleBeforeSnapshot "stop: -8 before -9" {
        fn order(&self, function: Function) -> Order {
            but(function, Function::CounterStop, &[
                (Check::FlagsUpTo(1), InvalidParam),
                (Check::Counters, InvalidParam),
                (Check::AllRunning, AlreadyStopped),
                (Check::Snapshot, NoSharedMemory),
            ])
        }
    }
    StopOfUnmapped "stop of an unmapped counter is -3" {
        fn order(&self, function: Function) -> Order {
            but(function, Function::CounterStop, &[
                (Check::FlagsUpTo(1), InvalidParam),
                (Check::Counters, InvalidParam),
                (Check::SetMapped, InvalidParam),
                (Check::Snapshot, NoSharedMemory),
                (Check::AllRunning, AlreadyStopped),
            ])
        }
    }
    UnmappedReads "an unmapped counter can be read" {
        fn order(&self, function: Function) -> Order {
            but(function, Function::Read, &[(Check::Counter, InvalidParam)])
        }
    }
    UnmappedHighReads "the high half of an unmapped counter can be read" {
        fn order(&self, function: Function) -> Order {
            but(function, Function::HighRead, &[(Check::Counter, InvalidParam)])
        }
    }
}
