//! The numbers of document 01: limits, extensions, errors and host refusals.

use crate::raw::Ground;

/// Hart numbers run from 0 to 127.
pub const HARTS: usize = 128;
/// Counters of a hart, 0 to 7.
pub const COUNTERS: usize = 8;
/// Memory ranges that a platform may have.
pub const RANGES: usize = 8;
/// Words that the host lends for actions: five for each of 128 harts.
pub const ACTION_MEMORY: usize = 640;
/// Widest ASID in bits.
pub const ASID_WIDTH: u64 = 16;
/// Widest VMID in bits.
pub const VMID_WIDTH: u64 = 14;
/// The last firmware event code that a counter may be mapped to.
pub const LAST_CODE: u64 = 21;
/// The last firmware event code that the host reports.
pub const LAST_REPORTED: u64 = 5;
/// Event index of the firmware event with code 0: type 15, code 0.
pub const FIRMWARE_EVENTS: u64 = 0xF0000;
/// Version 3.0 as Base reports it.
pub const SPEC_VERSION: u64 = 50331648;
/// Details of every counter: the type bit, a firmware counter.
pub const FIRMWARE_COUNTER: u64 = 1 << 63;

pub const EID_BASE: u64 = 0x10;
pub const EID_IPI: u64 = 0x735049;
pub const EID_RFENCE: u64 = 0x52464E43;
pub const EID_HSM: u64 = 0x48534D;
pub const EID_PMU: u64 = 0x504D55;

/// The five extensions that probe finds.
pub const EXTENSIONS: [u64; 5] = [EID_BASE, EID_IPI, EID_RFENCE, EID_HSM, EID_PMU];

/// Suspend types that are implemented; every other one is refused.
pub const SUSPEND_RETENTIVE: u32 = 0;
pub const SUSPEND_NON_RETENTIVE: u32 = 0x8000_0000;

/// Flags of configure.
pub const CONFIGURE_SKIP: u64 = 1 << 0;
pub const CONFIGURE_CLEAR: u64 = 1 << 1;
pub const CONFIGURE_RUN: u64 = 1 << 2;
/// Flag of start: load the initial value.
pub const START_LOAD: u64 = 1 << 0;
/// Flag of stop: unmap.
pub const STOP_UNMAP: u64 = 1 << 0;
/// Flag of start and stop: the snapshot.
pub const SNAPSHOT: u64 = 1 << 1;

/// An error that a call answers.
#[derive(Clone, Copy, Debug, PartialEq, Eq, PartialOrd, Ord)]
pub enum Error {
    NotSupported,
    InvalidParam,
    InvalidAddress,
    AlreadyAvailable,
    AlreadyStarted,
    AlreadyStopped,
    NoSharedMemory,
}

impl Error {
    /// The negative number that a0 carries.
    pub fn number(self) -> i64 {
        match self {
            Error::NotSupported => -2,
            Error::InvalidParam => -3,
            Error::InvalidAddress => -5,
            Error::AlreadyAvailable => -6,
            Error::AlreadyStarted => -7,
            Error::AlreadyStopped => -8,
            Error::NoSharedMemory => -9,
        }
    }
}

/// A host refusal, which comes instead of a pair.
#[derive(Clone, Copy, Debug, PartialEq, Eq)]
pub enum Refusal {
    NotWellFormed(Ground),
    HartNotEnabled,
    CallerNotStarted,
    ActionMemoryShort,
    StateForbids,
    EventCodeOver,
    UnknownKind,
    WrongCheck,
}

impl Refusal {
    /// The k of Hk.
    pub fn number(self) -> u8 {
        match self {
            Refusal::NotWellFormed(_) => 1,
            Refusal::HartNotEnabled => 2,
            Refusal::CallerNotStarted => 3,
            Refusal::ActionMemoryShort => 4,
            Refusal::StateForbids => 5,
            Refusal::EventCodeOver => 6,
            Refusal::UnknownKind => 7,
            Refusal::WrongCheck => 8,
        }
    }
}

impl From<Ground> for Refusal {
    fn from(ground: Ground) -> Refusal {
        Refusal::NotWellFormed(ground)
    }
}
