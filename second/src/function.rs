//! The functions that are dispatched, by extension and function number.

use crate::numbers::{EID_BASE, EID_HSM, EID_IPI, EID_PMU, EID_RFENCE};

/// The remote fences, in the order of their function numbers.
#[derive(Clone, Copy, Debug, PartialEq, Eq, PartialOrd, Ord)]
pub enum Fence {
    FenceI,
    SfenceVma,
    SfenceVmaAsid,
    HfenceGvmaVmid,
    HfenceGvma,
    HfenceVvmaAsid,
    HfenceVvma,
}

impl Fence {
    /// Every fence, at the place of its function number.
    pub const ALL: [Fence; 7] = [
        Fence::FenceI,
        Fence::SfenceVma,
        Fence::SfenceVmaAsid,
        Fence::HfenceGvmaVmid,
        Fence::HfenceGvma,
        Fence::HfenceVvmaAsid,
        Fence::HfenceVvma,
    ];

    /// The function number.
    pub fn fid(self) -> u64 {
        self as u64
    }

    /// FENCE.I alone has no range.
    pub fn has_range(self) -> bool {
        self != Fence::FenceI
    }

    /// Whether a4 carries an ASID or a VMID.
    pub fn has_id(self) -> bool {
        matches!(
            self,
            Fence::SfenceVmaAsid | Fence::HfenceGvmaVmid | Fence::HfenceVvmaAsid
        )
    }
}

/// A function that is not refused as unknown.
#[derive(Clone, Copy, Debug, PartialEq, Eq, PartialOrd, Ord)]
pub enum Function {
    SpecVersion,
    ImplementationId,
    ImplementationVersion,
    Probe,
    MachineVendor,
    MachineArchitecture,
    MachineImplementation,
    Interrupt,
    RemoteFence(Fence),
    HartStart,
    HartStop,
    HartStatus,
    HartSuspend,
    CounterNumber,
    CounterDetails,
    Configure,
    CounterStart,
    CounterStop,
    Read,
    HighRead,
}

const BASE: [Function; 7] = [
    Function::SpecVersion,
    Function::ImplementationId,
    Function::ImplementationVersion,
    Function::Probe,
    Function::MachineVendor,
    Function::MachineArchitecture,
    Function::MachineImplementation,
];

const HSM: [Function; 4] = [
    Function::HartStart,
    Function::HartStop,
    Function::HartStatus,
    Function::HartSuspend,
];

/// Functions 7 and 8 are not among them: they answer -2.
const PMU: [Function; 7] = [
    Function::CounterNumber,
    Function::CounterDetails,
    Function::Configure,
    Function::CounterStart,
    Function::CounterStop,
    Function::Read,
    Function::HighRead,
];

/// The functions of an extension, at the places of their numbers.
pub fn functions(eid: u64) -> Vec<Function> {
    match eid {
        EID_BASE => BASE.to_vec(),
        EID_IPI => vec![Function::Interrupt],
        EID_RFENCE => Fence::ALL.map(Function::RemoteFence).to_vec(),
        EID_HSM => HSM.to_vec(),
        EID_PMU => PMU.to_vec(),
        _ => Vec::new(),
    }
}

impl Function {
    /// The function with these numbers, compared over 64 bits.
    pub fn of(eid: u64, fid: u64) -> Option<Function> {
        let place = usize::try_from(fid).ok()?;
        functions(eid).get(place).copied()
    }

    /// Its name in words.
    pub fn name(self) -> &'static str {
        match self {
            Function::SpecVersion => "Base specification version",
            Function::ImplementationId => "Base implementation ID",
            Function::ImplementationVersion => "Base implementation version",
            Function::Probe => "Base probe",
            Function::MachineVendor => "Base machine vendor",
            Function::MachineArchitecture => "Base machine architecture",
            Function::MachineImplementation => "Base machine implementation",
            Function::Interrupt => "IPI interrupt",
            Function::RemoteFence(fence) => fence.name(),
            Function::HartStart => "HSM start",
            Function::HartStop => "HSM stop",
            Function::HartStatus => "HSM status",
            Function::HartSuspend => "HSM suspend",
            Function::CounterNumber => "PMU number of counters",
            Function::CounterDetails => "PMU details",
            Function::Configure => "PMU configure",
            Function::CounterStart => "PMU start",
            Function::CounterStop => "PMU stop",
            Function::Read => "PMU read",
            Function::HighRead => "PMU high read",
        }
    }
}

impl Fence {
    /// Its name in words.
    pub fn name(self) -> &'static str {
        match self {
            Fence::FenceI => "RFENCE FENCE.I",
            Fence::SfenceVma => "RFENCE SFENCE.VMA",
            Fence::SfenceVmaAsid => "RFENCE SFENCE.VMA ASID",
            Fence::HfenceGvmaVmid => "RFENCE HFENCE.GVMA VMID",
            Fence::HfenceGvma => "RFENCE HFENCE.GVMA",
            Fence::HfenceVvmaAsid => "RFENCE HFENCE.VVMA ASID",
            Fence::HfenceVvma => "RFENCE HFENCE.VVMA",
        }
    }
}
