//! The platform record. A `Platform` is accepted by construction: see `raw` for the grounds.

use std::collections::BTreeSet;

/// A used memory range: its length is not zero and it does not run past 2^64.
#[derive(Clone, Copy, Debug, PartialEq, Eq)]
pub struct Range {
    pub(crate) base: u64,
    pub(crate) length: u64,
}

impl Range {
    /// The first address.
    pub fn base(&self) -> u64 {
        self.base
    }

    /// One past the last address, at most 2^64.
    pub fn end(&self) -> u128 {
        u128::from(self.base) + u128::from(self.length)
    }

    /// base ≤ address < base + length (house).
    pub fn holds(&self, address: u64) -> bool {
        self.base <= address && u128::from(address) < self.end()
    }
}

/// The five numbers that Base reports besides the specification version.
#[derive(Clone, Copy, Debug, Default, PartialEq, Eq)]
pub struct BaseNumbers {
    pub implementation_id: u64,
    pub implementation_version: u64,
    pub machine_vendor: u64,
    pub machine_architecture: u64,
    pub machine_implementation: u64,
}

/// A platform that is not refused.
#[derive(Clone, Debug, PartialEq, Eq)]
pub struct Platform {
    pub(crate) enabled: BTreeSet<u8>,
    pub(crate) hypervisor: BTreeSet<u8>,
    pub(crate) boot: u8,
    pub(crate) ranges: Vec<Range>,
    pub(crate) asid_width: u32,
    pub(crate) vmid_width: u32,
    pub(crate) base_numbers: BaseNumbers,
}

impl Platform {
    /// The platform of the transcript program.
    pub fn program() -> Platform {
        Platform {
            enabled: (0..4).collect(),
            hypervisor: (0..4).collect(),
            boot: 0,
            ranges: vec![Range {
                base: 0x8000_0000,
                length: 0x0800_0000,
            }],
            asid_width: 16,
            vmid_width: 14,
            base_numbers: BaseNumbers::default(),
        }
    }

    /// The enabled harts, ascending.
    pub fn enabled(&self) -> &BTreeSet<u8> {
        &self.enabled
    }

    /// The enabled hart with that number, compared over 64 bits.
    pub fn hart(&self, number: u64) -> Option<u8> {
        let hart = u8::try_from(number).ok()?;
        self.enabled.contains(&hart).then_some(hart)
    }

    /// The enabled harts that have the hypervisor extension.
    pub fn hypervisor(&self) -> &BTreeSet<u8> {
        &self.hypervisor
    }

    pub fn ranges(&self) -> &[Range] {
        &self.ranges
    }

    pub fn asid_width(&self) -> u32 {
        self.asid_width
    }

    pub fn vmid_width(&self) -> u32 {
        self.vmid_width
    }

    pub fn base_numbers(&self) -> &BaseNumbers {
        &self.base_numbers
    }
}
