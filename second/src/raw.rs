//! Platform and tables as plain numbers, and the conversion that fails with a ground for H1.

use crate::hart::{Counter, Hart, SleepNote, State};
use crate::numbers::{ASID_WIDTH, COUNTERS, HARTS, LAST_CODE, RANGES, VMID_WIDTH};
use crate::platform::{BaseNumbers, Platform, Range};
use crate::tables::Tables;

/// Why a platform or tables are not well formed (H1).
#[derive(Clone, Copy, Debug, PartialEq, Eq)]
pub enum Ground {
    BootHartNotEnabled,
    HypervisorHartNotEnabled,
    RangeCountOverLimit,
    AsidWidthOverLimit,
    VmidWidthOverLimit,
    RangeLengthZero,
    RangePastTop,
    StateOverSix,
    DisabledHartNotFresh,
    CodeOverTwentyOne,
    RunningCounterUnmapped,
    /// Typed tables that were made for another platform.
    TablesOfAnotherPlatform,
}

/// A platform record that may be refused. Bit h of a set stands for hart h.
#[derive(Clone, Debug, PartialEq, Eq)]
pub struct RawPlatform {
    pub enabled: u128,
    pub hypervisor: u128,
    pub boot: u64,
    pub range_count: u64,
    /// Base and length. Places at or past the count are never looked at.
    pub ranges: [(u64, u64); RANGES],
    pub asid_width: u64,
    pub vmid_width: u64,
    pub base_numbers: BaseNumbers,
}

/// A counter whose code may be too large and which may run unmapped.
#[derive(Clone, Copy, Debug, PartialEq, Eq)]
pub struct RawCounter {
    pub event: Option<u64>,
    pub running: bool,
    pub value: u64,
}

/// A hart record whose state may be any number.
#[derive(Clone, Copy, Debug, PartialEq, Eq)]
pub struct RawHart {
    pub state: u64,
    pub sleep: SleepNote,
    pub counters: [RawCounter; COUNTERS],
}

/// Records for all 128 hart numbers, enabled or not.
#[derive(Clone, Debug, PartialEq, Eq)]
pub struct RawTables {
    pub harts: Box<[RawHart; HARTS]>,
}

fn harts_in(set: u128) -> impl Iterator<Item = u8> {
    (0..HARTS as u8).filter(move |&hart| set >> hart & 1 == 1)
}

impl RawPlatform {
    /// The platform, if it is accepted.
    pub fn checked(&self) -> Result<Platform, Ground> {
        let is_enabled = |hart: u64| hart < HARTS as u64 && self.enabled >> hart & 1 == 1;
        if !is_enabled(self.boot) {
            return Err(Ground::BootHartNotEnabled);
        }
        if self.hypervisor & !self.enabled != 0 {
            return Err(Ground::HypervisorHartNotEnabled);
        }
        if self.range_count > RANGES as u64 {
            return Err(Ground::RangeCountOverLimit);
        }
        if self.asid_width > ASID_WIDTH {
            return Err(Ground::AsidWidthOverLimit);
        }
        if self.vmid_width > VMID_WIDTH {
            return Err(Ground::VmidWidthOverLimit);
        }
        let used = self.ranges[..self.range_count as usize].iter();
        Ok(Platform {
            enabled: harts_in(self.enabled).collect(),
            hypervisor: harts_in(self.hypervisor).collect(),
            boot: self.boot as u8,
            ranges: used.map(checked_range).collect::<Result<_, _>>()?,
            asid_width: self.asid_width as u32,
            vmid_width: self.vmid_width as u32,
            base_numbers: self.base_numbers,
        })
    }
}

fn checked_range(&(base, length): &(u64, u64)) -> Result<Range, Ground> {
    let range = Range { base, length };
    if length == 0 {
        Err(Ground::RangeLengthZero)
    } else if range.end() > 1 << 64 {
        Err(Ground::RangePastTop)
    } else {
        Ok(range)
    }
}

impl From<&Platform> for RawPlatform {
    fn from(platform: &Platform) -> RawPlatform {
        let set = |harts: &std::collections::BTreeSet<u8>| {
            harts.iter().fold(0u128, |bits, &hart| bits | 1 << hart)
        };
        let mut ranges = [(0, 0); RANGES];
        for (place, range) in ranges.iter_mut().zip(&platform.ranges) {
            *place = (range.base, range.length);
        }
        RawPlatform {
            enabled: set(&platform.enabled),
            hypervisor: set(&platform.hypervisor),
            boot: u64::from(platform.boot),
            range_count: platform.ranges.len() as u64,
            ranges,
            asid_width: u64::from(platform.asid_width),
            vmid_width: u64::from(platform.vmid_width),
            base_numbers: platform.base_numbers,
        }
    }
}

impl RawCounter {
    fn checked(&self) -> Result<Counter, Ground> {
        if self.event.is_some_and(|code| code > LAST_CODE) {
            return Err(Ground::CodeOverTwentyOne);
        }
        if self.running && self.event.is_none() {
            return Err(Ground::RunningCounterUnmapped);
        }
        Ok(Counter {
            event: self.event.map(|code| code as u8),
            running: self.running,
            value: self.value,
        })
    }
}

impl RawHart {
    fn checked(&self) -> Result<Hart, Ground> {
        let state = State::of(self.state).ok_or(Ground::StateOverSix)?;
        let mut counters = [Counter::FRESH; COUNTERS];
        for (counter, raw) in counters.iter_mut().zip(&self.counters) {
            *counter = raw.checked()?;
        }
        Ok(Hart {
            state,
            sleep: self.sleep,
            counters,
        })
    }
}

impl From<&Hart> for RawHart {
    fn from(hart: &Hart) -> RawHart {
        RawHart {
            state: hart.state.number(),
            sleep: hart.sleep,
            counters: hart.counters.map(|counter| RawCounter {
                event: counter.event.map(u64::from),
                running: counter.running,
                value: counter.value,
            }),
        }
    }
}

impl RawTables {
    /// The tables of an accepted platform, if they are well formed.
    pub fn checked(&self, platform: &Platform) -> Result<Tables, Ground> {
        let mut harts = std::collections::BTreeMap::new();
        for (number, raw) in (0u8..).zip(self.harts.iter()) {
            let hart = raw.checked()?;
            if platform.enabled.contains(&number) {
                harts.insert(number, hart);
            } else if hart != Hart::fresh(State::Stopped) {
                return Err(Ground::DisabledHartNotFresh);
            }
        }
        Ok(Tables { harts })
    }

    /// Fresh tables of a platform; H1 if it is not accepted.
    pub fn fresh(platform: &RawPlatform) -> Result<RawTables, Ground> {
        Ok(RawTables::from(&Tables::fresh(&platform.checked()?)))
    }
}

impl From<&Tables> for RawTables {
    fn from(tables: &Tables) -> RawTables {
        let fresh = RawHart::from(&Hart::fresh(State::Stopped));
        let mut harts = Box::new([fresh; HARTS]);
        for (&number, hart) in &tables.harts {
            harts[usize::from(number)] = RawHart::from(hart);
        }
        RawTables { harts }
    }
}
