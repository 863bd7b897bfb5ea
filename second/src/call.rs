//! A call under way: who calls, with which registers, on which platform and tables.

use std::collections::BTreeSet;

use crate::action::Action;
use crate::function::Function;
use crate::hart::{Counter, Hart};
use crate::numbers::{Error, COUNTERS};
use crate::operation::Registers;
use crate::platform::Platform;
use crate::rules::Rules;
use crate::tables::Tables;
use crate::{checks, effects};

/// What a call looks at.
pub struct Call<'a> {
    pub rules: Rules,
    pub platform: &'a Platform,
    pub tables: &'a Tables,
    /// An enabled hart.
    pub caller: u8,
    pub registers: Registers,
}

/// What an accepted call gives.
pub struct Accepted {
    pub value: u64,
    pub parked: bool,
    pub actions: Vec<Action>,
    pub tables: Tables,
}

impl Accepted {
    /// Only these tables are new: no value, not parked, no actions.
    pub fn tables(tables: Tables) -> Accepted {
        Accepted {
            value: 0,
            parked: false,
            actions: Vec::new(),
            tables,
        }
    }
}

impl Call<'_> {
    /// The error of the first check that fails, or the call's effect.
    pub fn answer(&self) -> Result<Accepted, Error> {
        let eid = self.rules.calls.eid(self.registers.a(7));
        let fid = self.rules.calls.fid(self.registers.a(6));
        let function = Function::of(eid, fid).ok_or(Error::NotSupported)?;
        for &(check, error) in self.rules.calls.order(function) {
            if !checks::passes(self, check) {
                return Err(error);
            }
        }
        Ok(effects::of(self, function))
    }

    /// Register a0 to a5.
    pub fn a(&self, place: usize) -> u64 {
        self.registers.a(place)
    }

    /// The tables are kept and a value comes back.
    pub fn value(&self, value: u64) -> Accepted {
        Accepted {
            value,
            ..Accepted::tables(self.tables.clone())
        }
    }

    /// The record of the hart that a0 names, if it is enabled.
    pub fn named_hart(&self) -> Option<(u8, &Hart)> {
        let number = self.rules.states.hart_number(self.a(0));
        let hart = self.platform.hart(number)?;
        Some((hart, self.tables.hart(hart)?))
    }

    /// The harts that mask a0 and base a1 select; none if one of them is not enabled.
    pub fn selected(&self) -> Option<BTreeSet<u8>> {
        self.rules
            .traffic
            .selected(self.platform, self.a(0), self.a(1))
    }

    /// The caller's own eight counters.
    pub fn counters(&self) -> [Counter; COUNTERS] {
        let own = self.tables.hart(self.caller);
        own.map_or([Counter::FRESH; COUNTERS], |hart| hart.counters)
    }

    /// The set of base a0 and mask a1; none if it holds a number over 7.
    pub fn counter_set(&self) -> Option<BTreeSet<usize>> {
        self.rules.counters.counter_set(self.a(0), self.a(1))
    }

    /// The caller's counters in the set.
    pub fn set_counters(&self) -> Vec<Counter> {
        let own = self.counters();
        let set = self.counter_set().unwrap_or_default();
        set.into_iter().map(|place| own[place]).collect()
    }

    /// The counter of the set that configure chooses.
    pub fn chosen(&self) -> Option<usize> {
        let set = self.counter_set()?;
        self.rules
            .counters
            .chosen(&set, &self.counters(), self.a(2))
    }

    /// The caller's counter that a0 names.
    pub fn named_counter(&self) -> Option<Counter> {
        let place = usize::try_from(self.a(0)).ok()?;
        self.counters().get(place).copied()
    }
}
