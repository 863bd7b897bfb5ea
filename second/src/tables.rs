//! The tables: one record for each enabled hart. A hart not enabled has none, so it is as fresh.

use std::collections::BTreeMap;

use crate::hart::{Hart, State};
use crate::platform::Platform;

/// The records of the enabled harts, by hart number.
#[derive(Clone, Debug, PartialEq, Eq)]
pub struct Tables {
    pub(crate) harts: BTreeMap<u8, Hart>,
}

impl Tables {
    /// Fresh: the boot hart STARTED, every other STOPPED.
    pub fn fresh(platform: &Platform) -> Tables {
        let row = |&hart: &u8| {
            let state = if hart == platform.boot {
                State::Started
            } else {
                State::Stopped
            };
            (hart, Hart::fresh(state))
        };
        Tables {
            harts: platform.enabled.iter().map(row).collect(),
        }
    }

    /// Whether there is a record for each enabled hart and for no other.
    pub fn fit(&self, platform: &Platform) -> bool {
        self.harts.keys().eq(platform.enabled.iter())
    }

    /// The record of an enabled hart.
    pub fn hart(&self, hart: u8) -> Option<&Hart> {
        self.harts.get(&hart)
    }

    /// Alters the record of an enabled hart.
    pub fn alter(&mut self, hart: u8, change: impl FnOnce(Hart) -> Hart) {
        if let Some(record) = self.harts.get_mut(&hart) {
            *record = change(*record);
        }
    }

    /// The enabled harts in a state that meets the condition, ascending.
    pub fn harts_where(&self, condition: impl Fn(State) -> bool) -> Vec<u8> {
        let chosen = self.harts.iter().filter(|(_, h)| condition(h.state));
        chosen.map(|(&hart, _)| hart).collect()
    }
}
