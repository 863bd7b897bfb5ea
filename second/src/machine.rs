//! A platform with its tables, stepped by one operation after another.

use crate::answer::{answer_under, Answer};
use crate::hart::State;
use crate::numbers::{Refusal, ACTION_MEMORY};
use crate::operation::Operation;
use crate::platform::Platform;
use crate::rules::{Rules, DOCUMENT_01};
use crate::tables::Tables;

/// The tables are always well formed and fit the platform.
#[derive(Clone)]
pub struct Machine {
    pub(crate) rules: Rules,
    pub(crate) platform: Platform,
    pub(crate) tables: Tables,
}

impl Machine {
    /// A platform with fresh tables, under document 01.
    pub fn fresh(platform: Platform) -> Machine {
        Machine::under(DOCUMENT_01, platform)
    }

    /// The same under other rules.
    pub fn under(rules: Rules, platform: Platform) -> Machine {
        let tables = Tables::fresh(&platform);
        Machine {
            rules,
            platform,
            tables,
        }
    }

    /// Answers an operation with enough action memory and keeps the next tables.
    pub fn step(&mut self, operation: &Operation) -> Result<Answer, Refusal> {
        let (answer, next) = answer_under(
            self.rules,
            &self.platform,
            &self.tables,
            ACTION_MEMORY,
            operation,
        )?;
        self.tables = next;
        Ok(answer)
    }

    pub fn platform(&self) -> &Platform {
        &self.platform
    }

    pub fn tables(&self) -> &Tables {
        &self.tables
    }

    /// The state of an enabled hart.
    pub fn state(&self, hart: u8) -> Option<State> {
        self.tables.hart(hart).map(|record| record.state)
    }
}
