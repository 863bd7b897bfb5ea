//! Dispatch, the error pairs and who may ask.

use crate::call::Call;
use crate::function::Function;
use crate::hart::State;
use crate::numbers::{Error, EXTENSIONS, LAST_REPORTED};
use crate::orders::{self, Order};
use crate::tables::Tables;

/// How a call is dispatched, what an error leaves, and who may ask.
pub trait CallRules {
    /// "compared over all 64 bits of a7"
    fn eid(&self, a7: u64) -> u64 {
        a7
    }

    /// "and a6 (house)"
    fn fid(&self, a6: u64) -> u64 {
        a6
    }

    /// "probe (a0, all 64 bits) gives 1 for the five extensions, else 0"
    fn probe(&self, a0: u64) -> u64 {
        u64::from(EXTENSIONS.contains(&a0))
    }

    /// "Checks in order"
    fn order(&self, function: Function) -> Order {
        orders::order(function)
    }

    /// "a1 is 0 on every error"
    fn value_on_error(&self, _error: Error) -> u64 {
        0
    }

    /// "Every refusal, error pairs included, leaves the tables [...] unaltered"
    fn tables_on_error(&self, call: &Call, _error: Error) -> Tables {
        call.tables.clone()
    }

    /// "a call from a hart not STARTED"
    fn may_call(&self, state: State) -> bool {
        state == State::Started
    }

    /// "reported firmware event code over 5"
    fn reported(&self, code: u64) -> Option<u8> {
        (code <= LAST_REPORTED).then_some(code as u8)
    }
}
