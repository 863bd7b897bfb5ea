//! The single decisions of document 01, each a method under the sentence it stands for.
//!
//! `DOCUMENT_01` takes them all as they stand. A known break changes one of them, so that the rest
//! of the model never hears of breaks.

mod calls;
mod counters;
mod program;
mod states;
mod traffic;

pub use calls::CallRules;
pub use counters::CounterRules;
pub use program::ProgramRules;
pub use states::StateRules;
pub use traffic::TrafficRules;

/// All decisions together, by group.
#[derive(Clone, Copy)]
pub struct Rules {
    pub calls: &'static dyn CallRules,
    pub states: &'static dyn StateRules,
    pub traffic: &'static dyn TrafficRules,
    pub counters: &'static dyn CounterRules,
    pub program: &'static dyn ProgramRules,
}

/// Takes every decision as it stands.
pub struct AsItStands;

impl CallRules for AsItStands {}
impl StateRules for AsItStands {}
impl TrafficRules for AsItStands {}
impl CounterRules for AsItStands {}
impl ProgramRules for AsItStands {}

/// Document 01 as it stands.
pub const DOCUMENT_01: Rules = Rules {
    calls: &AsItStands,
    states: &AsItStands,
    traffic: &AsItStands,
    counters: &AsItStands,
    program: &AsItStands,
};
