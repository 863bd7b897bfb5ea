//! The answer to an operation: the host refusals in their order, then the operation itself.

use crate::action::Action;
use crate::call::Call;
use crate::effects;
use crate::hart::{Hart, State};
use crate::numbers::{Error, Refusal, ACTION_MEMORY};
use crate::operation::{Operation, Registers};
use crate::platform::Platform;
use crate::raw::{Ground, RawPlatform, RawTables};
use crate::rules::{Rules, DOCUMENT_01};
use crate::tables::Tables;

/// What comes back when the host is not refused.
#[derive(Clone, Debug, PartialEq, Eq)]
pub struct Answer {
    /// 0, or the error as a negative number.
    pub error: i64,
    pub value: u64,
    /// The caller does not get the pair: it has stopped or gone to sleep.
    pub parked: bool,
    pub actions: Vec<Action>,
}

impl Answer {
    /// The pair 0, 0, not parked, with these actions.
    fn accepted(actions: Vec<Action>) -> Answer {
        Answer {
            error: 0,
            value: 0,
            parked: false,
            actions,
        }
    }

    fn refused(error: Error, value: u64) -> Answer {
        Answer {
            error: error.number(),
            value,
            ..Answer::accepted(Vec::new())
        }
    }

    /// The error as a0 carries it.
    pub fn a0(&self) -> u64 {
        self.error as u64
    }
}

/// Answers an operation: a host refusal, or the answer and the next tables.
pub fn answer(
    platform: &Platform,
    tables: &Tables,
    lent_words: usize,
    operation: &Operation,
) -> Result<(Answer, Tables), Refusal> {
    answer_under(DOCUMENT_01, platform, tables, lent_words, operation)
}

/// The same on plain numbers, where H1 can be met on every ground.
pub fn answer_raw(
    platform: &RawPlatform,
    tables: &RawTables,
    lent_words: usize,
    operation: &Operation,
) -> Result<(Answer, RawTables), Refusal> {
    let platform = platform.checked()?;
    let tables = tables.checked(&platform)?;
    let (answer, next) = answer(&platform, &tables, lent_words, operation)?;
    Ok((answer, RawTables::from(&next)))
}

/// The same under rules that need not be those of document 01.
pub fn answer_under(
    rules: Rules,
    platform: &Platform,
    tables: &Tables,
    lent_words: usize,
    operation: &Operation,
) -> Result<(Answer, Tables), Refusal> {
    if !tables.fit(platform) {
        return Err(Ground::TablesOfAnotherPlatform.into());
    }
    if operation.is_lent_memory() && lent_words < ACTION_MEMORY {
        return Err(Refusal::ActionMemoryShort);
    }
    let known = platform.hart(operation.hart());
    let hart = known.ok_or(Refusal::HartNotEnabled)?;
    let record = tables.hart(hart).ok_or(Refusal::HartNotEnabled)?;
    match *operation {
        Operation::Call { registers, .. } => {
            if !rules.calls.may_call(record.state) {
                return Err(Refusal::CallerNotStarted);
            }
            Ok(call(rules, platform, tables, hart, registers))
        }
        Operation::Done { .. } => done(rules, tables, hart, record),
        Operation::Wake { .. } => wake(rules, tables, hart, record),
        Operation::Event { code, .. } => event(rules, tables, hart, code),
    }
}

fn call(
    rules: Rules,
    platform: &Platform,
    tables: &Tables,
    caller: u8,
    registers: Registers,
) -> (Answer, Tables) {
    let call = Call {
        rules,
        platform,
        tables,
        caller,
        registers,
    };
    match call.answer() {
        Ok(accepted) => {
            let answer = Answer {
                value: accepted.value,
                parked: accepted.parked,
                ..Answer::accepted(accepted.actions)
            };
            (answer, accepted.tables)
        }
        Err(error) => {
            let answer = Answer::refused(error, rules.calls.value_on_error(error));
            (answer, rules.calls.tables_on_error(&call, error))
        }
    }
}

fn done(
    rules: Rules,
    tables: &Tables,
    hart: u8,
    record: &Hart,
) -> Result<(Answer, Tables), Refusal> {
    let tables = moved(rules, tables, hart, rules.states.done(record.state))?;
    Ok((Answer::accepted(Vec::new()), tables))
}

fn wake(
    rules: Rules,
    tables: &Tables,
    hart: u8,
    record: &Hart,
) -> Result<(Answer, Tables), Refusal> {
    let tables = moved(rules, tables, hart, rules.states.wake(record.state))?;
    let actions = effects::enter_on_wake(rules, hart, &record.sleep);
    Ok((Answer::accepted(actions), tables))
}

/// The tables with the hart in its next state, if it has one.
fn moved(rules: Rules, tables: &Tables, hart: u8, next: Option<State>) -> Result<Tables, Refusal> {
    let next = next.ok_or(Refusal::StateForbids)?;
    let mut tables = tables.clone();
    tables.alter(hart, |h| rules.states.in_state(h, next));
    Ok(tables)
}

fn event(rules: Rules, tables: &Tables, hart: u8, code: u64) -> Result<(Answer, Tables), Refusal> {
    let code = rules.calls.reported(code).ok_or(Refusal::EventCodeOver)?;
    let mut tables = tables.clone();
    effects::count(rules, &mut tables, hart, code);
    Ok((Answer::accepted(Vec::new()), tables))
}
