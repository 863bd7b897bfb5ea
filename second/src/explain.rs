//! What the transcript program's lines mean, in words.

use std::fmt::Write;

use crate::action::{Action, Kind};
use crate::answer::Answer;
use crate::describe;
use crate::function::{Fence, Function};
use crate::hart::State;
use crate::machine::Machine;
use crate::numbers::{Refusal, HARTS, LAST_REPORTED};
use crate::operation::{Operation, Registers};
use crate::platform::Platform;
use crate::record::{Record, RECORD_WORDS};
use crate::rules::DOCUMENT_01;
use crate::transcript::{lines, Line};

/// Lines in words, and where they part from what the input demands.
#[derive(Clone, Debug, PartialEq, Eq)]
pub struct Explained {
    pub text: String,
    pub difference: Option<String>,
}

/// Explains each printed line, up to the first that is not what the input demands: what follows
/// it would be told from other tables than those that it came from.
pub fn explain(input: &[u8], printed: &str) -> Explained {
    let expected = lines(DOCUMENT_01, input);
    let mut given = printed.split_inclusive('\n');
    let mut teller = Teller::new();
    let mut text = String::new();
    for (place, line) in expected.iter().enumerate() {
        let wanted = format!("{line}\n");
        let got = given.next();
        if got != Some(wanted.as_str()) {
            let difference = Some(differs(place + 1, got, Some(&wanted)));
            return Explained { text, difference };
        }
        text.push_str(&wanted);
        for sentence in teller.tell(line) {
            let _ = writeln!(text, "    {sentence}");
        }
    }
    let difference = given
        .next()
        .map(|line| differs(expected.len() + 1, Some(line), None));
    Explained { text, difference }
}

fn differs(number: usize, got: Option<&str>, wanted: Option<&str>) -> String {
    let shown = |line: Option<&str>| line.map_or("no line".to_string(), |l| format!("{l:?}"));
    let (got, wanted) = (shown(got), shown(wanted));
    format!("line {number} differs: printed is {got}, the second program says {wanted}")
}

/// Follows the lines with tables of its own, to say which states they come from and lead to.
struct Teller {
    machine: Machine,
}

impl Teller {
    fn new() -> Teller {
        let machine = Machine::fresh(Platform::program());
        Teller { machine }
    }

    /// What a line means, in sentences.
    fn tell(&mut self, line: &Line) -> Vec<String> {
        match line {
            Line::WrongBlock => vec![
                "a block whose 64 words do not sum to 1: none of its records is read".to_string(),
            ],
            Line::Short => {
                vec!["the input ends inside a block: what came of it is not read".to_string()]
            }
            Line::Answered {
                record, outcome, ..
            } => self.answered(record, outcome),
        }
    }

    fn answered(
        &mut self,
        words: &[u64; RECORD_WORDS],
        outcome: &Result<Answer, Refusal>,
    ) -> Vec<String> {
        let mut told = vec![describe::record(words)];
        let operation = match Record::of(words) {
            Record::Used(operation) => Some(operation),
            Record::Unused | Record::UnknownKind => None,
        };
        match (outcome, operation) {
            (Err(refusal), operation) => told.push(self.refused(*refusal, operation)),
            (Ok(answer), Some(operation)) => {
                told.push(accepted(&operation, answer));
                told.extend(self.changes(&operation));
                told.extend(answer.actions.iter().map(action));
            }
            (Ok(_), None) => {}
        }
        told
    }

    /// Takes the step, and says which states it changed and which counters an event reached.
    fn changes(&mut self, operation: &Operation) -> Vec<String> {
        let before = self.machine.clone();
        // The outcome is known from the line; here only the next tables are of use.
        let _ = self.machine.step(operation);
        let mut told = Vec::new();
        for hart in 0..HARTS as u8 {
            let states = (before.state(hart), self.machine.state(hart));
            if let (Some(old), Some(new)) = states {
                if old != new {
                    told.push(format!(
                        "hart {hart} goes from {} to {}",
                        state(old),
                        state(new)
                    ));
                }
            }
        }
        if let Operation::Event { hart, .. } = *operation {
            told.push(self.counted(&before, hart as u8));
        }
        told
    }

    fn counted(&self, before: &Machine, hart: u8) -> String {
        let values = |machine: &Machine| machine.tables().hart(hart).map(|h| h.counters);
        let (Some(old), Some(new)) = (values(before), values(&self.machine)) else {
            return String::new();
        };
        let moved = (0..old.len()).filter(|&i| old[i].value != new[i].value);
        let moved: Vec<String> = moved
            .map(|i| format!("counter {i} of hart {hart} goes to {}", new[i].value))
            .collect();
        if moved.is_empty() {
            format!("no running counter of hart {hart} is mapped to it")
        } else {
            moved.join(", ")
        }
    }

    fn refused(&self, refusal: Refusal, operation: Option<Operation>) -> String {
        let hart = operation.map_or(0, |o| o.hart());
        let is = u8::try_from(hart).ok().and_then(|h| self.machine.state(h));
        let is = is.map_or("not enabled", state);
        let why = match refusal {
            Refusal::NotWellFormed(_) => "the platform or the tables are not well formed".into(),
            Refusal::HartNotEnabled => format!("hart {hart} is not enabled"),
            Refusal::CallerNotStarted => {
                format!("hart {hart} is {is}, and only a STARTED hart can call")
            }
            Refusal::ActionMemoryShort => "the action memory is under 640 words".into(),
            Refusal::StateForbids => match operation {
                Some(Operation::Wake { .. }) => {
                    format!("hart {hart} is {is}, and only a SUSPENDED hart can wake")
                }
                _ => format!("hart {hart} is {is}, which has nothing to be completed"),
            },
            Refusal::EventCodeOver => {
                format!("the host reports firmware events 0 to {LAST_REPORTED} only")
            }
            Refusal::UnknownKind => "the first word names no kind of record".into(),
            Refusal::WrongCheck => "the words of the block do not sum to 1".into(),
        };
        format!("refused to the host (H{}): {why}", refusal.number())
    }
}

/// The pair of a call that was not refused to the host; the others have none to speak of.
fn accepted(operation: &Operation, answer: &Answer) -> String {
    let Operation::Call { registers, .. } = operation else {
        return "accepted".to_string();
    };
    let name = error(answer.error);
    if answer.error != 0 {
        return format!("{name} ({})", answer.error);
    }
    let function = Function::of(registers.a(7), registers.a(6));
    let value = function.and_then(|function| value(function, registers, answer.value));
    match value {
        _ if answer.parked => format!("{name}, but the caller does not return from the call"),
        Some(value) => format!("{name}: {value}"),
        None => name.to_string(),
    }
}

/// What the value of an accepted call says; none for a function that names no value.
fn value(function: Function, registers: &Registers, value: u64) -> Option<String> {
    let asked = registers.a(0);
    Some(match function {
        Function::SpecVersion => format!("version {}.{}", value >> 24, value & 0xFF_FFFF),
        Function::Probe if value == 0 => "the extension is not there".to_string(),
        Function::Probe => "the extension is there".to_string(),
        Function::ImplementationId
        | Function::ImplementationVersion
        | Function::MachineVendor
        | Function::MachineArchitecture
        | Function::MachineImplementation => format!("the number is {value}"),
        Function::HartStatus => {
            let name = State::of(value).map_or("in no known state", state);
            format!("hart {asked} is {name}")
        }
        Function::CounterNumber => format!("{value} counters"),
        Function::CounterDetails => format!("counter {asked} is a firmware counter"),
        Function::Configure => format!("counter {value} is mapped"),
        Function::Read => format!("counter {asked} holds {value}"),
        Function::HighRead => format!("the high part of counter {asked} is {value}"),
        Function::Interrupt
        | Function::RemoteFence(_)
        | Function::HartStart
        | Function::HartStop
        | Function::HartSuspend
        | Function::CounterStart
        | Function::CounterStop => return None,
    })
}

/// The standard's name of an error.
pub fn error(number: i64) -> &'static str {
    match number {
        0 => "SBI_SUCCESS",
        -2 => "SBI_ERR_NOT_SUPPORTED",
        -3 => "SBI_ERR_INVALID_PARAM",
        -5 => "SBI_ERR_INVALID_ADDRESS",
        -6 => "SBI_ERR_ALREADY_AVAILABLE",
        -7 => "SBI_ERR_ALREADY_STARTED",
        -8 => "SBI_ERR_ALREADY_STOPPED",
        -9 => "SBI_ERR_NO_SHMEM",
        _ => "an error without a name",
    }
}

/// The standard's name of a state.
pub fn state(state: State) -> &'static str {
    match state {
        State::Started => "STARTED",
        State::Stopped => "STOPPED",
        State::StartPending => "START_PENDING",
        State::StopPending => "STOP_PENDING",
        State::Suspended => "SUSPENDED",
        State::SuspendPending => "SUSPEND_PENDING",
        State::ResumePending => "RESUME_PENDING",
    }
}

/// What the host has to make a hart do.
fn action(action: &Action) -> String {
    let Action {
        target,
        kind,
        start,
        size,
        id,
    } = *action;
    let work = match kind {
        Kind::Enter => format!("enter at {start:#x} with opaque {size:#x}"),
        Kind::Interrupt => "take an interrupt".to_string(),
        Kind::Fence(fence) => format!("do {}", fenced(fence, start, size, id)),
    };
    format!("to do: hart {target} has to {work}")
}

/// The fence as an instruction, with its range and its id as far as it has them.
fn fenced(fence: Fence, start: u64, size: u64, id: u64) -> String {
    // The name is that of the call: the extension, the instruction, which id it takes.
    let name = fence.name().split(' ').nth(1).unwrap_or("a fence");
    let mut text = name.to_string();
    if fence.has_range() {
        text.push_str(&range(start, size));
    }
    if fence == Fence::HfenceGvmaVmid {
        text.push_str(&format!(" for VMID {id}"));
    } else if fence.has_id() {
        text.push_str(&format!(" for ASID {id}"));
    }
    text
}

fn range(start: u64, size: u64) -> String {
    if (start == 0 && size == 0) || size == u64::MAX {
        " over the whole address space".to_string()
    } else {
        format!(" from {start:#x} over {size:#x} bytes")
    }
}
