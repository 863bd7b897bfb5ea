//! What transcripts reach: errors, refusals, states as status answers, action kinds, and the
//! errors of each function.

use std::collections::BTreeMap;

use crate::action::Kind;
use crate::answer::Answer;
use crate::function::{functions, Fence, Function};
use crate::hart::State;
use crate::numbers::{Refusal, EXTENSIONS};
use crate::operation::{Operation, Registers};
use crate::orders::{order, Check};
use crate::record::Record;
use crate::transcript::Line;

/// Counts of everything that can be reached, under its name; what was not reached has 0.
pub struct Coverage {
    counts: BTreeMap<(Heading, String), u64>,
}

/// The parts of the table, in the order in which they are printed.
#[derive(Clone, Copy, PartialEq, Eq, PartialOrd, Ord)]
enum Heading {
    Error,
    Refusal,
    Line,
    State,
    Kind,
    Function,
}

impl Heading {
    fn name(self) -> &'static str {
        match self {
            Heading::Error => "error",
            Heading::Refusal => "host refusal",
            Heading::Line => "line",
            Heading::State => "status answer",
            Heading::Kind => "action kind",
            Heading::Function => "function and error",
        }
    }
}

/// The refusals of the program. Its platform and tables are always well formed and its action
/// memory always has 640 words, so H1 and H4 cannot occur.
const REFUSALS: [Refusal; 6] = [
    Refusal::HartNotEnabled,
    Refusal::CallerNotStarted,
    Refusal::StateForbids,
    Refusal::EventCodeOver,
    Refusal::UnknownKind,
    Refusal::WrongCheck,
];

impl Default for Coverage {
    /// Everything that the program can reach, not reached yet.
    fn default() -> Coverage {
        let mut coverage = Coverage {
            counts: BTreeMap::new(),
        };
        for error in [0, -2, -3, -5, -6, -7, -8, -9] {
            coverage.add(Heading::Error, error, 0);
        }
        for refusal in REFUSALS {
            coverage.add(Heading::Refusal, refusal_name(refusal), 0);
        }
        coverage.add(Heading::Line, Line::Short, 0);
        for state in State::ALL {
            coverage.add(Heading::State, state_name(state.number()), 0);
        }
        for kind in [Kind::Enter, Kind::Interrupt] {
            coverage.add(Heading::Kind, kind_name(kind), 0);
        }
        for fence in Fence::ALL {
            coverage.add(Heading::Kind, kind_name(Kind::Fence(fence)), 0);
        }
        coverage.add_functions();
        coverage
    }
}

impl Coverage {
    fn add(&mut self, heading: Heading, name: impl ToString, times: u64) {
        *self.counts.entry((heading, name.to_string())).or_default() += times;
    }

    /// Each function with 0 and with the errors of its checks. All four harts have the hypervisor
    /// extension, so that check cannot fail here.
    fn add_functions(&mut self) {
        for function in EXTENSIONS.into_iter().flat_map(functions) {
            self.add(Heading::Function, function_name(Some(function), 0), 0);
            for (check, error) in order(function) {
                if *check != Check::Hypervisor {
                    let name = function_name(Some(function), error.number());
                    self.add(Heading::Function, name, 0);
                }
            }
        }
        self.add(Heading::Function, function_name(None, -2), 0);
    }

    /// Counts what a line shows.
    pub fn take(&mut self, line: &Line) {
        match line {
            Line::Short => self.add(Heading::Line, line, 1),
            Line::WrongBlock => self.take_refusal(Refusal::WrongCheck),
            Line::Answered {
                record, outcome, ..
            } => match (outcome, Record::of(record)) {
                (Ok(answer), Record::Used(operation)) => self.take_answer(&operation, answer),
                (Ok(_), _) => {}
                (Err(refusal), _) => self.take_refusal(*refusal),
            },
        }
    }

    fn take_refusal(&mut self, refusal: Refusal) {
        self.add(Heading::Refusal, refusal_name(refusal), 1);
    }

    fn take_answer(&mut self, operation: &Operation, answer: &Answer) {
        self.add(Heading::Error, answer.error, 1);
        for action in &answer.actions {
            self.add(Heading::Kind, kind_name(action.kind), 1);
        }
        if let Operation::Call { registers, .. } = operation {
            self.take_call(registers, answer);
        }
    }

    fn take_call(&mut self, registers: &Registers, answer: &Answer) {
        let function = Function::of(registers.a(7), registers.a(6));
        self.add(Heading::Function, function_name(function, answer.error), 1);
        if function == Some(Function::HartStatus) && answer.error == 0 {
            self.add(Heading::State, state_name(answer.value), 1);
        }
    }

    /// Whether everything that can be reached was reached.
    pub fn is_whole(&self) -> bool {
        self.counts.values().all(|&times| times > 0)
    }

    /// The table, a line for each name.
    pub fn table(&self) -> String {
        let mut table = String::new();
        let mut last = None;
        for ((heading, name), times) in &self.counts {
            if last != Some(*heading) {
                table += &format!("{}\n", heading.name());
                last = Some(*heading);
            }
            let never = if *times == 0 { "  NEVER REACHED" } else { "" };
            table += &format!("  {name:<36} {times:>10}{never}\n");
        }
        table + "H1 and H4 cannot occur in the program; -2 for HFENCE cannot on its platform.\n"
    }
}

fn function_name(function: Option<Function>, error: i64) -> String {
    let name = function.map_or("unknown function", Function::name);
    format!("{name}: {error}")
}

fn state_name(number: u64) -> String {
    match State::of(number) {
        Some(state) => format!("{number} {state:?}"),
        None => format!("{number}, not a state"),
    }
}

fn refusal_name(refusal: Refusal) -> String {
    format!("H{} {refusal:?}", refusal.number())
}

fn kind_name(kind: Kind) -> String {
    let name = match kind {
        Kind::Enter => "enter",
        Kind::Interrupt => "interrupt",
        Kind::Fence(fence) => fence.name(),
    };
    format!("{} {name}", kind.number())
}
