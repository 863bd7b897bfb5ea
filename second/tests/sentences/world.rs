//! What the tests share: a platform with tables as plain numbers, and short ways to ask.

use second::answer::answer_raw;
use second::numbers::{ACTION_MEMORY, EID_HSM, EID_IPI, EID_PMU, EID_RFENCE, HARTS};
use second::{
    Answer, BaseNumbers, Operation, Platform, RawCounter, RawPlatform, RawTables, Refusal,
    Registers, SleepNote, State,
};

pub const TOP: u64 = u64::MAX;
/// An address of the program's range.
pub const GOOD: u64 = 0x8020_0000;
/// The first event index of the firmware events.
pub const EVENTS: u64 = 0xF0000;

#[derive(Clone)]
pub struct World {
    pub platform: RawPlatform,
    pub tables: RawTables,
}

/// The program's platform: harts 0 to 3.
pub fn four_harts() -> RawPlatform {
    RawPlatform::from(&Platform::program())
}

/// A platform with these harts, all with the hypervisor extension, booted by the first.
pub fn harts(enabled: &[u64]) -> RawPlatform {
    let set = enabled.iter().fold(0u128, |set, hart| set | 1 << hart);
    RawPlatform {
        enabled: set,
        hypervisor: set,
        boot: enabled[0],
        ..four_harts()
    }
}

/// Numbers that are all different from 0 and from each other.
pub fn base_numbers() -> BaseNumbers {
    BaseNumbers {
        implementation_id: 11,
        implementation_version: TOP,
        machine_vendor: 33,
        machine_architecture: 1 << 63,
        machine_implementation: 55,
    }
}

impl World {
    /// Fresh tables on a platform that is accepted.
    pub fn of(platform: RawPlatform) -> World {
        let tables = RawTables::fresh(&platform).expect("the platform is accepted");
        World { platform, tables }
    }

    /// Harts 0 to 3, fresh.
    pub fn fresh() -> World {
        World::of(four_harts())
    }

    /// Harts 0 to 3, all STARTED.
    pub fn running() -> World {
        World::fresh().all_running()
    }

    /// Every enabled hart STARTED.
    pub fn all_running(mut self) -> World {
        for hart in 0..HARTS as u64 {
            if self.platform.enabled >> hart & 1 == 1 {
                self.set_state(hart, State::Started);
            }
        }
        self
    }

    pub fn ask(&mut self, operation: Operation) -> Result<Answer, Refusal> {
        let asked = answer_raw(&self.platform, &self.tables, ACTION_MEMORY, &operation);
        let (answer, next) = asked?;
        self.tables = next;
        Ok(answer)
    }

    /// The number of the refusal, or 0.
    pub fn refusal(&mut self, operation: Operation) -> u8 {
        self.ask(operation).map_or_else(Refusal::number, |_| 0)
    }

    pub fn call(&mut self, hart: u64, eid: u64, fid: u64, arguments: &[u64]) -> Answer {
        let answer = self.ask(call(hart, eid, fid, arguments));
        answer.expect("the host is not refused")
    }

    /// Error and value of a call.
    pub fn pair(&mut self, hart: u64, eid: u64, fid: u64, arguments: &[u64]) -> (i64, u64) {
        let answer = self.call(hart, eid, fid, arguments);
        (answer.error, answer.value)
    }

    /// HSM from a hart: error and value.
    pub fn hsm(&mut self, hart: u64, fid: u64, arguments: &[u64]) -> (i64, u64) {
        self.pair(hart, EID_HSM, fid, arguments)
    }

    /// PMU from hart 0: error and value.
    pub fn pmu(&mut self, fid: u64, arguments: &[u64]) -> (i64, u64) {
        self.pair(0, EID_PMU, fid, arguments)
    }

    /// An interrupt by hart 0: its targets, or its error.
    pub fn interrupt(&mut self, mask: u64, base: u64) -> Result<Vec<u64>, i64> {
        targets(self.call(0, EID_IPI, 0, &[mask, base]))
    }

    /// A fence by hart 0: its targets, or its error.
    pub fn fence(&mut self, fid: u64, arguments: &[u64]) -> Result<Vec<u64>, i64> {
        targets(self.call(0, EID_RFENCE, fid, arguments))
    }

    /// The words of the actions of a call by hart 0.
    pub fn actions(&mut self, eid: u64, fid: u64, arguments: &[u64]) -> Vec<[u64; 5]> {
        let answer = self.call(0, eid, fid, arguments);
        assert_eq!(answer.error, 0);
        answer.actions.iter().map(|a| a.words()).collect()
    }

    pub fn done(&mut self, hart: u64) -> Answer {
        let answer = self.ask(Operation::Done { hart });
        answer.expect("the done is allowed")
    }

    pub fn wake(&mut self, hart: u64) -> Answer {
        let answer = self.ask(Operation::Wake { hart });
        answer.expect("the wake is allowed")
    }

    pub fn event(&mut self, hart: u64, code: u64) {
        let answer = self.ask(Operation::Event { hart, code });
        let answer = answer.expect("the event is counted");
        assert_eq!((answer.error, answer.value), (0, 0));
        assert!(answer.actions.is_empty() && !answer.parked);
    }

    pub fn state(&self, hart: u64) -> Option<State> {
        State::of(self.tables.harts[hart as usize].state)
    }

    pub fn set_state(&mut self, hart: u64, state: State) {
        self.tables.harts[hart as usize].state = state.number();
    }

    /// Harts 0 to 3 with one of them in the given state.
    pub fn with_state(mut self, hart: u64, state: State) -> World {
        self.set_state(hart, state);
        self
    }

    pub fn sleep(&self, hart: u64) -> SleepNote {
        self.tables.harts[hart as usize].sleep
    }

    pub fn counter(&self, hart: u64, counter: usize) -> RawCounter {
        self.tables.harts[hart as usize].counters[counter]
    }

    /// Puts a counter on a code with a value, running.
    pub fn run_counter(&mut self, hart: u64, counter: usize, code: u64, value: u64) {
        self.set_counter(hart, counter, Some(code), true, value);
    }

    pub fn set_counter(
        &mut self,
        hart: u64,
        counter: usize,
        event: Option<u64>,
        running: bool,
        value: u64,
    ) {
        self.tables.harts[hart as usize].counters[counter] = RawCounter {
            event,
            running,
            value,
        };
    }

    pub fn value(&self, hart: u64, counter: usize) -> u64 {
        self.counter(hart, counter).value
    }
}

pub fn call(hart: u64, eid: u64, fid: u64, arguments: &[u64]) -> Operation {
    let registers = Registers::call(eid, fid, arguments);
    Operation::Call { hart, registers }
}

/// The status of hart 0, asked by it: a call that is always answered.
pub fn status_call(hart: u64) -> Operation {
    call(hart, EID_HSM, 2, &[0])
}

fn targets(answer: Answer) -> Result<Vec<u64>, i64> {
    match answer.error {
        0 => Ok(answer.actions.iter().map(|a| a.words()[0]).collect()),
        error => Err(error),
    }
}
