//! The four operations that the host asks for.

/// Registers a0 to a7 of a call.
#[derive(Clone, Copy, Debug, PartialEq, Eq)]
pub struct Registers(pub [u64; 8]);

impl Registers {
    /// A call's registers from its numbers and its arguments; the rest is 0.
    pub fn call(eid: u64, fid: u64, arguments: &[u64]) -> Registers {
        let mut registers = [0; 8];
        registers[..arguments.len()].copy_from_slice(arguments);
        registers[6] = fid;
        registers[7] = eid;
        Registers(registers)
    }

    /// Register a0 to a7.
    pub fn a(&self, place: usize) -> u64 {
        self.0[place]
    }
}

/// What the host asks for, with the hart it names.
#[derive(Clone, Copy, Debug, PartialEq, Eq)]
pub enum Operation {
    Call { hart: u64, registers: Registers },
    Done { hart: u64 },
    Wake { hart: u64 },
    Event { hart: u64, code: u64 },
}

impl Operation {
    pub fn hart(&self) -> u64 {
        match *self {
            Operation::Call { hart, .. }
            | Operation::Done { hart }
            | Operation::Wake { hart }
            | Operation::Event { hart, .. } => hart,
        }
    }

    /// Calls, completions and wakes are lent action memory; events are not.
    pub fn is_lent_memory(&self) -> bool {
        !matches!(self, Operation::Event { .. })
    }
}
