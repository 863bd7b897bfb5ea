//! Actions: what the host is to do to a hart, five words each.

use crate::function::Fence;

/// The nine kinds.
#[derive(Clone, Copy, Debug, PartialEq, Eq, PartialOrd, Ord)]
pub enum Kind {
    Enter,
    Interrupt,
    Fence(Fence),
}

impl Kind {
    /// 1 enter, 2 interrupt, 3 to 9 the fences by function number.
    pub fn number(self) -> u64 {
        match self {
            Kind::Enter => 1,
            Kind::Interrupt => 2,
            Kind::Fence(fence) => 3 + fence.fid(),
        }
    }
}

/// One action. Words that its kind does not have are 0.
#[derive(Clone, Copy, Debug, PartialEq, Eq)]
pub struct Action {
    pub target: u8,
    pub kind: Kind,
    pub start: u64,
    pub size: u64,
    pub id: u64,
}

impl Action {
    /// Enter at an address; the opaque stands in the place of the size.
    pub fn enter(target: u8, address: u64, opaque: u64) -> Action {
        Action {
            target,
            kind: Kind::Enter,
            start: address,
            size: opaque,
            id: 0,
        }
    }

    /// Target, kind, start, size, id.
    pub fn words(&self) -> [u64; 5] {
        let target = u64::from(self.target);
        [target, self.kind.number(), self.start, self.size, self.id]
    }
}
