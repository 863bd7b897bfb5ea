//! Masks, fences, and the events that traffic counts.

use std::collections::BTreeSet;

use crate::function::Fence;
use crate::hart::State;
use crate::platform::Platform;

/// Whom interrupts and fences select and reach, and what they count.
pub trait TrafficRules {
    /// "With base 2^64 - 1 the mask is ignored and all enabled harts are selected. Otherwise bit i
    /// selects hart base + i, summed without wrapping; any selected number not enabled gives -3."
    fn selected(&self, platform: &Platform, mask: u64, base: u64) -> Option<BTreeSet<u8>> {
        if base == u64::MAX {
            return Some(platform.enabled().clone());
        }
        let bits = (0..64u64).filter(|i| mask >> i & 1 == 1);
        bits.map(|i| platform.hart(base.checked_add(i)?)).collect()
    }

    /// "A selected hart is reached unless STOPPED or STOP_PENDING (house)."
    fn reached(&self, state: State) -> bool {
        !matches!(state, State::Stopped | State::StopPending)
    }

    /// "Mistakes to shut out: [...] an interrupt that wakes a sleeper in the table."
    fn state_after_traffic(&self, state: State) -> State {
        state
    }

    /// "ASID or VMID below 2^width"
    fn id_below(&self, id: u64, width: u32) -> bool {
        id < 1 << width
    }

    /// "The range is the whole space if start and size are both 0, or size is 2^64 - 1 with any
    /// start. Otherwise start + size may be at most 2^64."
    fn range_good(&self, start: u64, size: u64) -> bool {
        let whole = start == 0 && size == 0 || size == u64::MAX;
        whole || u128::from(start) + u128::from(size) <= 1 << 64
    }

    /// "Sent codes: interrupt 6"
    fn interrupt_sent(&self) -> u8 {
        6
    }

    /// "fences FID 0 to 6: 8, 10, 12, 16, 14, 20, 18"
    fn fence_sent(&self, fence: Fence) -> u8 {
        match fence {
            Fence::FenceI => 8,
            Fence::SfenceVma => 10,
            Fence::SfenceVmaAsid => 12,
            Fence::HfenceGvmaVmid => 16,
            Fence::HfenceGvma => 14,
            Fence::HfenceVvmaAsid => 20,
            Fence::HfenceVvma => 18,
        }
    }

    /// "Received is sent + 1."
    fn received(&self, sent: u8) -> u8 {
        sent + 1
    }

    /// "For each reached hart other than the caller, the caller has one sent event"
    fn sent_events(&self, caller: u8, reached: &[u8]) -> usize {
        reached.iter().filter(|&&hart| hart != caller).count()
    }

    /// "and the target one received event"
    fn receives(&self, caller: u8, target: u8) -> bool {
        target != caller
    }
}
