//! Breaks of masks, of fences and of the events that traffic counts.

use std::collections::BTreeSet;

use second::function::Fence;
use second::hart::State;
use second::platform::Platform;
use second::rules::AsItStands;

known_breaks! { traffic TrafficRules:
    MaskZeroFirst "mask 0 selects nobody even with base 2^64 - 1" {
        fn selected(&self, platform: &Platform, mask: u64, base: u64) -> Option<BTreeSet<u8>> {
            if mask == 0 {
                return Some(BTreeSet::new());
            }
            AsItStands.selected(platform, mask, base)
        }
    }
    BaseChecked "a base that is not enabled is refused though bit 0 is clear" {
        fn selected(&self, platform: &Platform, mask: u64, base: u64) -> Option<BTreeSet<u8>> {
            if base != u64::MAX {
                platform.hart(base)?;
            }
            AsItStands.selected(platform, mask, base)
        }
    }
    SumWraps "base plus bit wraps to hart 0" {
        fn selected(&self, platform: &Platform, mask: u64, base: u64) -> Option<BTreeSet<u8>> {
            if base == u64::MAX {
                return AsItStands.selected(platform, mask, base);
            }
            let bits = (0..64u64).filter(|i| mask >> i & 1 == 1);
            bits.map(|i| platform.hart(base.wrapping_add(i))).collect()
        }
    }
    NegativeBase "every negative base means all harts" {
        fn selected(&self, platform: &Platform, mask: u64, base: u64) -> Option<BTreeSet<u8>> {
            let base = if base >> 63 == 1 { u64::MAX } else { base };
            AsItStands.selected(platform, mask, base)
        }
    }
    NoBaseForAll "base 2^64 - 1 has no special meaning for harts" {
        fn selected(&self, platform: &Platform, mask: u64, base: u64) -> Option<BTreeSet<u8>> {
            let bits = (0..64u64).filter(|i| mask >> i & 1 == 1);
            bits.map(|i| platform.hart(base.checked_add(i)?)).collect()
        }
    }
    DisabledDropped "a selected hart that is not enabled is left out" {
        fn selected(&self, platform: &Platform, mask: u64, base: u64) -> Option<BTreeSet<u8>> {
            let bits = (0..64u64).filter(|i| mask >> i & 1 == 1);
            let known = bits.filter_map(|i| platform.hart(base.checked_add(i)?));
            match base {
                u64::MAX => AsItStands.selected(platform, mask, base),
                _ => Some(known.collect()),
            }
        }
    }
    StoppedReached "a STOPPED hart is reached" {
        fn reached(&self, state: State) -> bool {
            state != State::StopPending
        }
    }
    StopPendingReached "a hart in STOP_PENDING is reached" {
        fn reached(&self, state: State) -> bool {
            state != State::Stopped
        }
    }
    SleeperNotReached "a SUSPENDED hart is not reached" {
        fn reached(&self, state: State) -> bool {
            state != State::Suspended && AsItStands.reached(state)
        }
    }
    StartingNotReached "a hart in START_PENDING is not reached" {
        fn reached(&self, state: State) -> bool {
            state != State::StartPending && AsItStands.reached(state)
        }
    }
    TrafficWakes "an interrupt or a fence wakes a sleeper in the table" {
        fn state_after_traffic(&self, state: State) -> State {
            match state {
                State::Suspended => State::ResumePending,
                _ => state,
            }
        }
    }
    IdAtLimit "an ASID or VMID of 2^width is accepted" {
        fn id_below(&self, id: u64, width: u32) -> bool {
            id <= 1 << width
        }
    }
    IdOver32Bits "an ASID or VMID is read over 32 bits" {
        fn id_below(&self, id: u64, width: u32) -> bool {
            id & 0xFFFF_FFFF < 1 << width
        }
    }
    TopRefused "a range that ends at 2^64 is refused" {
        fn range_good(&self, start: u64, size: u64) -> bool {
            size == u64::MAX || start.checked_add(size).is_some()
        }
    }
    NoWholeSpace "size 2^64 - 1 is a range as every other" {
        fn range_good(&self, start: u64, size: u64) -> bool {
            u128::from(start) + u128::from(size) <= 1 << 64
        }
    }
    SizeZeroRefused "size 0 with another start is refused" {
        fn range_good(&self, start: u64, size: u64) -> bool {
            AsItStands.range_good(start, size) && (size != 0 || start == 0)
        }
    }
    AnyRange "a range that runs past 2^64 is accepted" {
        fn range_good(&self, _start: u64, _size: u64) -> bool {
            true
        }
    }
    SentInFidOrder "sent codes counted in FID order" {
        fn fence_sent(&self, fence: Fence) -> u8 {
            8 + 2 * fence.fid() as u8
        }
    }
    VvmaSwapped "sent codes of the two HFENCE.VVMA swapped" {
        fn fence_sent(&self, fence: Fence) -> u8 {
            match fence {
                Fence::HfenceVvmaAsid => 18,
                Fence::HfenceVvma => 20,
                _ => AsItStands.fence_sent(fence),
            }
        }
    }
    InterruptUncounted "an interrupt counts as FENCE.I" {
        fn interrupt_sent(&self) -> u8 {
            8
        }
    }
    ReceivedAsSent "received has the code of sent" {
        fn received(&self, sent: u8) -> u8 {
            sent
        }
    }
    SentToItself "the caller's own action counts as sent" {
        fn sent_events(&self, _caller: u8, reached: &[u8]) -> usize {
            reached.len()
        }
    }
    SentOnce "one sent event for a call, however many are reached" {
        fn sent_events(&self, caller: u8, reached: &[u8]) -> usize {
            AsItStands.sent_events(caller, reached).min(1)
        }
    }
    ReceivedFromItself "the caller's own action counts as received" {
        fn receives(&self, _caller: u8, _target: u8) -> bool {
            true
        }
    }
}
