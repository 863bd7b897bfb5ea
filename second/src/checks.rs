//! When each check of `orders` passes.

use crate::call::Call;
use crate::numbers::SNAPSHOT;
use crate::orders::Check;

/// Whether the call passes the check. One that looks at harts or counters which an earlier check
/// has refused passes.
pub fn passes(call: &Call, check: Check) -> bool {
    let (rules, platform) = (call.rules, call.platform);
    match check {
        Check::HartEnabled => call.named_hart().is_some(),
        Check::HartStopped => named_hart_stopped(call),
        Check::Address => rules.states.address_valid(platform, call.a(1)),
        Check::SuspendType => rules.states.retentive(call.a(0)).is_some(),
        Check::ResumeAddress => {
            rules.states.retentive(call.a(0)) != Some(false)
                || rules.states.address_valid(platform, call.a(1))
        }
        Check::Harts => call.selected().is_some(),
        Check::Asid => rules.traffic.id_below(call.a(4), platform.asid_width()),
        Check::Vmid => rules.traffic.id_below(call.a(4), platform.vmid_width()),
        Check::Hypervisor => selected_have_hypervisor(call),
        Check::Range => rules.traffic.range_good(call.a(2), call.a(3)),
        Check::FlagsUpTo(bit) => call.a(2) >> (bit + 1) == 0,
        Check::Counters => call.counter_set().is_some(),
        Check::Event => rules.counters.event_code(call.a(3)).is_some(),
        Check::EventData => call.a(4) == 0,
        Check::Match => call.chosen().is_some(),
        Check::SetMapped => call.set_counters().iter().all(|c| c.event.is_some()),
        Check::Snapshot => call.a(2) & SNAPSHOT == 0,
        Check::NoneRunning => call.set_counters().iter().all(|c| !c.running),
        Check::AllRunning => call.set_counters().iter().all(|c| c.running),
        Check::Counter => call.named_counter().is_some(),
        Check::CounterMapped => call.named_counter().is_none_or(|c| c.event.is_some()),
    }
}

fn named_hart_stopped(call: &Call) -> bool {
    let hart = call.named_hart();
    hart.is_none_or(|(_, hart)| call.rules.states.may_be_started(hart.state))
}

fn selected_have_hypervisor(call: &Call) -> bool {
    let harts = call.selected();
    harts.is_none_or(|harts| harts.is_subset(call.platform.hypervisor()))
}
