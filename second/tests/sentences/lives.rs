//! Long lives: what holds after every step of a generated transcript.

use second::generate::Life;
use second::record::Record;
use second::{Operation, Platform, RawTables, State};

const SEEDS: u64 = 6;
const RECORDS: usize = 700;

/// Runs lives and shows each step: the operation, the tables before and after, and whether it
/// was answered without an error.
fn each_step(mut check: impl FnMut(&Operation, &RawTables, &RawTables, bool)) {
    for seed in 0..SEEDS {
        let mut life = Life::new(seed, RECORDS);
        while life.left > 0 {
            let words = life.next_record();
            if let Record::Used(operation) = Record::of(&words) {
                let before = RawTables::from(life.machine.tables());
                let outcome = life.machine.clone().step(&operation);
                let accepted = outcome.is_ok_and(|answer| answer.error == 0);
                life.live(&words);
                let after = RawTables::from(life.machine.tables());
                check(&operation, &before, &after, accepted);
            } else {
                life.live(&words);
            }
        }
    }
}

#[test]
fn tables_stay_well_formed() {
    let platform = Platform::program();
    each_step(|_, _, after, _| assert!(after.checked(&platform).is_ok()));
}

#[test]
fn every_refusal_leaves_the_tables_unaltered() {
    each_step(|_, before, after, accepted| assert!(accepted || before == after));
}

#[test]
fn a_hart_goes_only_where_the_states_allow() {
    use State::*;
    let allowed = [
        (Stopped, StartPending),
        (StartPending, Started),
        (Started, StopPending),
        (StopPending, Stopped),
        (Started, SuspendPending),
        (SuspendPending, Suspended),
        (Suspended, ResumePending),
        (ResumePending, Started),
    ];
    let allowed = allowed.map(|(a, b)| (a.number(), b.number()));
    each_step(|_, before, after, _| {
        for (b, a) in before.harts.iter().zip(after.harts.iter()) {
            assert!(b.state == a.state || allowed.contains(&(b.state, a.state)));
        }
    });
}

#[test]
fn at_most_one_hart_changes_its_state() {
    each_step(|_, before, after, _| {
        let harts = before.harts.iter().zip(after.harts.iter());
        assert!(harts.filter(|(b, a)| b.state != a.state).count() <= 1);
    });
}

#[test]
fn a_sleep_note_changes_only_by_its_harts_suspend() {
    each_step(|operation, before, after, accepted| {
        for hart in 0..128 {
            if before.harts[hart].sleep != after.harts[hart].sleep {
                assert!(accepted && operation.hart() == hart as u64);
                assert_eq!(after.harts[hart].state, State::SuspendPending.number());
            }
        }
    });
}

#[test]
fn a_mapping_changes_only_by_its_own_harts_call() {
    each_step(|operation, before, after, _| {
        for hart in (0..128).filter(|&hart| hart as u64 != operation.hart()) {
            for (b, a) in before.harts[hart]
                .counters
                .iter()
                .zip(after.harts[hart].counters)
            {
                assert_eq!((b.event, b.running), (a.event, a.running));
            }
        }
    });
}
