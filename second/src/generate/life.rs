//! A life: the machine so far, the records that are planned, and the choice of the next ones.

use std::collections::VecDeque;

use super::{counters, edges, scripts, states, strange, traffic, Rng, Words};
use crate::hart::{Counter, State};
use crate::machine::Machine;
use crate::platform::Platform;
use crate::record::{Record, CALL, RECORD_WORDS};

/// Makes one or more records that belong together; none if the machine does not allow it now.
type Theme = fn(&mut Life) -> Vec<Words>;

/// How often each theme is tried.
const THEMES: &[(usize, Theme)] = &[
    (30, states::go_on),
    (14, states::start),
    (14, states::suspend),
    (5, states::stop),
    (9, states::status),
    (12, traffic::interrupt),
    (18, traffic::fence),
    (12, counters::configure),
    (12, counters::start),
    (9, counters::stop),
    (14, counters::read),
    (5, counters::ask),
    (10, counters::event),
    (4, strange::base),
    (4, strange::unknown_function),
    (4, strange::caller_not_started),
    (4, strange::turn_not_allowed),
    (3, strange::hart_not_enabled),
    (3, strange::unknown_kind),
    (2, scripts::audit),
    (6, scripts::exchange),
    (2, scripts::wrap),
    (2, scripts::two_sleeps),
    (2, scripts::unmap_and_map),
];

pub struct Life {
    pub rng: Rng,
    pub machine: Machine,
    /// Records still to come in right blocks.
    pub left: usize,
    planned: VecDeque<Words>,
}

impl Life {
    pub fn new(seed: u64, records: usize) -> Life {
        Life {
            rng: Rng::new(seed),
            machine: Machine::fresh(Platform::program()),
            left: records,
            planned: VecDeque::new(),
        }
    }

    /// The next record: a planned one, or the first of a new theme.
    pub fn next_record(&mut self) -> Words {
        if self.planned.is_empty() {
            let records = self.theme();
            self.planned.extend(records);
        }
        self.planned.pop_front().unwrap_or([0; RECORD_WORDS])
    }

    /// Steps the machine with a record.
    pub fn live(&mut self, record: &Words) {
        self.left -= 1;
        if let Record::Used(operation) = Record::of(record) {
            // A refusal leaves the machine as it is, which is what the program does too.
            let _ = self.machine.step(&operation);
        }
    }

    /// The records of a theme that the machine allows, at least one.
    pub fn theme(&mut self) -> Vec<Words> {
        let whole: usize = THEMES.iter().map(|(weight, _)| weight).sum();
        loop {
            let mut drawn = self.rng.below(whole);
            for (weight, theme) in THEMES {
                if drawn < *weight {
                    let records = theme(self);
                    if !records.is_empty() {
                        return records;
                    }
                    break;
                }
                drawn -= weight;
            }
        }
    }

    /// A hart that can call.
    pub fn caller(&mut self) -> Option<u8> {
        let started = self.machine.tables().harts_where(|s| s == State::Started);
        self.rng.pick_any(&started)
    }

    /// The counters of a hart that meet a condition.
    pub fn counters_where(&self, hart: u8, condition: fn(&Counter) -> bool) -> Vec<usize> {
        let record = self.machine.tables().hart(hart);
        let counters = record.map_or(&[][..], |h| &h.counters);
        let places = (0..counters.len()).filter(|&c| condition(&counters[c]));
        places.collect()
    }

    /// A call as it stands, with 0 in the registers that it does not name.
    pub fn plain_call(hart: u8, eid: u64, fid: u64, arguments: &[u64]) -> Words {
        let mut words = [0; RECORD_WORDS];
        words[..3].copy_from_slice(&[CALL + u64::from(hart), eid, fid]);
        words[3..3 + arguments.len()].copy_from_slice(arguments);
        words
    }

    /// A call with garbage in registers that it does not read, and now and then a spoilt word.
    pub fn call(&mut self, hart: u8, eid: u64, fid: u64, arguments: &[u64]) -> Vec<Words> {
        let mut words = Life::plain_call(hart, eid, fid, arguments);
        if self.rng.chance(1, 2) {
            words[3 + arguments.len()..].fill_with(|| edges::word(&mut self.rng));
        }
        match self.rng.below(60) {
            0 => words[1] = edges::with_high_bits(&mut self.rng, eid),
            1 => words[2] = edges::with_high_bits(&mut self.rng, fid),
            2 | 3 => words[3 + self.rng.below(6)] = edges::word(&mut self.rng),
            _ => {}
        }
        vec![words]
    }
}
