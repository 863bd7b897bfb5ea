//! Breaks of dispatch, of the error pairs and of who may ask.

use second::call::Call;
use second::effects;
use second::function::Function;
use second::hart::State;
use second::numbers::{Error, EXTENSIONS};
use second::rules::AsItStands;
use second::tables::Tables;

known_breaks! { calls CallRules:
    EidOver32Bits "EID compared over 32 bits" {
        fn eid(&self, a7: u64) -> u64 {
            a7 & 0xFFFF_FFFF
        }
    }
    FidOver32Bits "FID compared over 32 bits" {
        fn fid(&self, a6: u64) -> u64 {
            a6 & 0xFFFF_FFFF
        }
    }
    ProbeOver32Bits "probe reads 32 bits" {
        fn probe(&self, a0: u64) -> u64 {
            AsItStands.probe(a0 & 0xFFFF_FFFF)
        }
    }
    ProbeFindsTimer "probe finds the timer" {
        fn probe(&self, a0: u64) -> u64 {
            u64::from(EXTENSIONS.contains(&a0) || a0 == 0x54494D45)
        }
    }
    ValueOnError "a1 is not 0 on an error" {
        fn value_on_error(&self, _error: Error) -> u64 {
            1
        }
    }
    StartOfSome "a start with -7 starts its counters all the same" {
        fn tables_on_error(&self, call: &Call, error: Error) -> Tables {
            if error == Error::AlreadyStarted {
                effects::of(call, Function::CounterStart).tables
            } else {
                call.tables.clone()
            }
        }
    }
    StopOfSome "a stop with -8 stops its counters all the same" {
        fn tables_on_error(&self, call: &Call, error: Error) -> Tables {
            if error == Error::AlreadyStopped {
                effects::of(call, Function::CounterStop).tables
            } else {
                call.tables.clone()
            }
        }
    }
    AnyHartCalls "no H3: a hart in any state may call" {
        fn may_call(&self, _state: State) -> bool {
            true
        }
    }
    ResumingHartCalls "a hart in RESUME_PENDING may call" {
        fn may_call(&self, state: State) -> bool {
            matches!(state, State::Started | State::ResumePending)
        }
    }
    AnyCodeReported "no H6: every countable code may be reported" {
        fn reported(&self, code: u64) -> Option<u8> {
            (code <= 21).then_some(code as u8)
        }
    }
    CodeOver32Bits "a reported code is read over 32 bits" {
        fn reported(&self, code: u64) -> Option<u8> {
            AsItStands.reported(code & 0xFFFF_FFFF)
        }
    }
    TimerNotReported "reported code 5 is refused" {
        fn reported(&self, code: u64) -> Option<u8> {
            AsItStands.reported(code).filter(|&code| code < 5)
        }
    }
}
