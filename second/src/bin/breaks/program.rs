//! Breaks of the transcript program.

use second::platform::Platform;
use second::record::{Record, RECORD_WORDS};
use second::rules::AsItStands;
use second::tables::Tables;

known_breaks! { program ProgramRules:
    EveryBlockRight "no H8: every block is right" {
        fn block_right(&self, _words: &[u64; 64]) -> bool {
            true
        }
    }
    CheckOver32Bits "the sum of a block is compared over 32 bits" {
        fn block_right(&self, words: &[u64; 64]) -> bool {
            words.iter().fold(0, |sum: u64, &w| sum.wrapping_add(w)) as u32 == 1
        }
    }
    CheckAtMostOne "a block that sums to 0 is right" {
        fn block_right(&self, words: &[u64; 64]) -> bool {
            words.iter().fold(0, |sum: u64, &w| sum.wrapping_add(w)) <= 1
        }
    }
    KindOver32Bits "the first word is read over 32 bits" {
        fn record(&self, words: &[u64; RECORD_WORDS]) -> Record {
            let mut words = *words;
            words[0] &= 0xFFFF_FFFF;
            Record::of(&words)
        }
    }
    HartOver127 "h over 127 is H2 and not H7" {
        fn record(&self, words: &[u64; RECORD_WORDS]) -> Record {
            let mut words = *words;
            if (256..1280).contains(&words[0]) && words[0] % 256 > 127 {
                words[0] = words[0] - words[0] % 256 + 127;
            }
            Record::of(&words)
        }
    }
    UnusedLookedAt "an unused record with other words is an unknown kind" {
        fn record(&self, words: &[u64; RECORD_WORDS]) -> Record {
            match Record::of(words) {
                Record::Unused if words.iter().any(|&w| w != 0) => Record::UnknownKind,
                record => record,
            }
        }
    }
    UnknownKindNumberless "an unknown kind takes no number" {
        fn number_after(&self, record: &Record, number: u64) -> u64 {
            match record {
                Record::UnknownKind => number,
                _ => AsItStands.number_after(record, number),
            }
        }
    }
    UnusedNumbered "an unused record takes a number" {
        fn number_after(&self, _record: &Record, number: u64) -> u64 {
            number + 1
        }
    }
    WrongBlockNumbered "a wrong block takes a number" {
        fn number_after_wrong_block(&self, number: u64) -> u64 {
            number + 1
        }
    }
    NotCarried "every block begins with fresh tables" {
        fn carried(&self, platform: &Platform, _tables: &Tables) -> Tables {
            Tables::fresh(platform)
        }
    }
    NeverShort "a short last block prints nothing" {
        fn prints_short(&self, _left_over: usize) -> bool {
            false
        }
    }
    AlwaysShort "an input that ends with a block prints short" {
        fn prints_short(&self, _left_over: usize) -> bool {
            true
        }
    }
}
