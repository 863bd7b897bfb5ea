//! A second implementation of document 01, to compare the proved one with byte for byte.
//!
//! The model is [`answer`]: platform, tables, length of the lent action memory and an operation
//! go in; a host refusal, or an answer and the next tables, comes out. [`raw`] holds the same
//! things as plain numbers, so that what is not well formed can be written down too.

pub mod action;
pub mod answer;
pub mod call;
pub mod checks;
pub mod coverage;
pub mod describe;
pub mod effects;
pub mod explain;
pub mod function;
pub mod generate;
pub mod hart;
pub mod lent;
pub mod machine;
pub mod numbers;
pub mod operation;
pub mod orders;
pub mod platform;
pub mod raw;
pub mod record;
pub mod rules;
pub mod script;
pub mod tables;
pub mod transcript;

pub use action::{Action, Kind};
pub use answer::{answer, Answer};
pub use function::{Fence, Function};
pub use hart::{Counter, Hart, SleepNote, State};
pub use machine::Machine;
pub use numbers::{Error, Refusal};
pub use operation::{Operation, Registers};
pub use platform::{BaseNumbers, Platform, Range};
pub use raw::{Ground, RawCounter, RawHart, RawPlatform, RawTables};
pub use rules::{Rules, DOCUMENT_01};
pub use tables::Tables;
