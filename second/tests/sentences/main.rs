//! Document 01 sentence by sentence: each test is named after the sentence or edge it runs.

mod blocks;
mod configure;
mod dispatch;
mod edges;
mod errors;
mod events;
mod explain;
mod fences;
mod generator;
mod hart_calls;
mod lives;
mod masks;
mod platforms;
mod program;
mod program_input;
mod refusals;
mod script;
mod start_stop_read;
mod states;
mod well_formed;
mod world;
