//! The timer wheel and delay queue of wasmtimer 0.4.3, its text unchanged but for the edits of
//! tails.rs, behind the replay bench.

// The wheel's text is a module twice: watched, and inside the whole.
#![allow(clippy::duplicate_mod)]

// Modules `wheel` and `tokio_util`: the original's own text, brought in by build.rs.
include!(concat!(env!("OUT_DIR"), "/original.rs"));

// The original names `crate::std::Instant` and `crate::tokio::Sleep`; these stand in for them.
#[path = "stand_ins/std.rs"]
mod std;
#[path = "stand_ins/tokio.rs"]
mod tokio;

pub use tokio_util::delay_queue::whole;

pub mod bench;
pub mod compare;
pub mod exit;
pub mod gauge;
pub mod generator;
pub mod journal;
pub mod line;
mod malformed;
mod original;
pub mod past;
#[allow(dead_code)] // the original's slab can do more than is asked of it
mod queue;
pub mod rng;
pub mod rules;
pub mod script;
pub mod short;
mod store;
pub mod tally;
