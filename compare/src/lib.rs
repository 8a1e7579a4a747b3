//! The product beside the second implementation.
//!
//! The product is called through its C interface, the second implementation as a Rust library. Two
//! programs are made of this: `compare` looks for a difference, `benchmark` measures both.

pub mod answering;
pub mod benchmark;
pub mod caller;
pub mod files;
pub mod interface;
pub mod lock_step;
pub mod matter;
pub mod tally;
