//! The product measured beside the second implementation and beside a table sorted by priority.
//!
//! All of them carry out the same adds, drops and look-ups in the same run, one right after the other,
//! so that whatever else the machine does hits all alike. Nothing here fails for being slow.

pub mod case;
pub mod contender;
pub mod figures;
pub mod report;
pub mod workload;
