//! Tests of the journal and its disks, with bytes that stand here in full.

mod batches;
mod bytes;
mod disks;
pub mod runs;
