//! Tests of the manager over crashes, with records that stand here in full.

mod audits;
mod batches;
mod images;
mod lives;
mod plans;
mod refusals;
mod runs;
