//! Tests of journals, of managers over crashes and of audits, with bytes and records that stand here in full.
#![tactic(auto)]

#[cfg(test)]
mod journals;
#[cfg(test)]
mod managers;
#[cfg(test)]
mod same;
