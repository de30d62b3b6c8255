//! The texts that are displayed.

use run_plan::PlanFault;
use std::alloc::{AllocError, Global};
use vars_macros::MacroFault;

/// These pieces, one behind the other.
pub fn joined(alloc: Global, pieces: &[&str]) -> Result<String, AllocError> {
    let mut text = String::new(alloc);
    for piece in pieces {
        text.push_str(piece)?;
    }
    Ok(text)
}

/// The fault of an expansion.
pub fn macro_fault(alloc: Global, fault: MacroFault) -> Result<String, AllocError> {
    format!(in alloc; "{fault}")
}

/// The fault of a plan.
pub fn plan_fault(alloc: Global, fault: &PlanFault) -> Result<String, AllocError> {
    format!(in alloc; "{fault}")
}

/// A number in decimal digits.
pub fn decimal(alloc: Global, number: usize) -> Result<String, AllocError> {
    format!(in alloc; "{number}")
}

pub fn yes_or_no(answer: bool) -> &'static str {
    if answer { "yes" } else { "no" }
}
