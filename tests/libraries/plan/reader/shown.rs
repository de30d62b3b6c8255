//! What reading a text answers, as a text.

use crate::same::same_text;
use dag_reader::{ReadFault, read_dag};
use std::alloc::{AllocError, Global};
use std::process::Abort;

/// The commands of a text as they are shown for debugging, or its fault.
fn answer(alloc: Global, text: &[u8]) -> Result<String, AllocError> {
    match read_dag(alloc, text) {
        Ok(file) => format!(in alloc; "{:?}", file.commands),
        Err(ReadFault::Memory) => Err(AllocError),
        Err(ReadFault::Line(fault)) => {
            let span = fault.span();
            format!(in alloc; "{fault} {span}")
        }
    }
}

/// Compares the answer at a text with the one that is wanted.
pub fn compare_one(
    rt: &impl Abort,
    alloc: Global,
    text: &[u8],
    wanted: &str,
) -> Result<(), AllocError> {
    let told = answer(alloc, text)?;
    same_text(rt, wanted, told.as_str(), wanted);
    Ok(())
}

/// Compares the answers at some texts with those that are wanted.
pub fn compare(rt: &impl Abort, alloc: Global, cases: &[(&str, &str)]) -> Result<(), AllocError> {
    for case in cases {
        compare_one(rt, alloc, case.0.as_bytes(), case.1)?;
    }
    Ok(())
}
