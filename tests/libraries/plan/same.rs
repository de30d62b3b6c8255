//! How a test compares.

use std::process::Abort;

/// Stops the test where what is displayed at a row of a table is not what is due, and names the row.
// A proof spells out each `assert!`, so there is one for texts, and the tests call it.
pub fn same_text(rt: &impl Abort, row: &str, told: &str, due: &str) {
    assert!(rt; told == due, "{row}: {told}");
}
