//! How a test compares.

use std::fmt::Debug;
use std::process::Abort;

/// Stops the test where the two differ, and shows both.
// A proof spells out each `assert_eq!`, so there is one, and the tests call it.
pub fn same<T: PartialEq + Debug + Copy>(rt: &impl Abort, found: T, wanted: T) {
    assert_eq!(rt; found, wanted);
}
