//! Tests of what is answered of folders and printed on consoles, over ones in memory.
#![tactic(auto)]

#[cfg(test)]
mod advice;
#[cfg(test)]
mod audits;
#[cfg(test)]
mod begun;
#[cfg(test)]
mod checks;
#[cfg(test)]
mod consoles;
#[cfg(test)]
mod folders;
#[cfg(test)]
mod folds;
#[cfg(test)]
mod phases;
#[cfg(test)]
mod same;
#[cfg(test)]
mod statuses;
#[cfg(test)]
mod times;
#[cfg(test)]
mod whys;
