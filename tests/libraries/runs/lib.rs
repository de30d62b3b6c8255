//! Tests of starters, and of runs that they are driven with.
#![tactic(auto)]

#[cfg(test)]
mod children;
#[cfg(test)]
mod cores;
#[cfg(test)]
mod course;
#[cfg(test)]
mod faults;
#[cfg(test)]
mod first_lives;
#[cfg(test)]
mod gathering;
#[cfg(test)]
mod memory;
#[cfg(test)]
mod plans;
#[cfg(test)]
mod rounds;
#[cfg(test)]
mod same;
#[cfg(test)]
mod scripts;
