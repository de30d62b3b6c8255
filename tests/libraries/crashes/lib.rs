//! Tests that tear disks: the images that a crash may leave at each moment of a call, each opened again.
#![tactic(auto)]

#[cfg(test)]
mod drives;
#[cfg(test)]
mod images;
#[cfg(test)]
mod journals;
#[cfg(test)]
mod managers;
#[cfg(test)]
mod plans;
#[cfg(test)]
mod readings;
#[cfg(test)]
mod rescues;
#[cfg(test)]
mod same;
