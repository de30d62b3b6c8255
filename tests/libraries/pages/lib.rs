//! Tests of pages of rounds, made of values.
#![tactic(auto)]

#[cfg(test)]
mod pages;
