//! Tests of submit files, macros, arguments and script words, and of the plans that are made of them.

mod commands;
mod digests;
mod looks;
mod macros;
mod plan_faults;
mod plans;
mod shown;
mod submits;
mod words;
