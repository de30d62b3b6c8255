//! Tests of `dag_reader` by tables: a text, and what reading it answers.

mod commands;
mod lines;
mod macros;
mod shown;
