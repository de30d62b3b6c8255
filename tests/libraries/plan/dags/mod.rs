//! Tests of the files of a DAG, from their texts to the plan: `splices`, `dag_graph`, `rescue_file` and
//! `run_plan`.

mod file_sets;
mod graphs;
mod limits;
mod lines;
mod plans;
mod rescue_rows;
mod settings;
mod shown;
mod views;
