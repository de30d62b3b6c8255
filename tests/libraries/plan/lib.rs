//! Tests of what the files of a DAG say, from the words of a line to the commands of a plan.
#![tactic(auto)]

#[cfg(test)]
mod built;
#[cfg(test)]
mod dags;
#[cfg(test)]
mod jobs;
#[cfg(test)]
mod reader;
#[cfg(test)]
mod same;
