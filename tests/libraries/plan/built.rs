//! Sets of files, their graphs, and what building a plan of one comes to.

use dag_graph::Graph;
use run_plan::{Plan, PlanFault};
use splices::{FileSet, open_dag};
use std::alloc::{AllocError, Global};
use std::test::Fail;

/// These files.
pub fn files_of(alloc: Global, texts: &[(&str, &str)]) -> Result<FileSet, AllocError> {
    let mut files = FileSet::new(alloc);
    for (name, text) in texts {
        files.add(alloc, name, text.as_bytes())?;
    }
    Ok(files)
}

/// The graph of the files of this path.
pub fn graph_of(alloc: Global, files: &FileSet, top: &str) -> Result<Graph, Fail> {
    let dag = open_dag(alloc, files, top)?;
    Ok(Graph::build(alloc, dag)?)
}

/// A plan, or the graph of which there is none, with the fault.
///
/// A value of many parts is dropped by a call, since a proof spells each part where a block's end
/// drops it.
#[derive(Drop)]
pub enum Built {
    Planned(Plan),
    Refused(Graph, PlanFault),
}

/// What building a plan comes to.
pub fn built_of(outcome: Result<Plan, (Graph, PlanFault)>) -> Built {
    match outcome {
        Ok(plan) => Built::Planned(plan),
        Err((graph, fault)) => Built::Refused(graph, fault),
    }
}
